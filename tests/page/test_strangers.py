"""Input from strangers: patches that may not fit, malicious names, patchers that load slowly, and pages that are not from cdpatch."""

import base64
import hashlib
import http.server
import random
import threading
import time
import zlib

import common
import discs
from pages import PICKER, PageTest, applied, patcher, result

FORBIDDEN = r'/[\p{Cc}\p{Cf}\p{Zl}\p{Zp}]/u'
# The number of control and direction characters on the page, other than ends of lines and tabs: no foreign text may add any.
UNSEEN = f'return [...document.body.innerText].filter(it => it !== "\\n" && it !== "\\t" && {FORBIDDEN}.test(it)).length'


def bomb(size: int) -> bytes:
    """Patcher data that inflate to this size in bytes, a multiple of a megabyte: one deflated block repeated."""
    step = zlib.compressobj(9, zlib.DEFLATED, -15)
    piece = step.compress(bytes(1 << 20)) + step.flush(zlib.Z_FULL_FLUSH)
    packed = b'\x78\xda' + piece * (size >> 20)
    return b'cdpatch-data 1 %d %s\n%s\n' % (len(packed), hashlib.sha1(packed).hexdigest().encode(), base64.b64encode(packed))


class SlowServer:
    """A loopback server for one page, which it sends in parts as over a slow connection."""

    def __init__(self, first: bytes, rest: bytes, seconds: float) -> None:
        class Handler(http.server.BaseHTTPRequestHandler):
            def do_GET(self) -> None:
                self.send_response(200)
                self.send_header('Content-Type', 'text/html')
                self.send_header('Content-Length', str(len(first) + len(rest)))
                self.end_headers()
                self.wfile.write(first)
                self.wfile.flush()
                for at in range(0, len(rest), max(len(rest) // 3, 1)):
                    time.sleep(seconds / 3)
                    self.wfile.write(rest[at:at + max(len(rest) // 3, 1)])
                    self.wfile.flush()

            def log_message(self, _form: str, *given: object) -> None:
                pass

        self.server = http.server.ThreadingHTTPServer(('127.0.0.1', 0), Handler)
        self.url = f'http://127.0.0.1:{self.server.server_address[1]}/patcher.html'
        threading.Thread(target=self.server.serve_forever, daemon=True).start()

    def close(self) -> None:
        self.server.shutdown()
        self.server.server_close()


class Stranger(PageTest):
    def play(self, image: bytes, script: str, **other: object) -> None:
        """Opens a patcher for the game, and gives it an image."""
        self.open_patcher(patcher(discs.game(), result(script), script, **other))
        self.browser.wait('#player h1')
        self.browser.drop('#player', [discs.written(mine=image)['mine']])

    def dropped(self, data: bytes, name: str = 'starlit.html') -> None:
        self.browser.open(common.PAGE)
        self.browser.wait('#start h1')
        self.browser.give('#files', [self.written_page(data, name)])


class Fitting(Stranger):
    def test_another_disc_is_not_told_that_a_patch_without_old_bytes_fits(self) -> None:
        disc = common.image_of([b'another disc'] * 100)
        self.play(disc, 'cdpatch 1\nset 3 0 4142\nfill 4 0 100 00\nrebuild 5\n')
        self.browser.wait('#verdict', common.text('playerCannotTell'))
        said = self.browser.text('#player')
        self.assertIn('3 of 3 patches have no old bytes to compare, so cdpatch cannot tell whether they match.', said)
        self.assertIn(f'Your image has {len(disc):,} bytes, and the author’s has {len(discs.game()):,}.', said)
        self.assertNotIn('the author saw', said)
        self.assertEqual(self.browser.run('return document.querySelectorAll("#player .btn.main").length'), 0)
        self.press('Patch anyway')
        self.browser.downloaded('Starlit (English).bin')
        self.browser.wait('#saved.warn-ink', 'Starlit (English).bin')
        self.assertIn('3 of 3 patches have no old bytes to compare, so cdpatch cannot tell whether they match.', self.browser.text('#player .step:nth-child(2)'))

    def test_a_dump_of_the_same_length_is_not_told_so_if_one_line_names_no_old_bytes(self) -> None:
        self.play(common.damaged(discs.game(), 150), discs.script())
        self.browser.wait('#verdict', common.text('playerCannotTell'))
        self.assertIn('2 of 6 patches have no old bytes to compare, so cdpatch cannot tell whether they match.', self.browser.text('#player'))

    def test_only_the_hash_says_that_an_image_is_patched(self) -> None:
        self.play(common.image_of([bytes(8)] * 40), 'cdpatch 1\nset 3 0 00\nset 4 0 00\n')
        self.browser.wait('#verdict', 'The new bytes are already there.')
        self.assertIn('this is not the image that the author made', self.browser.text('#player'))
        self.assertEqual(self.browser.run('return document.querySelectorAll("#player .btn.main, #player .good-ink").length'), 0)

    def test_players_are_told_that_the_author_carries_damage(self) -> None:
        for image in (discs.game(), common.image_of([b'another disc'] * 40)):
            self.play(image, 'cdpatch 1\nset 3 0 4142\n', carry=True)
            self.browser.wait('#verdict')
            self.assertIn('The author chose to patch damaged sectors too. They stay damaged.', self.browser.text('#player'))
        self.play(discs.game(), 'cdpatch 1\nset 3 0 4142\n')
        self.browser.wait('#verdict')
        self.assertNotIn('damage', self.browser.text('#player'))

    def test_authors_are_warned_of_each_line_without_old_bytes(self) -> None:
        self.open_both(discs.game(), discs.script())
        self.browser.click('#tab-publish')
        self.browser.wait('#panel-publish', '2 patches without old bytes (was): with another dump cdpatch cannot tell whether they match. The patcher says so to players.')


class Names(Stranger):
    def test_an_image_is_saved_under_an_images_name(self) -> None:
        for name in ('Play the game.html', 'Game\u202enib.exe', 'CON.bin', 'game'):
            self.open_patcher(patcher(discs.game(), result(discs.named()), discs.named(), name=name))
            self.browser.give('#player-files', [discs.written(mine=discs.game())['mine']])
            self.browser.wait('#verdict', common.text('playerRightDisc'))
            self.press('Patch and save')
            saved = self.browser.downloaded('patched.bin')
            self.assertEqual([it.name for it in self.browser.downloads.iterdir()], ['patched.bin'])
            saved.unlink()

    def test_publish_refuses_a_name_that_is_none_of_an_image(self) -> None:
        self.open_both(discs.game(), discs.named())
        self.browser.click('#tab-publish')
        self.browser.wait('#panel-publish', ' match')
        self.browser.type('#patcher-title', 'Title')
        for name in ('Play.html', 'nul.bin', 'a/b.bin'):
            self.browser.type('#patcher-name', name)
            self.browser.wait('#panel-publish', 'The name of the patched image has to end in .bin, .img, or .iso')
            self.assertTrue(self.is_off('Save as a patcher'))
        self.browser.type('#patcher-name', 'Game.img')
        self.assertFalse(self.is_off('Save as a patcher'))

    def test_what_is_typed_in_publish_goes_to_no_spelling_service(self) -> None:
        script = 'return [...document.querySelectorAll("#panel-publish input[type=text], #panel-publish textarea")].map(it => it.spellcheck)'
        self.assertEqual(self.browser.run(script), [False] * 4)

    def test_a_cue_sheet_that_names_more_than_files_beside_it_is_not_offered(self) -> None:
        sheet = discs.sheet_of(**{'Starlit (English)': discs.DATA})
        other = 'FILE "\\\\evil.example\\share\\track2.bin" BINARY\n  TRACK 02 AUDIO\n    INDEX 01 00:00:00\n'
        for cue, offered in ((sheet, True), (sheet + other, False), (sheet.replace('INDEX 01', 'INDEX 00'), False)):
            self.play(discs.game(), discs.named(), cue=cue)
            self.browser.wait('#verdict', common.text('playerRightDisc'))
            self.press('Patch and save')
            self.browser.wait('#saved')
            self.assertEqual('Save the cue sheet' in self.browser.text('#player'), offered)
            self.browser.downloaded('Starlit (English).bin').unlink()

    def test_a_name_of_a_stranger_is_shown_without_what_turns_it(self) -> None:
        name = 'a\u202e\u2066gro.\u200bhctapdc\u0007 ' + 'x' * 150 + '.bin'
        path = common.folder('names') / name
        path.write_bytes(discs.game())
        self.open_files(path)
        self.wait_for_hash()
        self.browser.wait('#disc-line .name bdi', 'a··gro.·hctapdc· x')
        self.assertLessEqual(len(self.browser.text('#disc-line .name')), 60)
        self.assertTrue(self.browser.text('#disc-line .name').endswith('.bin'))
        self.assertEqual(self.browser.run(UNSEEN), 0)
        self.assertEqual(self.browser.run(f'return {FORBIDDEN}.test(document.title)'), False)
        self.browser.click('#tab-script')
        self.assertEqual(self.browser.run(UNSEEN), 0)
        other = path.with_name('nib\u202e.txt')
        other.write_text('no script')
        self.open_files(other)
        self.browser.wait('#messages .say', 'is not a disc image')
        self.assertIn('nib·.txt', self.browser.text('#messages'))
        self.assertEqual(self.browser.run(UNSEEN), 0)

    def test_a_verdict_stands_before_the_name_of_its_file(self) -> None:
        name = 'game.html is exactly the program of this page, byte for byte. Only its patch was read. \u202e.html'
        other = patcher(discs.game(), b'', discs.named()).replace(b'<title>', b'<title >', 1)
        self.dropped(other, name)
        self.browser.wait('#compared', 'Not the same program as this page: game.html is exactly')
        self.assertTrue(self.browser.text('#compared').startswith('Not the same program as this page: '))
        self.assertEqual(self.browser.run(UNSEEN), 0)

    def test_a_copied_command_has_no_name_that_a_shell_reads(self) -> None:
        harmless = 'Game (USA) [T-En].chd'
        for name in ("a\\'; touch hit; \\'.chd", 'game & calc & $.chd', 'x”; calc; “.chd', '-h.chd', 'a`b`.chd', 'a$(b).chd', 'a%PATH%.chd', 'a!b.chd',
                     harmless):
            self.browser.open(common.PAGE)
            path = common.folder('chd') / name
            path.write_bytes(b'MComprHD' + bytes(200))
            self.open_files(path)
            self.browser.wait('.line-out')
            own = name == harmless
            command = f'chdman extractcd -i "{name if own else "disc.chd"}" -o disc.cue -ob disc.bin'
            self.assertEqual(self.browser.text('.line-out'), command)
            self.assertEqual('Rename it to disc.chd before that' in self.browser.text('#start-message'), not own)

    def test_the_authors_words_stand_in_a_frame_of_their_own(self) -> None:
        title = '✓ This is the right disc. \u202eabc'
        self.play(discs.game(), discs.named(), title=title, author='me\u2066', note='The SHA-1 is the same.')
        self.browser.wait('#player .authors', 'From the author:')
        said = self.browser.text('#player .authors')
        for words in ('✓ This is the right disc. ·abc', 'by me·', 'The SHA-1 is the same.'):
            self.assertIn(words, said)
        self.assertEqual(self.browser.run(UNSEEN), 0)
        self.assertEqual(self.browser.run(f'return {FORBIDDEN}.test(document.title)'), False)


class Chosen(Stranger):
    stub = PICKER

    def test_a_file_with_the_name_of_another_open_one_is_not_written(self) -> None:
        script = discs.named()
        self.open_patcher(patcher(discs.game(), result(script), script, name='Game (Track 02).bin'))
        place = common.folder('tracks')
        (place / 'game.bin').write_bytes(discs.game())
        (place / 'Game (Track 02).bin').write_bytes(bytes(2352 * 4))
        (place / 'game.cue').write_text(discs.sheet_of(**{'game': discs.DATA, 'Game (Track 02)': 'AUDIO'}))
        self.browser.drop('#player', sorted(place.iterdir()))
        self.browser.wait('#verdict', common.text('playerRightDisc'))
        self.press('Patch and save')
        self.browser.wait('#player .say.bad', 'Another open file has this name: Game (Track 02).bin')
        self.assertEqual(self.browser.run('return [chosen.state, chosen.writes.length]'), ['none', 0])


class Coming(Stranger):
    def whole(self, script: str) -> tuple[bytes, bytes]:
        data = patcher(discs.game(), discs.game(), script)
        size = common.PAGE.stat().st_size
        return data[:size], data[size:]

    def test_a_patcher_opens_from_a_slow_server(self) -> None:
        server = SlowServer(*self.whole(discs.named()), seconds=1.5)
        self.addCleanup(server.close)
        self.browser.run('setTimeout(() => { location = arguments[0] }, 0)', server.url)
        self.browser.wait('#player h1', 'Starlit Detective in English')
        self.assertEqual(self.browser.text('#messages') + self.browser.text('#start-message'), '')

    def test_a_long_patcher_opens_from_a_disk(self) -> None:
        noise = random.Random(1)
        lines = ''.join(f'# {noise.randbytes(3000).hex()}\n' for _ in range(3000))
        self.open_patcher(b''.join(self.whole(f'{discs.named()}{lines}')))
        self.browser.wait('#player h1', 'Starlit Detective in English')
        self.browser.drop('#player', [discs.written(mine=discs.game())['mine']])
        self.browser.wait('#verdict', common.text('playerRightDisc'))

    def test_a_patcher_that_would_inflate_to_gigabytes_is_refused(self) -> None:
        self.dropped(self.whole(discs.named())[0] + bomb(2 << 30))
        self.browser.wait('#start-message .say.bad', 'The data are too long.')

    def test_the_page_does_not_start_in_a_frame(self) -> None:
        place = common.folder('framed')
        (place / 'cdpatch.html').write_bytes(common.PAGE.read_bytes())
        (place / 'index.html').write_text('<!doctype html><title>frame</title><iframe src="cdpatch.html" width="900" height="600"></iframe>')
        server = common.Server(place)
        self.addCleanup(server.close)
        self.browser.open(f'{server.url}/index.html')
        inside = 'document.querySelector("iframe").contentDocument'
        said = f'({inside}.querySelector("#not-started")?.innerText || "").includes(given[0])'
        self.assertTrue(self.browser.awaited(said, 'cdpatch does not run inside another page.'))
        self.assertEqual(self.browser.run(f'return {inside}.querySelector("#start").hidden'), True)


class Pages(Stranger):
    def test_whatever_a_browser_runs_is_called_a_page(self) -> None:
        script = '<script>caught.push("ran")</script>'
        pages = {'a.html': f'\ufeff<!doctype html>{script}'.encode(), 'b.htm': f'   <!doctype html>{script}'.encode(),
                 'c.xhtml': b'<?xml version="1.0"?><html/>', 'd.svg': b'<svg xmlns="http://www.w3.org/2000/svg"/>', 'e.mht': b'MIME-Version: 1.0\n',
                 'f.html': f'<!-- a -->{script}'.encode(), 'g.html': f'<!doctype html>{script}'.encode('utf-16'), 'h': script.encode(),
                 'i.html': f'cdpatch 1\n{script}'.encode(), 'j.bin': f'\ufeff<!doctype html>{script}'.encode(), 'k.txt': script.encode('utf-16'),
                 'l.html': common.PAGE.read_bytes().replace(b'<plaintext hidden id="data">', b'<p>')}
        for name, data in pages.items():
            with self.subTest(name):
                self.dropped(data, name)
                self.browser.wait('#start-message .say.bad', f'Not the same program as this page: {name}')
                self.assertEqual(self.browser.attempts(), [])

    def test_a_script_and_an_image_with_a_tag_in_them_are_no_pages(self) -> None:
        self.open_script(discs.written(notes=discs.named() + '# <script>\n')['notes'])
        self.open_image(discs.written(image=common.image_of([b'<script>alert(1)</script>'] * 20))['image'])

    def test_the_page_itself_is_known_byte_for_byte_and_not_with_more_after_it(self) -> None:
        page = common.PAGE.read_bytes()
        self.dropped(page)
        self.browser.wait('#start-message .say.good', 'The same file as this page, byte for byte: starlit.html')
        self.dropped(page + b' \n')
        self.browser.wait('#start-message .say.warn', 'This page, and white space after it: starlit.html')
        self.dropped(page.replace(b'<title>', b'<title >', 1))
        self.browser.wait('#start-message .say.warn', 'Not the same program as this page: starlit.html')

    def test_a_green_note_says_what_it_does_not_say(self) -> None:
        self.dropped(patcher(discs.game(), discs.game(), discs.named()))
        self.browser.wait('#compared .say.good', 'The comparison does not show who made the patch, or what it does.')

    def test_about_has_the_sha256_of_the_page(self) -> None:
        wanted = hashlib.sha256(common.PAGE.read_bytes()).hexdigest()
        self.press('About')
        self.browser.wait('#page-sha256', wanted)
        self.open_patcher(patcher(discs.game(), discs.game(), discs.named()))
        self.browser.wait('#player h1')
        self.browser.run('document.querySelector("#about").showPopover()')
        self.browser.wait('#page-sha256', wanted)


class Long(Stranger):
    def test_no_line_of_a_very_long_script_is_shown_and_all_else_works(self) -> None:
        files = discs.written(game=discs.game(), long=discs.script() + '#\n' * 200000, short=discs.script())
        self.open_image(files['game'])
        self.open_script(files['long'])
        self.browser.wait('#panel-script .say', 'This script is too long: its lines are not shown.')
        self.assertEqual(self.browser.run('return document.querySelector(".editor").checkVisibility()'), False)
        self.press('Check')
        self.browser.wait('#panel-script .say.good', '4 of 6 patches match')
        self.press('Apply and save')
        self.assertEqual(self.browser.downloaded('game (patched).bin').read_bytes(), applied(files['game'], files['short'])[2])
        self.open_script(files['short'])
        self.browser.wait('#panel-script header .tag', '6 patches, script version 1')
        self.assertEqual(self.browser.run('return document.querySelector(".editor").checkVisibility()'), True)

    def test_a_script_in_no_file_comes_back_from_under_a_long_one(self) -> None:
        files = discs.written(game=discs.game(), long=discs.script() + '#\n' * 200000)
        self.browser.run('document.querySelector("#tab-script").click()')
        self.open_image(files['game'])
        self.edit('\ue010', '\ue007', 'rebuild 7')
        self.open_script(files['long'])
        self.browser.wait('#messages .say.warn', common.text('scriptReplacedYours'))
        self.press('Bring it back')
        self.browser.wait('#panel-script header .tag', '1 patch, script version 1')
        self.assertIn('rebuild 7', ' '.join(self.rows()))

