"""The page sends nothing: the browser's log of a complete walk, the policy, and the words of the page's own text."""

import base64
import gzip
import hashlib
import re
import subprocess
import zlib
from collections.abc import Callable

import chromium
import common
import discs
from pages import NO_PICKER, PageTest, patcher

POLICY = ("default-src 'none'; script-src 'sha256-{loader}' 'sha256-{script}' 'wasm-unsafe-eval'; style-src 'sha256-{style}'; worker-src blob:; "
          "img-src data: blob:; connect-src 'none'; form-action 'none'; base-uri 'none'; require-trusted-types-for 'script'; "
          "trusted-types cdpatch cdpatch-script")

# Ways to send that the policy does not stop, or that the page does not need. Its own text has none of them.
SENDING = [r'\bfetch\s*\(', 'XMLHttpRequest', 'WebSocket', 'EventSource', 'WebTransport', 'RTCPeerConnection', 'sendBeacon', 'importScripts',
           r'\blocation\s*=', r'location\.(href|replace|assign)\b', r'window\.open\b', r'\.submit\s*\(', r'\.src\s*=', r'\.action\s*=',
           'serviceWorker', r'\beval\s*\(', r'new Function\b', 'innerHTML', 'outerHTML', 'insertAdjacentHTML', r'document\.write\b',
           r"\bhref:\s*['\"`](?!blob|#)", r'\bimport\s*\(']
MARKUP = [r'<iframe', r'<form', r'<object', r'<embed', r'<base\b', r'http-equiv="refresh"', r'<link(?! rel="icon" href="data:)', r'\son\w+=', r'\sstyle="',
          r'\shref="(?!#|data:)', r'\ssrc="']


def page() -> str:
    return common.PAGE.read_text(encoding='utf-8')


def part(tag: str) -> str:
    """The content of the page's one script, which is the loader, or style."""
    found = re.findall(rf'<{tag}>(.*?)</{tag}>', page(), re.DOTALL)
    assert len(found) == 1, f'{len(found)} of {tag}'
    return str(found[0])


def loader_and_script() -> tuple[str, str]:
    """The loader without the script that it inflates, and this script."""
    before, packed, after = re.split(r'"([A-Za-z0-9+/=]{1000,})"', part('script'))
    return before + after, gzip.decompress(base64.b64decode(packed)).decode()


def hash_of(text: str) -> str:
    return base64.b64encode(hashlib.sha256(text.encode()).digest()).decode()


class Sending(PageTest):
    stub = NO_PICKER

    def walk(self) -> None:
        """Opens, searches, replaces, checks, saves, and publishes."""
        self.open_image(discs.written(game=discs.game())['game'])
        self.find()
        self.browser.type('#new-text', 'Start')
        self.press('Replace all')
        self.browser.click('#tab-script')
        self.press('Check')
        self.browser.wait('#panel-script .say.good', '5 patches, which all match')
        self.press('Apply and save')
        self.browser.downloaded('game (patched).bin')
        self.browser.click('#tab-publish')
        self.browser.wait('#panel-publish', 'all match')
        self.browser.type('#patcher-title', 'Title')
        self.press('Save as a patcher')
        self.browser.downloaded('Title.html')

    def test_the_page_that_was_opened_reaches_nothing(self) -> None:
        self.browser.open(common.PAGE)
        self.browser.wait('#start h1')
        self.browser.click('#open-example')
        self.wait_for_hash()
        self.assertEqual(self.browser.attempts(), [])

    @common.in_check
    def test_a_whole_walk_reaches_nothing(self) -> None:
        self.walk()
        self.assertEqual(self.browser.attempts(), [])
        self.browser.open(self.browser.downloads / 'Title.html')
        self.browser.give('#player-files', [discs.written(game=discs.game())['game']])
        self.browser.wait('#verdict', common.text('playerRightDisc'))
        self.assertEqual(self.browser.attempts(), [])

    def test_a_server_is_asked_only_for_the_page(self) -> None:
        server = common.Server(common.PAGE.parent)
        self.addCleanup(server.close)
        self.browser.open(f'{server.url}/{common.PAGE.name}')
        self.walk()
        self.assertEqual(self.browser.attempts(), [])
        self.assertEqual(server.requests, [f'GET /{common.PAGE.name} HTTP/1.1'])

    def test_the_text_of_the_page_has_no_word_that_sends(self) -> None:
        scripts = ''.join(loader_and_script())
        found = [match.group() for form in SENDING for match in re.finditer(form, scripts)]
        markup = page().replace(part('script'), '').replace(part('style'), '')
        found += [match.group() for form in MARKUP for match in re.finditer(form, markup.split('</head>')[1])]
        found += re.findall(r'https?://[^\'"` )]*', scripts + markup)
        self.assertEqual([it for it in found if it != 'http://www.w3.org/2000/svg'], [])

    @common.in_check
    def test_the_policy_has_the_hashes_of_the_scripts_and_the_style(self) -> None:
        found = re.findall(r'<meta http-equiv="Content-Security-Policy" content="([^"]*)">', page())
        hashes = {'loader': hash_of(part('script')), 'script': hash_of(loader_and_script()[1]), 'style': hash_of(part('style'))}
        self.assertEqual(found, [POLICY.format(**hashes)])

    def test_about_names_what_made_the_page(self) -> None:
        esbuild = subprocess.run(['esbuild', '--version'], stdout=subprocess.PIPE, check=True).stdout.decode().strip()
        self.assertIn(f'Made with esbuild {esbuild}, zlib {zlib.ZLIB_RUNTIME_VERSION}.',
                      self.browser.run('return document.querySelector("#about").textContent'))

    def test_the_page_ends_where_data_begin(self) -> None:
        self.assertTrue(page().endswith('</script>\n<plaintext hidden id="data">\n'))


class Policy(PageTest):
    """A copy of which a script must not run sends no request, whatever the script contains."""

    TRIES = 'fetch("http://127.0.0.1:9/");new Image().src="http://127.0.0.1:9/";new RTCPeerConnection();location="http://127.0.0.1:9/";'

    def test_it_stops_what_an_altered_page_would_send(self) -> None:
        strict = b"'use strict';"
        self.sends_nothing(lambda made: made.replace(strict, self.TRIES.encode() + strict, 1))

    def test_it_stops_an_altered_script_that_a_right_loader_starts(self) -> None:
        """The policy of this copy has the hash of its loader, which has another script."""
        loader, script = part('script'), loader_and_script()[1]
        [right] = re.findall(r'H4sI[\w+/=]+', loader)
        self.assertEqual(gzip.decompress(base64.b64decode(right)).decode(), script)
        altered = loader.replace(right, base64.b64encode(gzip.compress((self.TRIES + script).encode())).decode())
        self.sends_nothing(lambda made: made.replace(loader.encode(), altered.encode()).replace(hash_of(loader).encode(), hash_of(altered).encode()))

    def sends_nothing(self, altered: Callable[[bytes], bytes]) -> None:
        path = common.folder('altered') / 'altered.html'
        path.write_bytes(altered(patcher(discs.game(), b'', 'cdpatch 1\nrebuild 0\n')))
        browser = chromium.shared()
        browser.open(path)
        browser.wait('#not-started', common.text('frameHasNotStarted'))
        found = browser.attempts()
        self.assertEqual([it for it in found if it.startswith('request') or it == 'RTCPeerConnection'], [])
        self.assertTrue(any('script-src' in it for it in found), found)
