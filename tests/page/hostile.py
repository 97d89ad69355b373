"""Generates hostile patchers and pages: heads, containers, scripts, text after the end, and pages that are not patchers. `python3 hostile.py
chromium|firefox|webkit` opens each of them, gives each of them to the genuine page, and prints figures."""

import base64
import gzip
import hashlib
import json
import sys
import time
import zlib
from collections.abc import Iterator
from typing import Any

import common
import discs

MARK = '<plaintext hidden id="data">'
# Markup that would run a script or send a request if the page inserted it. {url} is a loopback server that counts requests.
PAYLOADS = ['<img src={url}/img onerror="globalThis.ran=1">', '</plaintext><script>globalThis.ran=1</script>', '--><script src={url}/s></script><!--',
            '<svg onload="globalThis.ran=1"><use href="{url}/u#a"/></svg>', '<iframe src="{url}/frame"></iframe>', '<style>@import url({url}/css)</style>',
            '<link rel=stylesheet href={url}/l><link rel=prefetch href={url}/p>', '<meta http-equiv=refresh content="0;url={url}/r">',
            '<base href={url}/><a href=x>x</a>', '${globalThis.ran=1}`;globalThis.ran=1;//', '"};globalThis.ran=1;({"a":"', "'+(globalThis.ran=1)+'",
            'javascript:globalThis.ran=1', '\u202e\u2066\u200f\u061c', '\u0000\u0007\u001b[31m\u001b]0;x\u0007', '\ud800\udfff\ufffe', '&lt;script&gt;&#60;script>',
            '<form action={url}/f><button id=b autofocus onfocus="globalThis.ran=1">']
TYPES: list[Any] = [None, True, -1, 1.5, '0', [], {}, [['a']], {'size': 1, 'sha1': '0' * 40, '__proto__': 1}]


def head(**other: Any) -> dict[str, Any]:
    image = discs.game()
    return {'title': 'Title', 'author': 'Author', 'note': 'Note', 'name': 'game (patched).bin', 'cue': '', 'carry': False, 'base': 0,
            'image': {'size': len(image), 'sha1': common.sha1(image)}, 'result': '0' * 40, **other}


def container(packed: bytes, **other: Any) -> bytes:
    """The lines of a container around bytes that are already packed."""
    size, sha1, version = other.get('size', len(packed)), other.get('sha1', hashlib.sha1(packed).hexdigest()), other.get('version', 1)
    return f'cdpatch-data {version} {size} {sha1}\n{base64.b64encode(packed).decode()}\n'.encode()


def data(text: bytes) -> bytes:
    return container(zlib.compress(text))


def patch_of(head_text: str, script: str = 'cdpatch 1\nrebuild 0\n') -> bytes:
    return data(f'{head_text}\n{script}'.encode('utf-8', 'surrogatepass'))


def heads(url: str) -> Iterator[tuple[str, bytes]]:
    for member in ('title', 'author', 'note', 'name', 'cue'):
        for number, payload in enumerate(PAYLOADS):
            yield f'head-{member}-{number}', patch_of(json.dumps(head(**{member: payload.replace('{url}', url)})))
    for member in head():
        for number, value in enumerate(TYPES):
            yield f'type-{member}-{number}', patch_of(json.dumps({**head(), member: value}))
    text = json.dumps(head())
    other = ['', 'null', '[]', '1e400', '"x"', '{' * 500000, '[' * 100000 + ']' * 100000, text[:-1] + ',"__proto__":{"cue":1}}',
             text.replace('"cue"', '"__proto__"'), text.replace('"cue"', '"constructor"'), text.replace('"cue"', '"toString"'),
             text.replace('"author": "Author", ', ''), text[:-1] + ',"title":"<script>globalThis.ran=1</script>"}', text.replace('"base": 0', '"base": 1e400'),
             text.replace('"base": 0', '"base": 449850'), text.replace('"size": ', '"size": 9999'), text.replace('0' * 40, '0' * 39 + '\\n'),
             text.replace('Title', '\\u200b\\u200d'), text.replace('Title', 'x' * 201), text.replace('Note', 'x' * 20001)]
    for number, given in enumerate(other):
        yield f'head-other-{number}', patch_of(given)


def containers() -> Iterator[tuple[str, bytes]]:
    text = f'{json.dumps(head())}\ncdpatch 1\nrebuild 0\n'.encode()
    packed = zlib.compress(text)
    right = container(packed)
    raw = zlib.compressobj(9, zlib.DEFLATED, -15)
    keyed = zlib.compressobj(9, zlib.DEFLATED, 15, 9, 0, b'cdpatch 1')
    made = {'size': container(packed, size=1), 'size-long': container(packed, size='9' * 20), 'size-sign': container(packed, size='-1'), 'sum': container(packed, sha1='0' * 40),
            'sum-capital': container(packed, sha1=hashlib.sha1(packed).hexdigest().upper()), 'version': container(packed, version=2), 'gzip': container(gzip.compress(text)),
            'raw': container(raw.compress(text) + raw.flush()), 'dictionary': container(keyed.compress(text) + keyed.flush()), 'two': container(packed + packed),
            'more': container(packed + b'<script>globalThis.ran=1</script>'), 'none': container(b''), 'zeros': container(bytes(1000)), 'text': b'hello\n',
            'script': b'<script>globalThis.ran=1</script>\n', 'twice': right + right, 'space': b' ' + right, 'crlf': right.replace(b'\n', b'\r\n'), 'cr': right.replace(b'\n', b'\r'),
            'form-feed': right.replace(b'\n', b'\f'), 'nul': right[:60] + b'\0' + right[60:], 'bom': '\ufeff'.encode() + right, 'url-letters': right.replace(b'+', b'-').replace(b'/', b'_'),
            'padded': right[:-1] + b'====\n', 'unpadded': right.rstrip(b'=\n') + b'\n', 'no-end': right[:-1], 'line': right[:-60] + b'\n' + right[-60:], 'utf-16': right.decode().encode('utf-16'),
            'first': right[:40], 'half': right[:len(right) // 2], 'changed': right[:80] + bytes([right[80] ^ 1]) + right[81:], 'entity': right[:80] + b'&#65;' + right[80:]}
    return ((f'container-{name}', it) for name, it in made.items())


def endings(url: str) -> Iterator[tuple[str, bytes]]:
    right = patch_of(json.dumps(head()))
    for number, payload in enumerate(PAYLOADS):
        yield f'after-{number}', right + payload.replace('{url}', url).encode('utf-8', 'surrogatepass')
    yield 'after-end', right + f'</plaintext></body></html><script>globalThis.ran=1</script><img src={url}/x>'.encode()


def scripts(url: str) -> Iterator[tuple[str, bytes]]:
    given = ['', '\0', 'cdpatch 9\n', 'cdpatch 1\n' + 'x\n' * 300000, 'cdpatch 1\n' + '#\n' * 1000000, 'cdpatch 1\n' + '#' * 4000000, 'cdpatch 1\nset 0 0 ' + '41' * 100000,
             'cdpatch 1\n' + 'rebuild 0\n' * 70000, '\ufeffcdpatch 1\n', '\ud800', *('cdpatch 1\n# ' + it.replace('{url}', url) + '\n' for it in PAYLOADS[:8])]
    return ((f'script-{number}', patch_of(json.dumps(head()), script)) for number, script in enumerate(given))


def pages(url: str) -> Iterator[tuple[str, bytes]]:
    """Pages that are not the genuine one. When opened directly, they can do anything."""
    page = common.PAGE.read_bytes()
    run = f'<script>globalThis.ran=1;new Image().src="{url}/page"</script>'.encode()
    after = patch_of(json.dumps(head()))
    changed = {'title': page.replace(b'<title>', b'<title >', 1), 'script': page.replace(b'<script>', b'<script>globalThis.ran=1;', 1),
               'policy': page.replace(b"connect-src 'none'", b'connect-src *', 1), 'none': page.replace(b'Content-Security-Policy', b'X', 1),
               'style': page.replace(b'<style>', b'<style> ', 1), 'before': run + page, 'after': page[:-len(MARK) - 1] + run + f'\n{MARK}\n'.encode()}
    for name, text in changed.items():
        yield f'page-{name}', text + after
    start = f'<!doctype html>\n{MARK}\n'.encode()
    short = {'doctype': b'<!doctype html>' + run, 'bom': b'\xef\xbb\xbf<!doctype html>' + run, 'space': b' \n<!doctype html>' + run, 'comment': b'<!-- x -->' + run, 'bare': run,
             'utf-16': f'<!doctype html>{run.decode()}'.encode('utf-16'), 'script-first': b'cdpatch 1\n' + run, 'xml': b'<?xml version="1.0"?><html xmlns="http://www.w3.org/1999/xhtml">' + run,
             'frame': f'<iframe src="{url}/f">'.encode(), 'refresh': f'<meta http-equiv=refresh content="0;url={url}/r">'.encode(), 'mark': start + after,
             'marks': start + start + after, 'mark-only': start, 'long': b'<!doctype html>' + b' ' * 400000 + run, 'nul': b'\0<!doctype html>' + run, 'cue': b'FILE "a" BINARY\nTRACK 01 X\n' + run}
    for name, text in short.items():
        yield f'page-{name}', text


def genuine(url: str) -> Iterator[tuple[str, bytes]]:
    """Patchers with the genuine page and hostile data."""
    page = common.PAGE.read_bytes()
    for part in (heads(url), containers(), endings(url), scripts(url)):
        for name, text in part:
            yield name, page + text


# The page's state after it was opened or given a file: whether a script ran, and how many elements there are that could load or run one.
STATE = '''return [globalThis.ran === undefined ? 0 : 1, document.scripts.length, document.images.length, document.querySelectorAll(
    'iframe, frame, object, embed, form[action], base, link[rel~=stylesheet], [onerror], [onload], [onfocus]').length,
    document.querySelector('#messages, #start-message, #player') ? 1 : 0]'''
QUIET = [0, 1, 0, 0, 1]


class Walk:
    """Runs the corpus in one browser. `wrong` lists the cases in which the page did not stay safe."""

    def __init__(self, browser: Any, server: common.Server) -> None:
        self.browser, self.server, self.place = browser, server, common.folder('hostile')
        self.opened = self.given = 0
        self.wrong: list[str] = []

    def judge(self, name: str) -> None:
        state = self.browser.run(STATE)
        if state != QUIET:
            self.wrong.append(f'{name}: {state}')

    def settled(self, name: str) -> None:
        """Waits until the page shows a message or the player."""
        script = '''return ['#messages .say', '#start-message .say', '#player h1', '#panel-script header .tag'].some(it => {
            const found = document.querySelector(it); return found !== null && found.offsetParent !== null })'''
        try:
            common.waited(lambda: self.browser.run(script), 'nothing was said')
        except AssertionError as error:
            shown = self.browser.run('return [document.readyState, document.querySelector("#not-started") !== null, document.body.innerText.slice(0, 300)]')
            self.wrong.append(f'{name}: {error}; {shown}')

    def open(self, name: str, text: bytes) -> None:
        path = self.place / f'{name}.html'
        path.write_bytes(text)
        self.browser.open(path)
        self.settled(name)
        self.judge(name)
        path.unlink()
        self.opened += 1

    def give(self, name: str, text: bytes) -> None:
        """Gives a file to the genuine page, which must be open and not show a player."""
        path = self.place / f'{name}.html'
        path.write_bytes(text)
        self.browser.give('#files', [path])
        self.settled(name)
        self.judge(f'{name}, given')
        said = str(self.browser.run('const it = document.querySelector("#compared"); return it ? it.innerText : ""'))
        if name.startswith('page-') and 'byte for byte' in said:
            self.wrong.append(f'{name}: {said}')
        path.unlink()
        self.browser.run('''for (const it of document.querySelectorAll('#player button')) if (it.innerText.includes('full cdpatch')) it.click();
            for (const it of document.querySelectorAll('#messages .cross, #start-message .cross')) it.click();''')
        self.given += 1


def main(engine: str) -> None:
    import chromium
    import marionette
    import webkit
    kinds: dict[str, Any] = {'chromium': chromium.Chromium, 'firefox': marionette.Firefox, 'webkit': webkit.WebKit}
    browser, server, began = kinds[engine](), common.Server(common.folder('served')), time.monotonic()
    walk = Walk(browser, server)
    for name, text in genuine(server.url):
        walk.open(name, text)
    for number, (name, text) in enumerate([*genuine(server.url), *pages(server.url)]):
        if number % 25 == 0:
            browser.run('addEventListener("beforeunload", event => event.stopImmediatePropagation(), true)')
            browser.open(common.PAGE)
        walk.give(name, text)
    left = [it.name for it in browser.downloads.rglob('*') if it.is_file() and '.cache' not in it.parts and '.local' not in it.parts]
    print(f'{engine}: {walk.opened} opened, {walk.given} given, {time.monotonic() - began:.0f} s; wrong: {len(walk.wrong)}; '
          f'requests: {len(server.requests)}; files left: {len(left)}')
    print('\n'.join([*walk.wrong, *server.requests, *left]))
    browser.quit()


if __name__ == '__main__':
    main(sys.argv[1])
