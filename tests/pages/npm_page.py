"""Tests the example page of the npm package in Chromium: `python3 npm_page.py PACKAGE IMAGE SCRIPT PATCHED`. The page is served from
PACKAGE, SCRIPT is typed, IMAGE is dropped on it, and the saved file must equal PATCHED. For a script with an error the page must name the
error and offer nothing."""

import sys
from pathlib import Path

sys.path.insert(0, str(Path(__file__).resolve().parent.parent / 'page'))

import chromium  # noqa: E402
import common  # noqa: E402

# The module comes late, so an image may be dropped before it.
LATE = '''const ask = fetch;
globalThis.fetch = async (...given) => {
    await new Promise(done => setTimeout(done, 2000));
    return ask(...given);
};'''


def main() -> None:
    package, image, script, patched = (Path(it).resolve() for it in sys.argv[1:])
    server, browser = common.Server(package), chromium.Chromium()
    try:
        browser.before_pages(LATE)
        browser.open(f'{server.url}/example.html')
        browser.type('#script', script.read_text())
        browser.drop('h1', [image])
        browser.click('#made')
        assert browser.downloaded('patched.bin').read_bytes() == patched.read_bytes(), 'it saves something else'
        browser.type('#script', 'cdpatch 1\nset 0\n')
        browser.drop('h1', [image])
        browser.wait('#log', 'line 2')
        assert not browser.run("return document.querySelector('#made').checkVisibility()"), 'it offers a file by a script with an error'
        others = [it for it in browser.attempts() if 'favicon.ico' not in it and server.url not in it]
        assert others == [], others
    finally:
        browser.quit()
        server.close()


if __name__ == '__main__':
    main()
