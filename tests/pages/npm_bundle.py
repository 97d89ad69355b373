"""Tests a bundle with the npm package in Chromium: `python3 npm_bundle.py DIRECTORY MODULE`. Its page must say why the module cannot be
loaded, if it is missing or the server answers with a page, and run if it is there."""

import shutil
import sys
from pathlib import Path

sys.path.insert(0, str(Path(__file__).resolve().parent.parent / 'page'))

import chromium  # noqa: E402
import common  # noqa: E402


def main() -> None:
    directory, module = (Path(it).resolve() for it in sys.argv[1:])
    for place in ('missing', 'page', 'whole'):
        for name in ('index.html', 'bundle.js'):
            (directory / place).mkdir(exist_ok=True)
            shutil.copy(directory / name, directory / place / name)
    # The server answers with an HTML list of the directory.
    (directory / 'page/cdpatch.wasm').mkdir()
    shutil.copy(module, directory / 'whole/cdpatch.wasm')
    server, browser = common.Server(directory), chromium.Chromium()
    try:
        for place in ('missing', 'page'):
            browser.open(f'{server.url}/{place}/index.html')
            browser.wait('#log', f'cdpatch.wasm is not at {server.url}/{place}/cdpatch.wasm')
        browser.open(f'{server.url}/whole/index.html')
        browser.wait('#log', 'openFile works only in node')
    finally:
        browser.quit()
        server.close()


if __name__ == '__main__':
    main()
