"""Measures the page in Chromium, in seconds, and its longest task in milliseconds: `page.py PAGE IMAGE SCRIPT [WORK..]`. All patches of the
script must fit the image. A loopback server serves the directory of the page."""

import sys
import time
from pathlib import Path

sys.path.insert(0, str(Path(__file__).resolve().parent.parent / 'tests' / 'page'))
import chromium  # noqa: E402
import common  # noqa: E402

# The chosen file is in the origin's private files, and the longest task is recorded.
BEFORE = '''
globalThis.showSaveFilePicker = async ({ suggestedName }) =>
    (await navigator.storage.getDirectory()).getFileHandle(suggestedName, { create: true });
globalThis.longest = 0;
new PerformanceObserver(list => {
    for (const { duration } of list.getEntries()) globalThis.longest = Math.max(globalThis.longest, duration);
}).observe({ type: 'longtask', buffered: true });'''

# Measures the time from the press of a button to the message that the work has succeeded.
TIMED = '''const [buttons] = arguments, began = performance.now();
globalThis.longest = 0;
const found = [...document.querySelectorAll('button')].find(it =>
    it.checkVisibility() && buttons.some(text => it.innerText.trim().startsWith(text)));
if (!found) return 'no button ' + buttons;
const parts = () => [...document.querySelectorAll('.verdict, .say.good')].filter(it => it.checkVisibility());
const before = new Set(parts());
found.click();
document.querySelector('#sheet[open] .btn:not(.main)')?.click();
while (!parts().some(it => !before.has(it))) {
    if (performance.now() - began > 120000) return 'nothing new: ' + document.body.innerText;
    await new Promise(done => setTimeout(done, 5));
}
return [(performance.now() - began) / 1000, globalThis.longest];'''

# For each work its panel, and the beginning of its button's label.
WORKS = {
    'check': ('script', ['Check']),
    'undo': ('script', ['Save…']),
    'save': ('script', ['Apply and save']),
    'publish': ('publish', ['Save as a patcher']),
}


def opened(page: chromium.Chromium, name: str, shown: str, text: str, file: Path) -> None:
    """Gives the page a file, and prints the time until the result is shown."""
    page.run('globalThis.longest = 0')
    began = time.monotonic()
    page.give('#files', [file])
    page.wait(shown, text, seconds=300)
    print(f'{name}: {time.monotonic() - began:.2f} s, longest task {page.run("return longest"):.0f} ms', flush=True)


def main(where: str, image: str, script: str, *works: str) -> None:
    path = Path(where).resolve()
    chromium.LOCAL_STATE.clear()  # draws as many frames as for a user
    server, page = common.Server(path.parent), chromium.Chromium()
    page.before_pages(BEFORE)
    page.open(f'{server.url}/{path.name}')
    page.wait('#start h1')
    opened(page, 'hashes known', '#disc-line .sha1', '', Path(image).resolve())
    opened(page, 'script open', '#panel-script header', Path(script).name, Path(script).resolve())
    time.sleep(5)
    for name in works or WORKS:
        panel, buttons = WORKS[name]
        page.click(f'#tab-{panel}')
        if name == 'publish':
            began = time.monotonic()
            page.wait('#panel-publish .good-ink', seconds=300)
            print(f'trial: {time.monotonic() - began:.2f} s', flush=True)
            page.type('#patcher-title', 'Title')
        time.sleep(2)
        answer = page.run(TIMED, buttons)
        if isinstance(answer, str):
            sys.exit(f'{name}: {answer}')
        print(f'{name}: {answer[0]:.2f} s, longest task {answer[1]:.0f} ms', flush=True)
        time.sleep(2)
    page.quit()


if __name__ == '__main__':
    main(*sys.argv[1:])
