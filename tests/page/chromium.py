"""Drives headless Chromium: file choice and drop, keys, downloads, network access, screenshots, accessible names, and Tab stops."""

import atexit
import base64
import functools
import json
import time
from collections.abc import Callable, Sequence
from pathlib import Path
from typing import Any

from common import PATIENCE, folder, waited
from devtools import DevTools, Refused
from keys import Keys, pressed

FLAGS = ['--headless=new', '--no-sandbox', '--hide-scrollbars', '--force-color-profile=srgb', '--disable-gpu', '--no-first-run',
         '--disable-background-networking', '--disable-component-update', '--disable-sync', '--disable-default-apps', '--disable-popup-blocking',
         '--disable-prompt-on-repost', '--disable-hang-monitor', '--password-store=basic', '--allow-pre-commit-input', '--test-type',
         # Without the tab bar: it makes the wheel turn while a page is being opened.
         '--kiosk']
PREFERENCES = {'safebrowsing': {'enabled': False}, 'profile': {'default_content_setting_values': {'automatic_downloads': 1}}}
# With the battery saver on, Chromium draws 30 frames a second, half as many.
LOCAL_STATE = {'performance_tuning': {'battery_saver_mode': {'state': 3}}}
OWN_SCHEMES = ('blob:', 'data:', 'about:', 'chrome:', 'chrome-error:', 'devtools:')

# Widths in pixels of a phone, half a screen, and a screen.
WIDTHS = (360, 900, 1280)

# Seconds allowed for a page to be laid out again, and the least number of measurements, each of which waits for frames.
SETTLES = 2
MEASURES = 5

# A busy browser loses a drop now and then: the number of attempts, and the seconds between two of them.
DROPS = 3
DROP_TAKES = 5

# Evaluates an expression repeatedly until it is truthy, with growing pauses.
LOOK = '''const [most, ...given] = arguments, began = performance.now();
for (;;) {{
    const found = {}, spent = performance.now() - began;
    if (found || spent > most) return found || null;
    await new Promise(done => setTimeout(done, Math.min(500, 20 + spent / 20)));
}}'''

# Maximum seconds of one such evaluation.
LONGEST_LOOK = 100

# The middle of an element's visible part, or null if it is hidden, covered, or disabled. Afterwards `met` tells whether the next press hits
# the element, and `clicked` whether the next click does: an element that moves in between gets only the press.
POINT = '''(it => {
    if (!it?.checkVisibility({ visibilityProperty: true }) || it.matches(':disabled, [aria-disabled=true]')) return null;
    it.scrollIntoViewIfNeeded();
    const { left, right, top, bottom } = it.getClientRects()[0], middle = (from, to, end) => (Math.max(from, 0) + Math.min(to, end)) / 2;
    const [x, y] = [middle(left, right, innerWidth), middle(top, bottom, innerHeight)];
    if (!it.contains(document.elementFromPoint(x, y))) return null;
    const hear = (type, name) =>
        addEventListener(type, ({ target }) => { globalThis[name] = it.contains(target); }, { capture: true, once: true });
    Object.assign(globalThis, { met: null, clicked: null });
    hear('mousedown', 'met');
    hear('click', 'clicked');
    return [x, y];
})'''

# Number of attempts to press an element that moves away, and the point where the button is released after a miss.
PRESSES = 5
OUTSIDE = (-1, -1)

# The name of the element that has the focus.
STOP = '''(it => it !== document.body && (it.id || it.getAttribute('aria-label') || it.innerText || it.name || it.tagName))(
    document.activeElement)'''

REACHING = ('Network.requestWillBeSent', 'Network.webSocketCreated', 'Network.webTransportCreated', 'Page.frameRequestedNavigation')

# Records ways to send data that the network log does not show.
TRAP = '''
globalThis.caught = [];
for (const name of ['RTCPeerConnection', 'webkitRTCPeerConnection', 'WebTransport', 'open']) {
    const real = globalThis[name];
    if (real) globalThis[name] = new Proxy(real, {
        construct(target, given) { caught.push(name); return new target(...given); },
        apply(target, self, given) { caught.push(name); return null; },
    });
}
const beacon = navigator.sendBeacon.bind(navigator);
navigator.sendBeacon = (...given) => { caught.push('sendBeacon'); return beacon(...given); };
addEventListener('securitypolicyviolation', event => caught.push(`policy: ${event.violatedDirective} ${event.blockedURI}`));
addEventListener('error', event => caught.push(`error: ${event.message}`));
addEventListener('unhandledrejection', event => caught.push(`rejection: ${event.reason}`));
'''

# Layout errors after the next redraw: content below the footer or beyond the right edge, controls that are cut off, and controls that
# overlap.
MISFITS = '''const [width] = arguments, within = '.scroll, .hex, .editor, .hide, .fields, .log';
    await new Promise(done => requestAnimationFrame(() => requestAnimationFrame(done)));
    const root = document.documentElement, words = it => (it.innerText || it.id).trim();
    const foot = document.querySelector('footer').getBoundingClientRect().bottom + scrollY;
    const shown = [...document.querySelectorAll('button, input, select, textarea, summary, dd, h1, h2, .tag')].filter(it =>
        it.checkVisibility({ visibilityProperty: true }) && it.closest(within) === null && it.getBoundingClientRect().width > 1);
    const cut = shown.filter(it => {
        const { right, left } = it.getBoundingClientRect();
        return right > width + 1 || left < -1;
    });
    const sheet = document.querySelector('dialog[open], :popover-open, #menu:not([hidden])');
    const controls = shown.filter(it => it.matches('button, input, select, textarea') && (!sheet || sheet.contains(it)));
    const over = controls.flatMap((one, i) => controls.slice(i + 1).filter(other => {
        const [a, b] = [one, other].map(it => it.getBoundingClientRect());
        return !one.contains(other) && Math.min(a.right, b.right) - Math.max(a.left, b.left) > 1 &&
            Math.min(a.bottom, b.bottom) - Math.max(a.top, b.top) > 1;
    }).map(other => `${words(one)} lies over ${words(other)}`));
    const [below, wide] = [root.scrollHeight - Math.max(Math.ceil(foot), innerHeight), root.scrollWidth - width];
    return [...below > 0 ? [`goes on ${below} below its footer`] : [], ...wide > 0 ? [`is ${wide} too wide`] : [],
        ...cut.map(it => `cut: ${words(it)}`), ...over];'''


def settled(measure: Callable[[], Any]) -> Any:
    """Repeats a measurement of layout errors until it is empty, for `SETTLES` seconds and at least `MEASURES` times."""
    ends, left = time.monotonic() + SETTLES, MEASURES
    while (wrong := measure()) and (time.monotonic() < ends or left > 0):
        left -= 1
        time.sleep(0.1)
    return wrong


class Chromium:
    """One browser window. `downloads` is the directory where it saves files."""

    def __init__(self, width: int = 1280, height: int = 900) -> None:
        profile = folder('chromium')
        (profile / 'Default').mkdir()
        (profile / 'Default/Preferences').write_text(json.dumps(PREFERENCES))
        (profile / 'Local State').write_text(json.dumps(LOCAL_STATE))
        self.noted: list[tuple[str, str]] = []
        self.devtools = DevTools(['/usr/bin/chromium', *FLAGS, f'--user-data-dir={profile}', 'about:blank'], self.heard)
        [target] = waited(lambda: [it for it in self.cdp('Target.getTargets')['targetInfos'] if it['type'] == 'page'], 'Chromium has no window')
        self.devtools.session = self.cdp('Target.attachToTarget', targetId=target['targetId'], flatten=True)['sessionId']
        for domain in ('Page', 'Network', 'Log', 'Runtime'):
            self.cdp(f'{domain}.enable')
        self.cdp('Page.addScriptToEvaluateOnNewDocument', source=TRAP)
        self.empty_downloads()
        self.emulated: dict[str, dict[str, Any]] = {}
        self.size(width, height)
        self.url = ''
        self.stub = ''

    def quit(self) -> None:
        self.devtools.end()

    def empty_downloads(self) -> None:
        """Saves files in a new directory from now on. A download that the previous page began still goes to the previous one."""
        self.downloads = folder('downloads')
        self.cdp('Browser.setDownloadBehavior', behavior='allow', downloadPath=str(self.downloads))

    def heard(self, event: str, given: dict[str, Any]) -> None:
        """Records an event if the page reaches for something or reports an error. Confirms each question whether to leave the page."""
        if event in REACHING:
            self.noted.append(('request', given.get('url', given.get('request', {}).get('url', ''))))
        elif event == 'Log.entryAdded' and given['entry']['level'] == 'error':
            self.noted.append(('console', f"{given['entry'].get('url', '')} {given['entry']['text']}"))
        elif event == 'Runtime.exceptionThrown':
            self.noted.append(('console', str(given['exceptionDetails'])))
        elif event == 'Runtime.consoleAPICalled' and given['type'] in ('error', 'assert'):
            self.noted.append(('console', str(given['args'])))
        elif event == 'Page.javascriptDialogOpening':
            self.devtools.send('Page.handleJavaScriptDialog', accept=True)

    def cdp(self, command: str, **given: Any) -> dict[str, Any]:
        return self.devtools.request(command, **given)

    def before_pages(self, source: str) -> None:
        """Runs a script before a page's own scripts, in each page opened from now on. It replaces the previous such script."""
        if self.stub:
            self.cdp('Page.removeScriptToEvaluateOnNewDocument', identifier=self.stub)
        self.stub = str(self.cdp('Page.addScriptToEvaluateOnNewDocument', source=source)['identifier'])

    def open(self, page: Path | str) -> None:
        self.url = page if isinstance(page, str) else page.as_uri()
        if failure := self.cdp('Page.navigate', url=self.url).get('errorText'):
            raise AssertionError(f'{self.url}: {failure}')
        self.awaited('document.readyState === "complete"')

    def evaluated(self, script: str, *given: Any, **how: Any) -> dict[str, Any]:
        """Evaluates the body of an async function and returns the result as Chromium describes it."""
        text = f'(async function () {{ {script}\n}}).apply(null, {json.dumps(given)})'
        answer = self.cdp('Runtime.evaluate', expression=text, awaitPromise=True, userGesture=True, **how)
        if 'exceptionDetails' in answer:
            raise Refused(answer['exceptionDetails'].get('exception', {}).get('description', answer['exceptionDetails']['text']))
        found: dict[str, Any] = answer['result']
        return found

    def run(self, script: str, *given: Any) -> Any:
        """Evaluates the body of an async function and returns its value."""
        found = self.evaluated(script, *given, returnByValue=True)
        return float(found['unserializableValue']) if 'unserializableValue' in found else found.get('value')

    def awaited(self, expression: str, *given: Any, seconds: float = PATIENCE) -> Any:
        """Waits until an expression is truthy and returns its value, or None after `seconds`. The page itself repeats the evaluation."""
        ends = time.monotonic() + seconds
        while (left := ends - time.monotonic()) > 0:
            try:
                return self.run(LOOK.format(expression), 1000 * min(left, LONGEST_LOOK), *given)
            except Refused:  # another page was opened during the evaluation
                time.sleep(0.05)
        return None

    def text(self, css: str) -> str:
        """The visible text of the first matching element, or '' if there is none."""
        return str(self.run('const it = document.querySelector(arguments[0]); return it ? it.innerText : ""', css))

    def wait(self, css: str, text: str = '', seconds: float = PATIENCE) -> None:
        """Waits until a matching element with this text is visible."""
        shown = '[...document.querySelectorAll(given[0])].some(it => it.checkVisibility() && it.innerText.includes(given[1]))'
        if not self.awaited(shown, css, text, seconds=seconds):
            raise AssertionError(f'after {seconds:g} s: {css} with "{text}"; it has "{self.text(css)}"; the page: {self.text("main")[:1000]}')

    # ---- the mouse, and keys

    def point(self, found: str, *given: Any) -> list[float]:
        """Waits until the element that an expression finds can be pressed, and returns the point to press."""
        place: list[float] | None = self.awaited(f'{POINT}({found})', *given)
        if place is None:
            raise AssertionError(f'{given} cannot be pressed')
        return place

    def mouse(self, kind: str, at: Sequence[float], button: str = 'left') -> None:
        """Dispatches a mouse event at a point: `kind` is Moved, Pressed, or Released."""
        self.cdp('Input.dispatchMouseEvent', type=f'mouse{kind}', x=at[0], y=at[1], button=button, clickCount=int(kind != 'Moved'))

    def hold(self, found: str, *given: Any) -> list[float]:
        """Presses the mouse button on the element that an expression finds, again if it has moved away, and returns the point."""
        for _ in range(PRESSES):
            place = self.point(found, *given)
            self.mouse('Moved', place, 'none')
            self.mouse('Pressed', place)
            if self.run('return globalThis.met'):
                return place
            self.mouse('Released', OUTSIDE)
        raise AssertionError(f'{given} moves away')

    def click_found(self, found: str, *given: Any) -> None:
        """Clicks the element that an expression finds. Tries again if it has moved away before the button was released."""
        for _ in range(PRESSES):
            self.mouse('Released', self.hold(found, *given))
            if not self.was_missed():
                return
        raise AssertionError(f'{given} moves away')

    def was_missed(self) -> bool:
        """Whether the last click hit a different element. False after another page was opened."""
        try:
            return self.run('return globalThis.clicked') is False
        except Refused:
            return False

    def click(self, css: str) -> None:
        self.click_found('document.querySelector(given[0])', css)

    def touch(self, at: Sequence[float]) -> None:
        """Touches a point with a finger."""
        self.cdp('Input.dispatchTouchEvent', type='touchStart', touchPoints=[{'x': at[0], 'y': at[1]}])
        self.cdp('Input.dispatchTouchEvent', type='touchEnd', touchPoints=[])

    def tap(self, css: str) -> None:
        """Taps the first matching element with a finger."""
        self.touch(self.point('document.querySelector(given[0])', css))

    def focus(self, css: str) -> None:
        """Focuses the first matching element as soon as it is visible, and selects all of its text."""
        focused = '(it => it?.checkVisibility() ? (it.focus(), it.select?.(), true) : false)(document.querySelector(given[0]))'
        if not self.awaited(focused, css):
            raise AssertionError(f'there is no {css}')

    def send(self, css: str, *keys: str) -> None:
        """Focuses an element and presses keys."""
        self.focus(css)
        self.press(*keys)

    def type(self, css: str, text: str) -> None:
        """Replaces the text of a field."""
        self.send(css, Keys.DELETE, text)

    def choose(self, css: str, value: str) -> None:
        """Selects an option of a list."""
        self.run('const it = document.querySelector(arguments[0]); it.value = arguments[1]; it.dispatchEvent(new Event("change"))', css, value)

    def press(self, *keys: str, held: str = '') -> None:
        """Presses keys in the focused element, with the modifier `held`."""
        events = [event for key in ''.join(keys) for event in pressed(key, held)]
        if held:
            down, up = pressed(held)
            events = [down, *events, up]
        for event in events:
            self.cdp('Input.dispatchKeyEvent', **event)

    # ---- files

    def give(self, css: str, files: Sequence[Path]) -> None:
        """Chooses files for an input once the page has started."""
        found = 'document.querySelector("#not-started") === null && document.querySelector(given[0])'
        field = self.evaluated(LOOK.format(found), 1000 * PATIENCE, css)
        if 'objectId' not in field:
            raise AssertionError(f'there is no {css}')
        self.cdp('DOM.setFileInputFiles', files=list(map(str, files)), objectId=field['objectId'])

    def drop(self, css: str, files: Sequence[Path]) -> None:
        """Drops files on an element as soon as it is visible, as a file manager does."""
        self.wait(css)
        script = '''const { left, right, top, bottom } = document.querySelector(arguments[0]).getBoundingClientRect();
            const middle = (from, to, end) => (Math.max(from, 0) + Math.min(to, end)) / 2;
            return [middle(left, right, innerWidth), middle(top, bottom, innerHeight)]'''
        x, y = self.run(script, css)
        data = {'items': [], 'files': list(map(str, files)), 'dragOperationsMask': 1}
        for _ in range(DROPS):
            self.run('globalThis.dropped = false; addEventListener("drop", () => { dropped = true; }, { capture: true, once: true })')
            for kind in ('dragEnter', 'dragOver', 'drop'):
                self.cdp('Input.dispatchDragEvent', type=kind, x=x, y=y, data=data)
            # A page that was opened after the drop has not noticed any drop.
            if self.awaited('globalThis.dropped !== false', seconds=DROP_TAKES):
                return
        raise AssertionError(f'the browser has lost {DROPS} drops')

    def answer(self, text: str = '') -> None:
        """Presses the button of the open dialog that begins with this text, or the main button."""
        self.click_found('''[...document.querySelectorAll("#sheet[open] button")].find(it =>
            given[0] ? it.innerText.startsWith(given[0]) : it.classList.contains("main"))''', text)

    def downloaded(self, name: str, seconds: float = PATIENCE) -> Path:
        """Waits until a download is complete and returns its path. Until then a file of this name exists and is empty."""
        path = self.downloads / name
        try:
            waited(lambda: path.exists() and path.stat().st_size > 0, f'no download {name}', seconds)
        except AssertionError as error:
            error.add_note(f'downloads: {[it.name for it in self.downloads.iterdir()]}; the page: {self.text("main")}')
            raise
        return path

    def asks_before_leaving(self) -> bool:
        """Whether the page makes the browser ask for confirmation before it is left."""
        return bool(self.run('const asked = new Event("beforeunload", { cancelable: true }); dispatchEvent(asked); return asked.defaultPrevented'))

    def attempts(self) -> list[str]:
        """What the page tried to reach, violated, or threw since it was opened."""
        found = list(self.run('return globalThis.caught'))
        noted, self.noted = self.noted, []
        return found + [f'{kind}: {text}' for kind, text in noted if kind != 'request' or text and text != self.url and not text.startswith(OWN_SCHEMES)]

    def size(self, width: int, height: int = 900, scheme: str = 'light') -> None:
        """Sets the window's size and colour scheme. A narrow window emulates a phone."""
        features = {'prefers-color-scheme': scheme, 'prefers-reduced-motion': 'reduce'}
        self.emulate('setEmulatedMedia', features=[{'name': name, 'value': value} for name, value in features.items()])
        self.emulate('setDeviceMetricsOverride', width=width, height=height, deviceScaleFactor=1, mobile=width < 500)
        self.emulate('setTouchEmulationEnabled', enabled=width < 500, maxTouchPoints=1)

    def emulate(self, command: str, **given: Any) -> None:
        """Sends a command of emulation unless it is already in effect."""
        if self.emulated.get(command) != given:
            self.cdp(f'Emulation.{command}', **given)
            self.emulated[command] = given

    def picture(self, path: Path, width: int = 1280, scheme: str = 'light', most: int = 2600, window: int = 900, scale: float = 1) -> None:
        """Saves a screenshot of the whole page."""
        self.size(width, window, scheme)
        height = min(max(int(self.run('return document.documentElement.scrollHeight')), 500), most)
        clip = {'x': 0, 'y': 0, 'width': width, 'height': height, 'scale': scale}
        shot = self.cdp('Page.captureScreenshot', format='png', captureBeyondViewport=True, clip=clip)
        path.write_bytes(base64.b64decode(shot['data']))

    def pictures(self, directory: Path, name: str) -> list[Path]:
        """Saves screenshots at all widths in both colour schemes."""
        paths = [directory / f'{name}-{width}-{scheme}.png' for width in WIDTHS for scheme in ('light', 'dark')]
        for path in paths:
            _, width, scheme = path.stem.rsplit('-', 2)
            self.picture(path, int(width), scheme)
        self.size(1280)
        return paths

    def wider(self, *widths: int) -> int:
        """The maximum number of pixels by which the page exceeds a window of one of these widths, after a redraw."""
        drawn = """await new Promise(done => requestAnimationFrame(() => requestAnimationFrame(done)));
            return document.documentElement.scrollWidth"""
        over = []
        for width in widths:
            self.size(width)
            over.append(settled(lambda: max(0, int(self.run(drawn)) - width)))
        self.size(1280)
        return int(max(over))

    def misfits(self, *widths: int) -> dict[int, list[str]]:
        """The layout errors at each of these widths that has any."""
        found: dict[int, list[str]] = {}
        for width in widths:
            self.size(width)
            if wrong := settled(lambda: self.run(MISFITS, width)):
                found[width] = wrong
        self.size(1280)
        return found

    def tree(self) -> list[dict[str, Any]]:
        """The nodes of the accessibility tree, without ignored ones."""
        return [node for node in self.cdp('Accessibility.getFullAXTree')['nodes'] if not node['ignored']]

    def nameless(self, tree: list[dict[str, Any]] | None = None) -> list[str]:
        """The roles of controls that have no name in the accessibility tree."""
        return [node['role']['value'] for node in tree or self.tree() if not node.get('name', {}).get('value')
                and any(it['name'] == 'focusable' and it['value']['value'] for it in node.get('properties', []))
                and node['role']['value'] not in ('RootWebArea', 'main', 'generic', 'none')]

    def tab_stops(self, most: int = 200) -> list[str]:
        """The names of the elements that Tab focuses in turn from the page's start. After the last one, none has the focus for a moment."""
        self.run('const first = document.createElement("button"); document.body.prepend(first); first.focus(); first.remove()')
        stops: list[str] = []
        while len(stops) < most:
            self.press(Keys.TAB)
            stop = str(self.awaited(STOP, seconds=SETTLES) or '')
            if not stop or (stops and stop == stops[0]):
                break
            stops.append(stop)
        return stops


@functools.cache
def window() -> Chromium:
    """The window of this run, created on first use."""
    made = Chromium()
    atexit.register(made.quit)
    return made


def renew() -> None:
    """Closes the window of this run. The next test that needs one gets a new window."""
    if window.cache_info().currsize:
        window().quit()
        window.cache_clear()


def shared(before_pages: str = '') -> Chromium:
    """The window of this run, without downloads or log entries. It runs this script in each page before the page's own."""
    browser = window()
    browser.before_pages(before_pages)
    browser.noted.clear()
    browser.empty_downloads()
    return browser
