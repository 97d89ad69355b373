"""Each state of the page (tests/page/states.py) is usable by everyone: at three widths, and at a zoom of 200 %, it ends with its footer and
nothing is cut off; a finger meets each control; each control and table has a name in the accessibility tree; headings are in order; a list
is one Tab stop; the focused element is visible and has a ring; no text is too faint in either scheme; in forced colours, chosen controls
and signs differ from others.

If PICTURES is set to a directory, each state is drawn there at three widths in both schemes.
"""

import os
from pathlib import Path

from chromium import WIDTHS
from keys import Keys
from states import States, all_states, each_state

# The maximum number of Tab stops of a state, including the bar and the footer, by the first word of the state's name.
MOST_STOPS = {'start': 13, 'publish': 28, 'player': 14}
MOST_OF_OTHERS = 34

# The width of a window of 1280 pixels at a zoom of 200 %.
ZOOMED = 640

# The visible lists that have more than one Tab stop.
LISTS = '''return [...document.querySelectorAll('tbody, [role=tablist], [role=menu], .legend, .fields, .hex')].filter(it => it.checkVisibility()).flatMap(list => {
    const stops = [list, ...list.querySelectorAll('a, button, input, select, textarea, [tabindex]')].filter(it => it.tabIndex >= 0 && it.checkVisibility());
    return stops.length > 1 ? `${list.tagName} ${list.className} ${list.getAttribute('aria-label')}: ${stops.length}` : [];
})'''

# Moves the focus before all elements that can have it.
FIRST = '''const first = document.createElement('button');
    (document.querySelector('dialog[open], :popover-open') || document.body).prepend(first);
    first.focus();
    first.remove();'''

# The element that has the focus: its name, whether it or an ancestor has a ring, and how far it is outside the window.
FOCUSED = '''const it = document.activeElement;
    if (it === document.body) return null;
    let ringed = it;
    const hasRing = ({ outlineStyle, outlineWidth }) => outlineStyle !== 'none' && parseFloat(outlineWidth) >= 2;
    while (ringed !== null && !hasRing(getComputedStyle(ringed))) ringed = ringed.parentElement;
    const { top, bottom, left, right, width } = it.getBoundingClientRect();
    const name = it.id || it.getAttribute('aria-label') || it.innerText || it.tagName;
    return [name, ringed !== null, width < 2 ? Infinity : Math.max(top - innerHeight, -bottom, left - innerWidth, -right)]'''

# The texts with less contrast to their background than WCAG requires: 4.5, or 3 for large text.
FAINT = '''const part = value => value <= 0.04045 ? value / 12.92 : ((value + 0.055) / 1.055) ** 2.4;
    const luminance = colour => [0.2126, 0.7152, 0.0722].reduce((sum, weight, i) => sum + weight * part(colour[i] / 255), 0);
    const colourOf = text => { const [red, green, blue, alpha = 1] = text.match(/[\\d.]+/g).map(Number); return [red, green, blue, alpha]; };
    const over = (top, below) => below.map((value, i) => top[i] * top[3] + value * (1 - top[3]));
    const behind = it => it === null ? [255, 255, 255] : over(colourOf(getComputedStyle(it).backgroundColor), behind(it.parentElement));
    const within = document.querySelector('dialog[open]') || document.body;
    const walker = document.createTreeWalker(within, NodeFilter.SHOW_TEXT), found = [];
    for (let node = walker.nextNode(); node !== null; node = walker.nextNode()) {
        const it = node.parentElement;
        if (!node.nodeValue.trim() || it.closest('.hide, option, #data') || !it.checkVisibility({ visibilityProperty: true })) continue;
        const style = getComputedStyle(it), size = parseFloat(style.fontSize), ground = behind(it);
        const [low, high] = [luminance(over(colourOf(style.color), ground)), luminance(ground)].sort((a, b) => a - b);
        const contrast = (high + 0.05) / (low + 0.05), isLarge = size >= 24 || size >= 18.66 && Number(style.fontWeight) >= 700;
        if (contrast < (isLarge ? 3 : 4.5)) found.push(`${node.nodeValue.trim().slice(0, 30)}: ${contrast.toFixed(2)}`);
    }
    return found'''

# Controls narrower or lower than 24 pixels. A checkbox is pressed by its label.
SMALL = '''const within = document.querySelector('dialog[open], :popover-open') || document.body;
    const seen = it => it.checkVisibility({ visibilityProperty: true }) && !it.closest('.hide, .check') && it.getBoundingClientRect().width > 1;
    return [...within.querySelectorAll('button, a[href], input, select, textarea, summary')].filter(seen).flatMap(it => {
        const { width, height } = it.getBoundingClientRect();
        return width < 23.9 || height < 23.9 ? `${it.innerText.trim() || it.id}: ${width} x ${height}` : [];
    })'''

# In forced colours, the chosen controls and rows that look like one beside them, and the signs without a colour of their own.
ALIKE = '''const seen = it => it.checkVisibility();
    const looks = it => { const { backgroundColor, outlineStyle } = getComputedStyle(it); return `${backgroundColor} ${outlineStyle}`; };
    const chosen = [...document.querySelectorAll('[role=tab][aria-selected=true], [aria-pressed=true], tr[aria-selected=true], tr.on')].filter(seen);
    const beside = it => [...it.parentElement.children].find(other => other.nodeName === it.nodeName && seen(other) && !chosen.includes(other));
    const alike = chosen.filter(it => beside(it) && looks(it) === looks(beside(it)));
    const ground = getComputedStyle(document.body).backgroundColor;
    const bare = [...document.querySelectorAll('.dot, .loupe li, .gauge i:not(.pad-byte), .progress i')].filter(it =>
        seen(it) && getComputedStyle(it).backgroundColor === ground);
    return [...alike, ...bare].map(it => `${it.className} ${it.innerText.trim()}`)'''

# Roles that need a name: controls, and elements that a screen reader lists by name.
NAMED = {'button', 'link', 'tab', 'textbox', 'searchbox', 'combobox', 'checkbox', 'radio', 'slider', 'spinbutton', 'listbox', 'option', 'dialog',
         'tablist', 'progressbar', 'heading', 'image', 'group', 'region', 'table', 'DisclosureTriangle'}

# The levels of the visible headings outside a dialog.
HEADINGS = '''return [...document.querySelectorAll('h1, h2, h3, h4')].filter(it => it.checkVisibility() && !it.closest('dialog, [popover]'))
    .map(it => Number(it.localName[1]))'''


class State(States):
    def judge_tree(self) -> None:
        """Checks that each control has a name, and that each group of tabs has a selected one."""
        nodes = self.browser.tree()
        nameless = [node for node in nodes if node['role']['value'] in NAMED and not node.get('name', {}).get('value')]
        # An element that is opened by a labelled word gets its name from that word.
        elements = [self.browser.cdp('DOM.describeNode', backendNodeId=node['backendDOMNodeId'])['node'] for node in nameless]
        self.assertEqual([it['nodeName'] for it in elements if it['nodeName'] != 'DETAILS'], [], 'has no name')
        self.assertEqual(self.browser.nameless(nodes), [])
        by_id = {node['nodeId']: node for node in nodes}
        for tabs in (node for node in nodes if node['role']['value'] == 'tablist'):
            own = [by_id[child] for child in tabs['childIds'] if child in by_id]
            chosen = [tab for tab in own if any(it['name'] == 'selected' and it['value']['value'] for it in tab.get('properties', []))]
            self.assertEqual(len(chosen), 1, tabs['name']['value'])

    def judge_headings(self) -> None:
        """Checks that there is one main heading, the first, and that no level is left out."""
        levels = self.browser.run(HEADINGS)
        self.assertEqual([i for i, level in enumerate(levels) if level == 1], [0], levels)
        self.assertTrue(all(level - before <= 1 for before, level in zip(levels, levels[1:])), levels)

    def judge_stops(self, most: int) -> None:
        """Checks that a list is one stop, that each stop is visible and has a ring, and that there are few."""
        self.assertEqual(self.browser.run(LISTS), [], 'are more than one stop')
        stops: list[str] = []
        self.browser.run(FIRST)
        while len(stops) <= most:
            self.browser.press(Keys.TAB)
            focused = self.browser.run(FOCUSED)
            if focused is None or focused[0] in stops[:1]:
                break
            name, has_ring, out = focused
            self.assertTrue(has_ring, f'{name} has no ring')
            self.assertLessEqual(out, 0, f'{name} is not seen')
            stops.append(name)
        self.assertLessEqual(len(stops), most, stops)
        self.assertTrue(stops or self.browser.run('return document.querySelector(":popover-open") !== null'))

    def judge_colours(self) -> None:
        for scheme in ('light', 'dark'):
            self.browser.size(1280, scheme=scheme)
            self.assertEqual(self.browser.run(FAINT), [], scheme)
        self.browser.emulate('setEmulatedMedia', features=[{'name': 'forced-colors', 'value': 'active'}])
        self.assertEqual(self.browser.run(ALIKE), [], 'in forced colours')
        self.browser.size(1280)

    def judge_targets(self) -> None:
        for width in WIDTHS:
            self.browser.size(width)
            self.assertEqual(self.browser.run(SMALL), [], f'too small for a finger at {width}')

    def judge(self, name: str) -> None:
        all_states()[name](self)
        self.assertEqual(self.browser.attempts(), [])
        self.assertEqual(self.browser.misfits(*WIDTHS, ZOOMED), {})
        self.judge_targets()
        if 'PICTURES' in os.environ:
            self.browser.pictures(Path(os.environ['PICTURES']), name)
        self.judge_colours()
        self.judge_tree()
        self.judge_headings()
        self.judge_stops(MOST_STOPS.get(name.split('_')[0], MOST_OF_OTHERS))


each_state(State, State.judge)
