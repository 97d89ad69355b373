"""Random actions, compared with a small model of the page: open images, unsaved scripts, the running job, and saved files.

`RANDOM_ACTIONS` is the number of actions, and `RANDOM_SEED` selects them. A failure reports its seed and the last actions.
"""

import os
import random
from collections.abc import Callable
from pathlib import Path
from typing import Any

import common
import discs
import random_model
from keys import Keys
from pages import PICKER, SAVE, PageTest, applied
from random_model import Model
from states import SENTENCES
from test_publish import data_of

ACTIONS = int(os.environ.get('RANDOM_ACTIONS', '300'))
SEED = int(os.environ.get('RANDOM_SEED', '1'))
# The page is opened again after this many actions.
EPISODE = 50

STATE = '''const text = css => document.querySelector(css)?.textContent ?? '';
    const shown = document.querySelector('.player') ? 'player' : document.querySelector('#tabs').hidden ? ''
        : document.querySelector('[role=tab][aria-selected=true][id^=tab-]').id.slice(4);
    const tag = [...document.querySelectorAll('#panel-script header .tag')].some(it => it.textContent === 'not saved');
    const asked = new Event('beforeunload', { cancelable: true });
    dispatchEvent(asked);
    const second = document.querySelector('#second-title');
    return { panel: shown, image: document.querySelector('#disc-line').hidden ? '' : text('#disc-line .name'),
        second: second && !second.closest('[hidden]:not(.panel)') ? second.textContent.replace('Second image: ', '') : '', unsaved: tag,
        asks: asked.defaultPrevented, bars: document.querySelectorAll('.progress').length, errors: caught.length,
        name: text('#panel-script header h2') }'''
# The old and the new texts of the rows that are drawn.
ROWS = """return [...document.querySelectorAll('.all-texts tbody tr:not(.gap)')].map(({ cells: [, old, fresh] }) =>
    [old.innerText.trim(), fresh.querySelector('input').value])"""
SPOTS = {'disc': ['#map', '.hex', '#findings button'], 'text': ['#find-text'], 'script': ['.editor textarea'],
         'publish': ['#patcher-title', '#patcher-note']}


class Random(PageTest):
    stub = PICKER

    def test_random_actions_agree_with_the_model(self) -> None:
        for episode in range(0, ACTIONS, EPISODE):
            seed = SEED * 1000 + episode // EPISODE
            self.play(random.Random(seed), min(EPISODE, ACTIONS - episode), f'seed {seed}')

    def play(self, dice: random.Random, count: int, said: str) -> None:
        self.setUp()
        self.dice, self.model = dice, Model()
        self.images = {name: data for name, data in random_model.images().items()}
        self.paths = {path.name: path for path in discs.written(**{name[:-4]: data for name, data in self.images.items()}).values()}
        done: list[str] = []
        for _ in range(count):
            choice: list[Callable[[], None]] = self.possible()
            action = dice.choice(choice)
            done.append(action.__name__)
            try:
                action()
                self.judge()
            except Exception as error:
                error.add_note(f'{said}, after {len(done)} actions, the last ones {done[-8:]}')
                raise
        if self.model.saving:
            self.release()

    def possible(self) -> list[Callable[[], None]]:
        """The possible actions, with likely ones listed more than once."""
        model = self.model
        if model.panel == 'player':
            return [self.back_to_publish, self.leave_player]
        some = [self.give_image, self.give_script, self.drop_image, self.give_table]
        if model.panel == '':
            return some
        if model.image:
            some += [self.close_image] + ([self.press_legend] * 2 if model.panel == 'disc' else [])
        some += [self.change_panel, self.change_panel, self.escape]
        if model.panel == 'script':
            some += [self.type_line, self.type_line, self.undo, self.redo, self.save_script]
        if model.image:
            table = [self.show_texts] if model.typed_texts is None else [self.type_text, self.type_text, self.filter_texts, self.undo_text,
                                                                         self.redo_text, self.replace_texts]
            some += {'disc': [self.type_byte, self.type_byte], 'text': [self.add_text, self.export_texts, *table],
                     'script': [self.check, self.apply, self.undo_script] if model.patches() else [],
                     'publish': [self.type_title, self.see, self.publish]}[model.panel]
        if model.panel == 'disc' and model.second:
            some += [self.close_second, self.open_instead, self.save_repaired, self.save_repaired]
        if model.saving:
            some += [self.release, self.cancel]
        return some

    # ---- what the page shows

    def state(self) -> dict[str, Any]:
        return dict(self.browser.run(STATE))

    def judge(self) -> None:
        due = self.model.state()
        found: dict[str, Any] = {}

        def agrees() -> bool:
            found.update(self.state())
            return all(found[key] == value for key, value in due.items())

        try:
            common.waited(agrees, 'the page differs')
        except AssertionError as error:
            differing = {key: (found[key], value) for key, value in due.items() if found[key] != value}
            raise AssertionError(f'the page has, and the model: {differing}') from error
        if self.model.panel == 'text' and self.model.typed_texts is not None:
            self.see_texts(self.news(self.model.text()))
        if self.model.panel == 'script':
            # Opening a script again under the name of the last one needs a moment.
            common.waited(lambda: self.lines() == self.model.text(), 'the lines of the script differ')

    # ---- opening

    def another(self) -> str:
        """The name of an image that is not open: opening it has a visible effect, and it can repair the open one."""
        return self.dice.choice(sorted(set(self.images) - {self.model.image, self.model.second}))

    def give_image(self) -> None:
        name = self.another()
        self.open_files(self.paths[name])
        self.after_image(name)

    def drop_image(self) -> None:
        name = self.another()
        self.browser.drop('main', [self.paths[name]])
        self.after_image(name)

    # The line for a new text at the first place of スタート.
    TABLE_LINE = f"set {discs.first_block()} 0 {'Start   '.encode().hex().upper()} was {discs.START.hex().upper()}"

    def give_table(self) -> None:
        if discs.START.hex().upper() in self.model.text():
            return
        if self.model.typed_texts is not None and self.model.panel != 'text':
            # The table may or may not read the script before the import.
            self.model.panel = 'text'
            self.browser.click('#tab-text')
            self.judge()
        path = common.folder('table') / 'new.tsv'
        path.write_text(f'block\toffset\troom\ttext\tnew\n{discs.first_block()}\t0\t8\tスタート\tStart\n')
        self.open_files(path)
        if self.model.image:
            self.after_table()
        else:
            self.browser.wait('#start-message .say' if self.browser.run('return document.querySelector("#start").checkVisibility()') else '#messages .say',
                              'open the disc image that')
            self.model.waits = True

    def after_table(self) -> None:
        self.model.panel = 'text'
        self.browser.wait('#panel-text .say', 'added to the script.' if self.TABLE_LINE not in self.model.text() else 'in the script already')
        if self.TABLE_LINE not in self.model.text():
            self.model.add_line(self.TABLE_LINE)
        self.model.waits = False

    def press_legend(self) -> None:
        self.browser.run('const all = [...document.querySelectorAll(".legend button")]; all[Math.floor(arguments[0] * all.length)]?.click()', self.dice.random())

    def close_image(self) -> None:
        lost = self.model.unsaved() or self.model.edited
        self.press_in('image', 'Close the image')
        if self.model.saving:
            self.browser.wait('#messages .say.warn', common.text('imageBeingSaved'))
            return
        if lost:
            self.browser.wait('#sheet[open]', f'Close {self.model.image}?')
            if self.dice.random() < 0.5:
                self.browser.answer('Cancel')
                return
            self.browser.answer('Close it anyway')
        self.model.close()

    def after_image(self, name: str) -> None:
        fresh = self.model.image == ''
        if not self.model.open_image(name):
            self.browser.wait('#messages .say.warn', f'Not opened: {name}.')
        elif fresh:
            self.wait_for_hash()
            if self.model.waits:
                self.after_table()
        else:
            self.browser.answer('Repair')
            self.browser.wait('#second-body .tally, #second-body .say.good')

    def give_script(self) -> None:
        # A script that is open already would have no visible effect.
        own = (self.model.name(), self.model.text())
        name, text = self.dice.choice([it for it in sorted(random_model.SCRIPTS.items()) if it != own])
        path = discs.written(**{name[:-4]: text})[name[:-4]]
        self.open_files(path)
        lost = self.model.open_script(name, text)
        if lost:
            self.browser.wait('#messages .say.warn', common.text('scriptReplacedYours'))
            if self.dice.random() < 0.5:
                self.press('Bring it back')
                self.model.bring_back()

    def change_panel(self) -> None:
        self.model.panel = self.dice.choice(['disc', 'text', 'script', 'publish'])
        self.browser.click(f'#tab-{self.model.panel}')

    # ---- the script

    def type_line(self) -> None:
        if len(self.model.text().split('\n')) > 18:
            return
        self.browser.click('.editor textarea')
        self.browser.press(Keys.PAGE_DOWN, Keys.PAGE_DOWN, Keys.END)
        line = random_model.line(self.dice)
        if self.model.text().split('\n')[-1] != '':
            self.browser.press(Keys.ENTER)
            self.model.edit(f'{self.model.text()}\n')
        self.browser.press(line)
        self.model.edit(self.model.text() + line)
        self.browser.press(Keys.ENTER)
        self.model.edit(f'{self.model.text()}\n')

    def undo(self) -> None:
        self.browser.click('.editor textarea')
        self.browser.press('z', held=Keys.CONTROL)
        self.model.undo()

    def redo(self) -> None:
        self.browser.click('.editor textarea')
        self.browser.press('y', held=Keys.CONTROL)
        self.model.redo()

    def save_script(self) -> None:
        self.browser.click('.editor textarea')
        self.browser.press('s', held=Keys.CONTROL)
        path = self.browser.downloaded(self.model.name() or 'script.txt')
        self.assertEqual(path.read_text(), self.model.text())
        path.unlink()
        self.model.note_saved()

    def type_byte(self) -> None:
        block = self.model.next_block()
        self.go_to(block)
        self.browser.run('document.querySelector(".hex").focus()')
        self.browser.press(Keys.HOME)
        at = 'return document.querySelector(".hex").getAttribute("aria-activedescendant")'
        self.browser.run('document.querySelector("#byte-16").click()')
        common.waited(lambda: self.browser.run(at) == 'byte-16', 'not at the first byte')
        self.browser.press('a5')
        self.model.add_line(f'set {block} 0 A5 was {self.images[self.model.image][block * 2352 + 16]:02X}')

    def add_text(self) -> None:
        if 'Start' in self.model.text() or discs.START.hex().upper() in self.model.text():
            return
        self.browser.type('#find-text', 'スタート')
        self.browser.press(Keys.ENTER)
        self.browser.wait('#panel-text .hits tbody mark')
        self.wait_for_focus('#new-text')
        self.browser.type('#new-text', 'Start')
        self.browser.press(Keys.ENTER)
        self.browser.wait('#panel-text .hits', 'in the script')
        self.model.add_line(f"set {discs.first_block()} 0 {'Start   '.encode().hex().upper()} was {discs.START.hex().upper()}")

    # ---- the table of texts

    def show_texts(self) -> None:
        super().show_texts()
        self.model.typed_texts, self.model.undone_texts, self.model.news = [], [], self.news(self.model.text())

    def patched(self, text: str) -> bytes:
        """The open image with the patches of a script."""
        return applied(self.paths[self.model.image], discs.written(script=text)['script'], '--carry')[2]

    def news(self, text: str) -> dict[str, str]:
        """The new texts of the sentences in a script."""
        image = self.images[self.model.image]
        return random_model.new_texts(image, self.patched(text))

    def see_texts(self, news: dict[str, str]) -> None:
        """Waits until the table has the new texts that the script got elsewhere, which is a step of its undo."""
        earlier = {old: fresh for old, fresh in self.model.news.items() if news[old] != fresh}
        if earlier:
            self.find_in_texts('')
            common.waited(lambda: {**news, **{old: fresh for old, fresh in self.browser.run(ROWS) if old in news}} == news,
                          f'the table does not have {news}')
            self.model.note_typed(earlier)
            self.model.news = news

    def find_in_texts(self, words: str) -> None:
        """Shows the texts that contain these words."""
        self.browser.run('document.querySelector("[aria-labelledby=all-texts-title] [aria-pressed]").click()')
        self.browser.type('#texts-find', words)

    def becomes(self, changes: dict[str, str]) -> None:
        """Waits until the script has these new texts, and no other one has changed. Notes its text, which is one edit."""
        due = {**self.news(self.model.text()), **changes}
        self.browser.click('#tab-script')
        self.model.panel = 'script'
        common.waited(lambda: self.news(self.lines()) == due, f'the script does not have {due}')
        if self.lines() != self.model.text():
            self.model.edit(self.lines())
        self.model.news = due

    def lines(self) -> str:
        """The script as the editor shows it."""
        return '\n'.join(row.split('|')[1] for row in self.rows())

    def type_text(self) -> None:
        if len(self.model.text().split('\n')) > 16 or self.model.typed_texts is None:
            return
        old, new = self.dice.choice(SENTENCES), random_model.new_text(self.dice)
        before = self.news(self.model.text())[old]
        self.find_in_texts(old)
        self.browser.wait('.all-texts tbody tr[aria-rowindex="2"] .old', old)
        self.browser.type('.all-texts tbody tr[aria-rowindex="2"] input', new)
        self.browser.press(Keys.ENTER)
        if new != before:
            self.model.note_typed({old: before})
        self.becomes({old: new})

    def filter_texts(self) -> None:
        self.browser.type('#texts-find', self.dice.choice(['', 'Start', 'ー', 'nowhere']))
        self.browser.run('const all = [...document.querySelectorAll("[aria-labelledby=all-texts-title] [aria-pressed]")]; all[Math.floor(arguments[0] * all.length)].click()',
                         self.dice.random())

    def undo_text(self) -> None:
        if not self.model.typed_texts:
            self.assertTrue(self.is_off('Undo'))
            return
        self.press('Undo')
        self.turned_back(self.model.typed_texts, self.model.undone_texts)

    def redo_text(self) -> None:
        if not self.model.undone_texts or self.model.typed_texts is None:
            return
        self.find_in_texts('')
        self.browser.click('.all-texts tbody tr[aria-rowindex="2"] input')
        self.browser.press('y', held=Keys.CONTROL)
        self.turned_back(self.model.undone_texts, self.model.typed_texts)

    def turned_back(self, some: list[dict[str, str]], others: list[dict[str, str]]) -> None:
        """Waits until the script has the last of some new texts, and adds those that it had before to the others."""
        last, before = some.pop(), self.news(self.model.text())
        others.append({old: before[old] for old in last})
        self.becomes(last)

    def replace_texts(self) -> None:
        if self.model.typed_texts is None:
            return
        words, others = self.dice.choice(['Start', 'Save', 'e', '1']), self.dice.choice(['Go', '2', 'ee'])
        before = self.news(self.model.text())
        changed = {old: fresh for old, fresh in before.items() if words in fresh}
        self.find_in_texts(words)
        self.browser.type('#texts-others', others)
        self.press('Replace in all shown')
        self.browser.wait('#panel-text .said .say', 'Replaced in ')
        if changed and words != others:
            self.model.note_typed(changed)
        self.becomes({old: fresh.replace(words, others) for old, fresh in changed.items()})

    def export_texts(self) -> None:
        """Saves the list of texts, which has the new texts of the script. Importing it changes nothing."""
        self.press_in('export', 'Export a table')
        path = self.browser.downloaded(f'{self.model.image[:-4]} (texts).csv')
        table = common.waited(path.read_text, 'the table is empty')
        news = self.news(self.model.text())
        for old, fresh in ((old, news[old]) for old in SENTENCES):
            self.assertEqual([row.rsplit(',', 1)[1] for row in table.splitlines() if f',{old},' in row], [fresh] * 2, old)
        self.browser.give('#panel-text input[accept^=".tsv"]', [path])
        outcomes = ('unchanged', 'Nothing was added')
        common.waited(lambda: any(it in self.browser.text('#panel-text') for it in outcomes), 'the list is not imported')
        path.unlink()

    def check(self) -> None:
        if self.model.saving and self.model.saving.card == 'script':
            return
        self.back_to_check()
        self.press('Check')
        self.browser.wait('#panel-script .side .verdict')

    def script_file(self) -> Path:
        return discs.written(script=self.model.text())['script']

    def undo_script(self) -> None:
        if self.model.name() == '' or 'rebuild' in self.model.text() and self.model.patches() == self.model.text().count('rebuild'):
            return
        self.save_undo()
        path = self.browser.downloaded(f'{self.model.name()[:-4]} (undo).txt')
        out = applied(self.paths[self.model.image], self.script_file())[2]
        again = applied(discs.written(patched=out)['patched'], path)[2]
        self.assertEqual(again, self.images[self.model.image])
        path.unlink()

    def back_to_check(self) -> None:
        """Closes the message about the last save."""
        self.browser.run('''[...document.querySelectorAll("#panel-script .side button")].forEach(it => {
            if (it.innerText.startsWith("Back")) it.click() })''')

    # ---- saving

    def hold(self) -> None:
        self.browser.run('Object.assign(chosen, { writes: [], state: "none", begun: 0, removed: false, asked: 0 }); chosen.hold()')

    def begun(self) -> None:
        common.waited(lambda: self.browser.run('return chosen.begun > 0'), 'nothing is written')

    def apply(self) -> None:
        if self.model.saving:
            return
        _, log, due = applied(self.paths[self.model.image], self.script_file())
        self.back_to_check()
        # After a Check that has found nothing to change, the page does not offer to save.
        if due == self.images[self.model.image] and not self.browser.run(SAVE):
            return
        self.hold()
        self.press_save()
        if log.splitlines()[-1].startswith('applied 0 '):
            self.browser.wait('#panel-script .side .verdict')
            return
        self.begun()
        self.model.begin('script', due)

    def save_repaired(self) -> None:
        due = random_model.repaired(self.images[self.model.image], self.images[self.model.second])
        if due is None or self.model.saving and self.model.saving.card == 'script':
            return
        if self.model.saving is None:
            self.hold()
        self.press('Repair from it')
        self.press('Save repaired image')
        if self.model.saving is None:
            self.begun()
            self.model.begin('second', due)
        elif self.model.saving.card == 'second':
            self.press('Save repaired image')
            self.assertEqual(self.browser.run('return chosen.asked'), 1)

    def release(self) -> None:
        """Ends the running save, and compares the file with that of the program."""
        saving = self.model.saving
        assert saving is not None
        self.browser.run('chosen.release()')
        common.waited(lambda: self.browser.run('return chosen.state') == 'closed', 'the save does not end')
        self.assertEqual(self.chosen_bytes(), saving.due)
        self.model.saving = None

    def cancel(self) -> None:
        saving = self.model.saving
        assert saving is not None
        card = {'script': '#panel-script .side', 'second': '#second-body'}[saving.card]
        if not self.browser.run('const it = document.querySelector(arguments[0] + " .job-end button"); return it !== null && it.checkVisibility()', card):
            return
        self.browser.run('document.querySelector(arguments[0] + " .job-end button").focus()', card)
        self.browser.press(Keys.ESCAPE)
        self.browser.wait(f'{card} .job-end .say.warn', common.text('endTheSaving'))
        if self.dice.random() < 0.5:
            self.press('Keep saving')
            return
        self.press('Stop and discard')
        self.browser.run('chosen.release()')
        self.browser.wait(f'{card} .say', 'Cancelled.')
        self.assertEqual(self.browser.run('return [chosen.state, chosen.removed]'), ['aborted', True])
        self.model.saving = None

    def escape(self) -> None:
        spots = SPOTS[self.model.panel] if self.model.image or self.model.panel != 'disc' else []
        shown = [css for css in spots if self.browser.run('return document.querySelector(arguments[0])?.checkVisibility() === true', css)]
        if shown:
            self.browser.run('document.querySelector(arguments[0]).focus()', self.dice.choice(shown))
        self.browser.press(Keys.ESCAPE)

    # ---- two images

    def close_second(self) -> None:
        self.browser.run('document.querySelector("[aria-labelledby=second-title] header button:last-child").click()')
        if self.model.saving:
            self.browser.wait('#panel-disc .said .say.warn', common.text('imageBeingSaved'))
        else:
            self.model.second = ''

    def open_instead(self) -> None:
        self.press_in('second', 'Open it instead')
        if self.model.saving:
            self.browser.wait('#panel-disc .said .say.warn', common.text('imageBeingSaved'))
            return
        self.model.image, self.model.second, self.model.typed_texts = self.model.second, '', None
        self.browser.wait('#disc-line .name', self.model.image)
        self.wait_for_hash()

    # ---- Publish

    def type_title(self) -> None:
        self.model.title = f'Title {self.dice.randrange(1000)}'
        self.browser.type('#patcher-title', self.model.title)
        self.model.edited = True

    def ready(self) -> bool:
        return self.model.publishable(self.images)

    def see(self) -> None:
        if not self.ready():
            return
        self.press('Preview as a player')
        self.browser.wait('#player h1', self.model.title)
        self.model.panel = 'player'

    def back_to_publish(self) -> None:
        self.press('Back to Publish')
        self.model.panel = 'publish'

    def leave_player(self) -> None:
        self.press('Open this in the full cdpatch')
        if self.model.saving:
            self.browser.wait('#player .say.warn', common.text('imageBeingSaved'))
        else:
            self.model.panel = 'script'

    def publish(self) -> None:
        if not self.ready():
            return
        self.press('Save as a patcher')
        path = self.browser.downloaded(f'{self.model.title}.html')
        data = data_of(path.read_bytes())
        out = applied(self.paths[self.model.image], self.script_file())[2]
        self.assertEqual((data['script'], data['result']), (self.model.text(), common.sha1(out)))
        path.unlink()
        self.model.edited = False
