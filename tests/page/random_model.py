"""The model of the page for random actions: open images, the script and whether it is saved in a file, and the save in progress."""

import dataclasses
import functools
import random

import common
import discs
from states import SENTENCES

NEW = 'cdpatch 1\n'
SCRIPTS = {'one.txt': 'cdpatch 1\nfill 120 5 4 01\n', 'two.txt': 'cdpatch 1\n# two\nfill 130 5 4 02\nrebuild 131\n',
           'three.txt': 'cdpatch 1\nset 99999 0 41\nfill 121 0 2 03\n'}
DAMAGED = {'sound.bin': (), 'bad.bin': (40, 60), 'worse.bin': (60, 80, 100)}


# A file with each sentence twice. Typed bytes change the first byte of a block, which is not in a sentence.
TALK = bytes(16) + b''.join(text.encode('cp932') + b'\0' for text in SENTENCES * 2)


@functools.cache
def images() -> dict[str, bytes]:
    """An undamaged dump of the game with the sentences, and two damaged ones."""
    files = {'DATA/MSG00.DAT': discs.messages(), 'DATA/STAGE.DAT': bytes(range(256)) * 32, 'DATA/TALK.DAT': TALK, 'README.TXT': b'Start'}
    game = common.image_of(common.iso_of(files))
    assert discs.first_block() == game.find(discs.messages()[:200]) // common.SECTOR_SIZE
    return {name: functools.reduce(common.damaged, blocks, game) for name, blocks in DAMAGED.items()}


def new_texts(image: bytes, patched: bytes) -> dict[str, str]:
    """
    The new text of each sentence in a patched image, and of the first text of the other file, '' for those that are as in the image. A
    sentence has the same one at both places.
    """
    start = image.find(TALK)
    first = image.find(discs.messages()[:200])
    new = patched[first:first + len(discs.START)]
    found = {discs.START.decode('cp932'): '' if new == discs.START else new.rstrip(b' \0').decode()}
    for text in SENTENCES:
        old = text.encode('cp932')
        for at in (start + TALK.index(old), start + TALK.rindex(old)):
            new = patched[at:at + len(old)]
            assert found.setdefault(text, '' if new == old else new.rstrip(b' \0').decode()) == ('' if new == old else new.rstrip(b' \0').decode()), text
    return found


def new_text(dice: random.Random) -> str:
    """A random new text that fits in place of each sentence, or none."""
    return dice.choice(['', *(f'{word} {dice.randrange(100)}.' for word in ('Start', 'Save', 'The door', 'A detective'))])


def repaired(image: bytes, other: bytes) -> bytes | None:
    """The repaired image, or None if the repair copies nothing."""
    [here] = [set(DAMAGED[name]) for name, data in images().items() if data is image]
    [there] = [set(DAMAGED[name]) for name, data in images().items() if data is other]
    made = bytearray(image)
    for block in here - there:
        made[block * 2352:(block + 1) * 2352] = other[block * 2352:(block + 1) * 2352]
    return bytes(made) if here - there else None


def line(dice: random.Random) -> str:
    """A random line of a script; some of these lines are refused."""
    block = dice.randrange(110, 150)
    return dice.choice([f'fill {block} {dice.randrange(2000)} 4 {dice.randrange(256):02X}', f'rebuild {block}', '# a note', 'set 99999 0 41'])


@dataclasses.dataclass
class Edit:
    text: str
    name: str
    saved: bool


@dataclasses.dataclass
class Saving:
    card: str
    due: bytes


class Model:
    def __init__(self) -> None:
        self.image = self.second = self.panel = self.title = ''
        self.edited = False
        # The earlier new texts of those that were typed in the table of texts; None if it is not shown.
        self.typed_texts: list[dict[str, str]] | None = None
        self.undone_texts: list[dict[str, str]] = []
        # The new texts of the table when it was last seen.
        self.news: dict[str, str] = {}
        self.saving: Saving | None = None
        self.waits = False
        self.done: list[Edit] = []
        self.undone: list[Edit] = []
        self.typed = 9

    # ---- the script

    def text(self) -> str:
        return self.done[-1].text if self.done else NEW

    def name(self) -> str:
        return self.done[-1].name if self.done else ''

    def unsaved(self) -> bool:
        return bool(self.done) and not self.done[-1].saved and self.text() != NEW

    def patches(self) -> int:
        return sum(row.split(' ')[0] in ('fill', 'rebuild', 'set') for row in self.text().split('\n'))

    def edit(self, text: str, name: str | None = None) -> None:
        self.done.append(Edit(text, self.name() if name is None else name, False))
        self.undone = []

    def undo(self) -> None:
        if self.done:
            self.undone.append(self.done.pop())

    def redo(self) -> None:
        if self.undone:
            self.done.append(self.undone.pop())

    def note_saved(self) -> None:
        if self.done:
            self.done[-1].saved = True

    def note_typed(self, earlier: dict[str, str]) -> None:
        """Notes the earlier new texts of those that were typed in the table, or changed while it was not seen."""
        assert self.typed_texts is not None
        self.typed_texts.append(earlier)
        self.undone_texts = []

    def add_line(self, added: str) -> None:
        before = self.text() if self.text().strip() else NEW
        self.edit(f"{before}{'' if before.endswith(chr(10)) else chr(10)}{added}\n")

    def open_script(self, name: str, text: str) -> bool:
        """Opens a script, and returns whether it replaces one that is in no file."""
        lost = self.unsaved() and self.text() != text
        if (text, name) != (self.text(), self.name()):
            self.edit(text, name)
        self.note_saved()
        self.panel = 'script'
        return lost

    def bring_back(self) -> None:
        self.undo()

    def next_block(self) -> int:
        """The next block in which no byte was typed yet, and whose first byte is not in a text."""
        self.typed += 2 if self.typed + 1 == discs.first_block() else 1
        return self.typed

    # ---- images

    def open_image(self, name: str) -> bool:
        """Opens an image, and returns whether the page accepts it."""
        if self.saving:
            return False
        if self.image:
            self.second = name
            self.panel = 'disc'
        else:
            self.image = name
            self.panel = 'disc' if self.text() == NEW else 'script'
        return True

    def close(self) -> None:
        """Closes the image and all that depends on it."""
        self.image = self.second = self.panel = self.title = ''
        self.edited, self.done, self.undone, self.typed_texts = False, [], [], None

    def begin(self, card: str, due: bytes) -> None:
        self.saving = Saving(card, due)

    def publishable(self, images_: dict[str, bytes]) -> bool:
        """Whether the script can be published: it has a title and a patch, and no patch is refused."""
        return self.title != '' and self.patches() > 0 and 'set 99999' not in self.text() and self.image in images_

    def state(self) -> dict[str, object]:
        """The state that the page should show."""
        unsaved = self.unsaved()
        bars = {'bars': int(self.saving is not None)}
        return {'panel': self.panel, 'image': self.image, 'second': self.second, 'unsaved': unsaved, 'errors': 0, **bars,
                'asks': unsaved or self.edited or self.saving is not None, 'name': self.name() or 'New script'}
