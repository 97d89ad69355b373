"""A disc of about 300 texts for tests of PO files, its translators, and an independent program that writes their texts into its ISO image.

`po_disc.py files VERSION DIRECTORY` writes the files of the disc, in version 1 or 2: in the second one the texts have moved, one has changed,
and some are new. `translate PO OUT PART..` fills in the new texts of the parts 0 or 1 of the entries of a PO file, as a text editor would.
`patch VERSION ISO MO OUT` writes a copy of the ISO image with the new texts of a catalog that msgfmt has compiled, and prints how many places
it changed. It finds the files by reading ISO 9660, and knows the places of texts from writing them."""

import gettext
import re
import struct
import sys
from pathlib import Path

SECTOR = 2048
WHO = ['勇者', '村人', '王様', '魔法使い', '兵士', 'おじいさん', '旅の商人', '妖精', 'わたし', 'お前']
WHERE = ['城の地下', '北の森', '港町', '古い塔', '宿屋', '洞窟', 'ここ', '山のふもと', '砂漠', '海の向こう']
WHAT = ['で剣を見つけた', 'の扉を開けた', 'へ行ってはいけない', 'で待っている', 'のことを話してくれた']
MENU = ['はじめから', 'つづきから', 'ポーション', 'どくけしそう', 'アイテムをつかう', 'セーブしますか']
# The files: their encodings, and the byte that ends texts.
FILES = {'MSG.DAT': 'cp932', 'SUB/MSG 2.DAT': 'euc-jp', 'WIDE.DAT': 'utf-16-le'}
CHANGED = 7


def texts_of(version: int) -> dict[str, list[str]]:
    """The texts of each file. Those of the menu are in all of them."""
    sentences = [f'{WHO[i % 10]}は{WHERE[i // 10 % 10]}{WHAT[i // 100]}' for i in range(282)]
    if version == 2:
        sentences[CHANGED] += 'らしい'
        sentences = [f'{who}は新しい町で待っている' for who in WHO[:4]] + sentences
    parts = [sentences[:150], sentences[150:240], sentences[240:]]
    return {name: MENU + part if at % 2 == 0 else part + MENU for at, (name, part) in enumerate(zip(FILES, parts))}


def places(version: int) -> dict[str, tuple[bytes, list[tuple[int, str, int]]]]:
    """The bytes of each file, and its texts: offset, text, and room in bytes."""
    made = {}
    for name, texts in texts_of(version).items():
        data, found = bytearray(b'\x01\x02\xff\x07' * (9 * version)), []
        unit = len('a'.encode(FILES[name]))
        for i, text in enumerate(texts):
            old = text.encode(FILES[name])
            zeros = unit * (1 + i % 4)
            found.append((len(data), text, len(old) + zeros - unit))
            data += old + bytes(zeros)
        made[name] = bytes(data), found
    return made


def new_text(text: str) -> str:
    """The new text of a text, with at most as many characters."""
    return f'{sum(map(ord, text)) % 1000}: "all"\\ of it is in English now'[:len(text)].rstrip()


def escaped(text: str) -> str:
    return text.replace('\\', '\\\\').replace('"', '\\"')


def translate(source: str, parts: list[int]) -> str:
    """Fills in the new texts of every other entry that has none, or of all."""
    count = 0

    def filled(found: re.Match[str]) -> str:
        nonlocal count
        count += 1
        return found[0] if count % 2 not in parts else f'{found[1]}msgstr "{escaped(new_text(found[2]))}"\n'
    return re.sub(r'^(msgid "([^"\\]+)"\n)msgstr ""\n', filled, source, flags=re.M)


def extents(iso: bytes) -> dict[str, int]:
    """Where each file begins in an ISO image, by its path in Rock Ridge names."""
    found: dict[str, int] = {}

    def walk(extent: int, size: int, above: str) -> None:
        at, end = extent * SECTOR, extent * SECTOR + size
        while at < end:
            length = iso[at]
            if length == 0:
                at = (at // SECTOR + 1) * SECTOR
                continue
            block, bytes_ = struct.unpack_from('<I', iso, at + 2)[0], struct.unpack_from('<I', iso, at + 10)[0]
            name = iso[at + 33:at + 33 + iso[at + 32]]
            rest = iso[at + 33 + iso[at + 32] + (iso[at + 32] + 1) % 2:at + length]
            nm = rest.find(b'NM')
            path = above + (rest[nm + 5:nm + rest[nm + 2]] if nm >= 0 else name.split(b';')[0]).decode()
            if name not in (b'\0', b'\1'):
                if iso[at + 25] & 2:
                    walk(block, bytes_, path + '/')
                else:
                    found[path] = block * SECTOR
            at += length
    root = 16 * SECTOR + 156
    walk(struct.unpack_from('<I', iso, root + 2)[0], struct.unpack_from('<I', iso, root + 10)[0], '')
    return found


def patch(version: int, iso: bytes, catalog: dict[str, str]) -> tuple[bytes, int]:
    """The image with the new texts of a catalog, and the number of changed places."""
    image, count = bytearray(iso), 0
    starts = extents(iso)
    for name, (data, found) in places(version).items():
        start, encoding = starts[name], FILES[name]
        assert iso[start:start + len(data)] == data, name
        for offset, text, room in found:
            fresh = catalog.get(text, '').encode(encoding)
            if fresh == b'':
                continue
            assert len(fresh) <= room, text
            old, space = len(text.encode(encoding)), ' '.encode(encoding)
            fresh += space * ((old - len(fresh)) // len(space))
            image[start + offset:start + offset + len(fresh)] = fresh
            count += 1
    return bytes(image), count


def main() -> None:
    job, *words = sys.argv[1:]
    if job == 'files':
        for name, (data, _) in places(int(words[0])).items():
            path = Path(words[1], name)
            path.parent.mkdir(parents=True, exist_ok=True)
            path.write_bytes(data)
    if job == 'translate':
        Path(words[1]).write_text(translate(Path(words[0]).read_text('utf-8'), [int(it) for it in words[2:]]), 'utf-8')
    if job == 'patch':
        with open(words[2], 'rb') as file:
            catalog = vars(gettext.GNUTranslations(file))['_catalog']
        image, count = patch(int(words[0]), Path(words[1]).read_bytes(), catalog)
        Path(words[3]).write_bytes(image)
        print(count)


main()
