"""Compares shared libraries with tests/model on random sectors: `model.py COUNT LIBRARY..`. Prints the differences."""

import ctypes
import hashlib
import sys
from concurrent.futures import ProcessPoolExecutor
from functools import lru_cache, partial
from pathlib import Path
from random import Random

sys.path.insert(0, str(Path(__file__).resolve().parent.parent / 'model'))
from sector import NO_DEFECT, SYNC, address_of, consistent, damage, defect, edc_bytes, kind, sector_with  # noqa: E402

KINDS = ['nosync', 'mode0', 'mode1', 'mode2', 'other']
OK, NOT_MODE1, DAMAGED, OUT_OF_RANGE = range(4)
UNTOUCHED = 99  # a place that is not written


class Defect(ctypes.Structure):
    _fields_ = [('zeros', ctypes.c_bool), ('edc', ctypes.c_bool), ('p', ctypes.c_uint8), ('q', ctypes.c_uint8)]

    def report(self):
        """The defect as `audit` prints it."""
        return (self.zeros * ' zeros' + self.edc * ' edc' + (self.p > 0) * f' p={self.p}' + (self.q > 0) * f' q={self.q}')


def some_sector(random):
    """A sound sector, or one with some changed bytes, mostly of Mode 1; or random bytes."""
    if random.random() < 0.05:
        return random.randbytes(2352)
    mode = random.choice([1] * 12 + [0, 2, 3])
    address = address_of(random.randrange(449850)) if random.random() < 0.8 else random.randbytes(3)
    user = random.choice([random.randbytes(2048), bytes(2048), bytes([random.randrange(256)]) * 2048])
    sector = bytearray(sector_with(SYNC + address + bytes([mode]) + user, NO_DEFECT))
    for _ in range(random.choice([0, 0, 1, 1, 2, 5, 40])):
        at = random.choice([random.randrange(2352), random.randrange(16, 2352), random.randrange(2064, 2352)])
        sector[at] = random.randrange(256)
    return bytes(sector)


def content_with(sector, place, new):
    return sector[:place] + new + sector[place + len(new):2064]


def changed(sector, content, refuses, inside=True):
    """The result of a change, and the sector that it leaves. `content` is the new content up to the EDC."""
    if kind(sector) != 'mode1':
        return NOT_MODE1, sector
    if refuses and not consistent(sector):
        return DAMAGED, sector
    return (OK, sector_with(content, defect(sector))) if inside else (OUT_OF_RANGE, sector)


def parity_of(sector):
    intermediate, rest, sums = defect(sector)
    return sector_with(sector[:2064], (intermediate, rest, len(sums) * ((0, 0),)))


def broken(sector):
    """For each column and each diagonal, by number and plane, a byte: 1 if one of its syndromes is not 0."""
    marks = [int(pair != (0, 0)) for pair in defect(sector)[2]]
    columns, diagonals = marks[:86], marks[86:]
    return bytes(columns[i % 2 * 43 + i // 2] for i in range(86)), bytes(diagonals[i % 2 * 26 + i // 2] for i in range(52))


def broken_by(library, sector):
    columns, diagonals = ctypes.create_string_buffer(86), ctypes.create_string_buffer(52)
    library.cdpatch_find_broken(sector, columns, diagonals)
    return columns.raw, diagonals.raw


def digest_by(library, random, data):
    """The SHA-1 of bytes that are added in pieces."""
    state, digest = (ctypes.c_uint64 * 12)(*(random.getrandbits(64) for _ in range(12))), ctypes.create_string_buffer(20)
    library.cdpatch_sha1_begin(state)
    while data:
        piece = data[:random.choice([0, 1, 55, 56, 63, 64, 65, 128, 2352])]
        library.cdpatch_sha1_add(state, piece, ctypes.c_size_t(len(piece)))
        data = data[len(piece):]
    library.cdpatch_sha1_end(state, digest)
    return digest.raw


def harms_of(random):
    """The places of wrong bytes, and whether parity surely corrects them: a burst of at most 24, not in the sync field, the header, or the EDC."""
    first, size = random.randrange(2352), random.choice([1, 1, 24, 200])
    spread = random.sample(range(2352), random.choice([4, 16, 40, 80]))
    places = random.choice([spread, range(first, min(first + size, 2352))])
    fixed = [place for place in places if place < 16 or 2064 <= place < 2068]
    return places, places is not spread and size < 200 and not fixed


def wrongly_corrected(library, random):
    """What is wrong with the correction of a random damage: it makes a sector that is not the sound one, or does not correct enough."""
    sound = sector_with(SYNC + address_of(random.randrange(449850)) + b'\1' + random.randbytes(2048), NO_DEFECT)
    harmed = bytearray(sound)
    places, is_sure = harms_of(random)
    for place in places:
        harmed[place] ^= random.randrange(1, 256)
    made = ctypes.create_string_buffer(bytes(harmed), 2352)
    is_corrected = library.cdpatch_correct_sector(made)
    if made.raw != (sound if is_corrected else harmed):
        return ['correct_sector makes another sector']
    return ['correct_sector corrects too little'] if is_sure and not is_corrected else []


def fit(sector, copy):
    return 3 if sector[2064:2068] == copy[2064:2068] else 2 if sector[12:2064] == copy[12:2064] else 1


def choice(address, sector, copies):
    """The number of the fit and the place of the copy that replaces a sector; 0 if there is none."""
    able = [place for place, copy in enumerate(copies) if consistent(copy) and copy[12:15] == address]
    if consistent(sector) or not able:
        return 0, UNTOUCHED
    place = max(able, key=lambda place: fit(sector, copies[place]))  # the first of the best
    return fit(sector, copies[place]), place


def choice_by(library, address, sector, copies):
    place = ctypes.c_size_t(UNTOUCHED)
    number = library.cdpatch_merge_sector(address, sector, b''.join(copies), ctypes.c_size_t(len(copies)), ctypes.byref(place))
    return number, place.value


def some_copies(random, sector):
    """Copies of a sector: sound ones with its address or another one and with its data or others, and damaged ones."""
    copies = []
    for _ in range(random.randrange(5)):
        address = random.choice([sector[12:15], sector[12:15], b'\0\2\0'])
        user = random.choice([sector[16:2064], bytes(2048), bytes([65]) * 2048])
        copy = bytearray(sector_with(SYNC + address + b'\1' + user, NO_DEFECT))
        if random.random() < 0.3:
            copy[random.randrange(2352)] ^= 1
        copies.append(bytes(copy))
    return copies


def differences(library, random):
    """The names of the calls that differ from the model on a random sector."""
    sector = some_sector(random)
    address = random.randbytes(3)
    offset = random.choice([0, random.randrange(2049), random.randrange(2049), 2048, 2049, 2 ** 64 - 1])
    new = random.randbytes(random.choice([0, 1, 1, 2, 39, 40, 41, random.randrange(2049), 2048]))
    inside = offset + len(new) <= 2048
    user = content_with(sector, 16 + offset, new) if inside else b''

    def call(name, *words):
        """A call's result, and the sector that it leaves."""
        bytes_left = ctypes.create_string_buffer(sector, 2352)
        answer = getattr(library, name)(bytes_left, *words)
        return answer, bytes_left.raw

    made = ctypes.create_string_buffer(2352)
    library.cdpatch_encode(address, sector[16:2064], made)
    found = Defect()
    library.cdpatch_find_defect(sector, ctypes.byref(found))
    range_words = ctypes.c_size_t(offset), new, ctypes.c_size_t(len(new))
    rebuilt = (OK, sector_with(sector[:2064], NO_DEFECT)) if kind(sector) == 'mode1' else (NOT_MODE1, sector)
    readdressed = content_with(sector, 12, address)
    copies = some_copies(random, sector)
    pairs = {
        'edc': (library.cdpatch_edc(new, ctypes.c_size_t(len(new))), int.from_bytes(edc_bytes(new, 0), 'little')),
        'kind': (KINDS[library.cdpatch_kind(sector)], kind(sector)),
        'encode': (made.raw, sector_with(SYNC + address + b'\1' + sector[16:2064], NO_DEFECT)),
        'is_consistent': (library.cdpatch_is_consistent(sector), consistent(sector)),
        'find_defect': (found.report(), damage(sector)),
        'find_broken': (broken_by(library, sector), broken(sector)),
        'merge_sector': (choice_by(library, sector[12:15], sector, copies), choice(sector[12:15], sector, copies)),
        'sha1': (digest_by(library, random, sector + new), hashlib.sha1(sector + new).digest()),
        'fill_parity': (call('cdpatch_fill_parity')[1], parity_of(sector)),
        'rebuild': (call('cdpatch_rebuild'), rebuilt),
        'change_user': (call('cdpatch_change_user', *range_words), changed(sector, user, True, inside)),
        'carry_user': (call('cdpatch_carry_user', *range_words), changed(sector, user, False, inside)),
        'change_address': (call('cdpatch_change_address', address), changed(sector, readdressed, True)),
        'carry_address': (call('cdpatch_carry_address', address), changed(sector, readdressed, False)),
    }
    return [*(name for name, (got, wanted) in pairs.items() if got != wanted), *wrongly_corrected(library, random)]


@lru_cache
def open_library(path):
    library = ctypes.CDLL(path)
    library.cdpatch_is_consistent.restype = ctypes.c_bool
    library.cdpatch_address.restype = ctypes.c_bool
    library.cdpatch_edc.restype = ctypes.c_uint32
    library.cdpatch_correct_sector.restype = ctypes.c_bool
    return library


def judge(paths, number):
    """The differences on the sector with this number. The model's results are kept from one library to the next."""
    return [f'case {number}, {path}: {name}' for path in paths for name in differences(open_library(path), Random(f'1 {number}'))]


def addresses(path):
    """The blocks whose address differs from the model's."""
    library = open_library(path)
    lost = []
    for block in [*range(0, 449850, 4999), 4349, 4350, 449849, 449850, 2 ** 32 - 1]:
        address = ctypes.create_string_buffer(b'xyz', 3)
        has_one = library.cdpatch_address(ctypes.c_uint32(block), address)
        if (address.raw if has_one else None) != address_of(block) or not has_one and address.raw != b'xyz':
            lost.append(f'address of block {block}, {path}')
    return lost


def main(count, *paths):
    with ProcessPoolExecutor() as pool:
        lost = [*pool.map(partial(judge, paths), range(int(count)), chunksize=5)]
    lost = [line for lines in [*map(addresses, paths), *lost] for line in lines]
    print(*lost[:20], f'{count} sectors, {len(lost)} differences', sep='\n')
    return bool(lost)


if __name__ == '__main__':
    sys.exit(main(*sys.argv[1:]))
