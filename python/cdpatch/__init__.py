"""Python bindings of libcdpatch: EDC, P and Q parity, and defects of CD-ROM sectors, and patches of raw images.

    import sys
    import cdpatch
    with open('changes', 'rb') as file:
        script = file.read()
    cdpatch.check(b'', script)  # raises Failed if the script is invalid, before new.bin is made
    with open('disc.bin', 'rb') as image, open('new.bin', 'xb') as new:
        cdpatch.patch(image, script, new, log=sys.stdout.write)

To list the damaged sectors of a file without loading it whole (examples/fixlist.py does more):

    with open('disc.bin', 'rb') as image:
        block = 0
        while sectors := image.read(1000 * 2352):
            for record in cdpatch.survey(sectors, block):
                print(cdpatch.audit_line(block, record), end='')
                block += 1

The calls; help(cdpatch.patch) describes one in full:

    patch(reader, script, writer)    patches an image that is read from a file or a pipe, in little memory
    apply(image, script)             patches an image in memory or in a mapped file
    check(image, script)             reports what apply would do; with an empty image, it only raises Failed if the script is invalid
    audit(image)                     the damaged sectors of an image, as `cdpatch audit` prints them, and their number
    listing(image)                   the runs of sectors of one kind, as `cdpatch list` prints them

    survey(sectors)                  a Record for each sector, with what audit and listing report
    audit_line(block, record)        the line that audit prints for a sector
    audit_end(sectors, mode1, damaged, tail)        the last line of audit
    listing_line(first, last, kind)  the line that listing prints for a run of sectors
    listing_end(sectors, tail)       the last line of listing

    kind(sector)                     one of KINDS
    address(block)                   the three bytes of a block's address
    block(address)                   the block with an address
    is_consistent(sector)            whether it is a Mode 1 sector without any damage
    defect(sector)                   what is wrong with it: Intermediate field, EDC, parity
    broken(sector)                   which code words are broken
    edc(data)                        the EDC of any bytes
    encode(address, user)            the sector with an address and user data
    rebuild(sector)                  the sector with all its codes recalculated
    with_user(sector, offset, new)   the sector with different user data
    with_address(sector, address)    the sector with a different address
    with_parity(sector)              the sector with P and Q parity recalculated
    correct_sector(sector)           the sector as its own parity corrects it
    merge_sector(address, sector, copies)           which copy of other dumps replaces it
    library_version()                the version of libcdpatch

Images, scripts, sectors, user data, and addresses may be bytes, bytearray, memoryview, mmap, array, or any other object with a contiguous
buffer of items of any size; help calls these ReadableBuffer. They are read in place, but a script that is not bytes is copied. Only `out`
of `apply`, a WriteableBuffer, is written. Pages of a mapped file that were read count as memory of the process (RSS) until the system
reclaims them.

This package is tested, not proved; the calls of libcdpatch that it makes are proved.

It is safe to call from several threads, also with the same bytes, unless one of them writes these bytes. The library's calls release the
GIL. A bytearray that a call reads or writes cannot be resized meanwhile: Python raises BufferError.

The library is the file that CDPATCH_LIBRARY names. Without that variable it is the one in the directory of this package, else the one that
the loader finds, else the one in `lib` of the prefix below which this package is installed. Of these last two, a library that lacks a call
is skipped."""

from ._errors import Damaged, Failed, NotMode1, OutOfRange, Refused
from ._images import Patched, apply, audit, check, listing
from ._library import Record, library
from ._lines import audit_end, audit_line, listing_end, listing_line
from ._numbers import LAST_BASE, SECTOR_SIZE, USER_SIZE, Result
from ._patching import Reader, Writer, patch
from ._reports import Audit, Outcome, Report
from ._sectors import (FITS, KINDS, Broken, Choice, Defect, address, block, broken, correct_sector, defect, edc, encode, is_consistent, kind,
                       merge_sector, rebuild, survey, with_address, with_parity, with_user)

__version__ = '2.0.0'
__all__ = [
    'FITS', 'KINDS', 'LAST_BASE', 'SECTOR_SIZE', 'USER_SIZE', 'Audit', 'Broken', 'Choice', 'Damaged', 'Defect', 'Failed', 'NotMode1',
    'OutOfRange', 'Outcome', 'Patched', 'Reader', 'Record', 'Refused', 'Report', 'Result', 'Writer', 'address', 'apply', 'audit', 'audit_end',
    'audit_line', 'block', 'broken', 'check', 'correct_sector', 'defect', 'edc', 'encode', 'is_consistent', 'kind', 'library_version',
    'listing', 'listing_end', 'listing_line', 'merge_sector', 'patch', 'rebuild', 'survey', 'with_address', 'with_parity', 'with_user',
]


def library_version() -> str:
    """Returns the version of the library that this package has loaded, for example '2.0.0'."""
    number = library.cdpatch_version()
    return f'{number // 10000}.{number // 100 % 100}.{number % 100}'
