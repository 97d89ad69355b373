"""A typed client for mypy. The types of the package must refuse each line that is ignored here."""

import mmap
import sys
from typing import BinaryIO, List, Optional

import cdpatch


def on_sectors(sector: memoryview, user: bytearray) -> List[bytes]:
    place: Optional[bytes] = cdpatch.address(16)
    sectors: List[bytes] = [cdpatch.encode(place or b'123', user), cdpatch.rebuild(sector), cdpatch.with_parity(sector),
                            cdpatch.with_user(sector, 0, user, carry=True), cdpatch.with_address(sector, b'123')]
    sound: bool = cdpatch.is_consistent(sector) and cdpatch.defect(sector).zeros
    number: int = cdpatch.edc(sector) + cdpatch.defect(sector).p + len(cdpatch.broken(sector).columns)
    corrected: Optional[bytes] = cdpatch.correct_sector(sector)
    choice: Optional[cdpatch.Choice] = cdpatch.merge_sector(b'123', sector, [user, corrected or sector])
    sound = sound or (choice is not None and choice.fit == cdpatch.FITS[choice.place])
    cdpatch.with_user(sector, b'', 0)  # type: ignore[arg-type]
    cdpatch.correct_sector('sector')  # type: ignore[arg-type]
    cdpatch.merge_sector(b'123', sector, sector)  # type: ignore[arg-type]
    cdpatch.kind('sector')  # type: ignore[arg-type]
    return sectors if sound and number and cdpatch.kind(sector) in cdpatch.KINDS else []


def on_images(image: mmap.mmap, script: bytes, out: mmap.mmap) -> bytearray:
    made: cdpatch.Patched = cdpatch.apply(image, script, 16, carry=True)
    report: cdpatch.Report = cdpatch.apply(image, script, out=out)
    text: str = cdpatch.listing(image) + report.text + cdpatch.audit(image).text + cdpatch.check(image, script).text
    found: bool = cdpatch.survey(image)[0].address or report.found or cdpatch.audit(image).damaged > 0
    results: List[cdpatch.Result] = [outcome.result for outcome in report.outcomes if outcome.line + outcome.block + outcome.offset > 0]
    found = found or cdpatch.Result.DIFFERS in results or cdpatch.block(made.image[12:15]) == 16
    lines: str = cdpatch.listing_line(0, 15, 'mode1') + cdpatch.audit_line(0, cdpatch.survey(image)[0]) + cdpatch.listing_end(16, 0)
    cdpatch.audit_line(0, lines)  # type: ignore[arg-type]
    cdpatch.apply(image, script, out=out).image  # type: ignore[attr-defined]
    cdpatch.apply(image, script, out=7)  # type: ignore[call-overload]
    return made.image if found else bytearray(text.encode())


def on_streams(script: mmap.mmap, reader: BinaryIO, writer: BinaryIO) -> cdpatch.Report:
    with open('image', 'rb', buffering=0) as raw:
        cdpatch.patch(raw, script, sys.stdout.buffer, log=sys.stderr.write)
    cdpatch.patch(reader, script, sys.stdout)  # type: ignore[arg-type]
    cdpatch.patch(reader, script, writer, log=sys.stdout)  # type: ignore[arg-type]
    return cdpatch.patch(reader, script, writer, base=16, carry=True)
