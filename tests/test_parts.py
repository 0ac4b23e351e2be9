"""The reference's reading of journals in parts, against what is written by hand from docs/PARTS.md: each byte changed, each length, wrong parts."""
from __future__ import annotations

from collections.abc import Iterator
from hashlib import sha256

import pytest
from reference import program
from reference.faults import JournalFault
from reference.parts import PartFault, Parts, files_of, opened_parts

SIZE = 3
SCRIPT = b"channel a, b, c\nP = a -> b -> P\n"
LINES = [b"1 1 E+ 1", b"1 2 E- 1", b"2 1 R+ 1", b"1 3 E+ 2", b"2 2 R+", b"2 3 R+ 2 3 4", b"3 1 E- 3"]
"""After `a` and `b` the process is where it was: it offers `a` alone, and refuses `b`, `c` and termination, of which place 4 is the mark."""


def part(number: int, previous: bytes, lines: list[bytes], script: bytes = SCRIPT, root: bytes = b"P") -> bytes:
    """A part but for its last gate."""
    before = SIZE * (number - 1)
    header = b"cspwatch large journal 1\nroot " + root + b"\npart %d\nbefore %d\nprevious " % (number, before) + previous + b"\nscript %d\n" % len(script)
    return header + script + b"\n" + b"".join(b"+" + line + b"\n" for line in lines)


def sum_of(whole: bytes) -> bytes:
    return sha256(whole).hexdigest().encode()


FIRST = part(1, b"-", LINES[:3])
SECOND = part(2, sum_of(FIRST), LINES[3:6])
THIRD = part(3, sum_of(SECOND), LINES[6:])
FILES = [FIRST + b".", SECOND + b".", THIRD + b"."]
HEADER = len(THIRD) - len(LINES[6]) - 2
"""How many bytes the header of the third part has."""


def fault_of(files: list[bytes]) -> str:
    """The fault that the files have, or nothing."""
    try:
        opened_parts(files, SIZE)
    except (JournalFault, PartFault) as fault:
        return str(fault)
    return ""


def lines_of(found: Parts) -> list[bytes]:
    """The lines of the records."""
    return [b"%d %d %s%s%s" % (it.seat, it.number, it.kind.encode(), b"+" if it.verdict else b"-", b"".join(b" " + mark for mark in it.marks))
            for it in found.records]


def changed(place: int) -> Iterator[tuple[int, int, list[bytes]]]:
    """The files with one byte of this one changed to another value, each; where and to what."""
    for at, old in enumerate(FILES[place]):
        for new in {old ^ 1, old ^ 128, *b"+-.0129 ERx\n"} - {old}:
            one = bytearray(FILES[place])
            one[at] = new
            yield at, new, FILES[:place] + [bytes(one)] + FILES[place + 1:]


def test_files() -> None:
    assert files_of(SCRIPT, b"P", LINES, SIZE) == FILES
    assert files_of(SCRIPT, b"P", LINES[:6], SIZE) == FILES[:2]
    assert files_of(SCRIPT, b"P", [], SIZE) == [part(1, b"-", []) + b"."]
    found = opened_parts(FILES, SIZE)
    assert (lines_of(found), found.files, found.after, found.script, found.root) == (LINES, FILES, 0, SCRIPT, b"P")


def test_history() -> None:
    answer = program.of_parts(FILES, SIZE, lambda session: session.summary() + "\n")
    assert answer == (b"S 7 2 3 2 open\n", b"", 1)


@pytest.mark.parametrize("after", [b"x", b"junk", b"+", b".+1 2 E+ 1\n."])
def test_bytes_after_the_last_record(after: bytes) -> None:
    found = opened_parts(FILES[:2] + [THIRD + b"." + after], SIZE)
    assert (lines_of(found), found.files, found.after) == (LINES, FILES, len(after))


def test_full_parts_are_summed() -> None:
    """Of a full part all but its last byte is that of the sum in the next one, and the last may be any but an open gate."""
    for place in (0, 1):
        for at, new, files in changed(place):
            fault = fault_of(files)
            if at < len(FILES[place]) - 1:
                assert fault.split(" ")[0] in (("50", "51", "52", "55") if place == 0 else ("55",)), (place, at, new)
                assert fault[:3] != "55 " or fault in ("55 part %d" % (place + 1), "55 part %d" % (place + 2)), (place, at, new)
            elif new == ord("+"):
                assert fault == ("51 truncated" if place == 0 else "55 part 2")
            else:
                assert lines_of(opened_parts(files, SIZE)) == LINES


def test_last_part() -> None:
    """Of the last part each byte of the header is one that is due; what its records say isn't summed, but the others stay."""
    for at, new, files in changed(2):
        fault = fault_of(files)
        if at < HEADER:
            assert fault == "55 part 3", (at, new)
        elif fault:
            assert fault == "55 part 3", (at, new)
        else:
            found = lines_of(opened_parts(files, SIZE))
            assert found[:6] == LINES[:6] and len(found) <= 7, (at, new)
            assert found != LINES or at == len(FILES[2]) - 1, (at, new)


def test_lengths_of_the_last_part() -> None:
    for length in range(len(FILES[2])):
        files = FILES[:2] + [FILES[2][:length]]
        if length <= HEADER:
            found = opened_parts(files, SIZE)
            assert (lines_of(found), found.files, found.after) == (LINES[:6], FILES[:2] + [FILES[2][:HEADER] + b"."], length)
        else:
            assert fault_of(files) == "55 part 3", length


def test_lengths_of_full_parts() -> None:
    for length in range(len(FILES[0])):
        assert fault_of([FILES[0][:length], *FILES[1:]])[:2] in ("50", "51"), length
    for length in range(len(FILES[1])):
        is_begun = length > len(SECOND) - sum(len(line) + 2 for line in LINES[3:6])
        assert fault_of([FILES[0], FILES[1][:length], FILES[2]]) == ("55 part 2" if is_begun else "55 part 3"), length


OTHER_SCRIPT = SCRIPT + b"-- another one\n"
WRONG = {
    "the second one is missing": ([FILES[0], b"", FILES[2]], "55 part 3"),
    "the first one is missing": ([b"", *FILES[1:]], "50 header"),
    "the second and the third are exchanged": ([FILES[0], FILES[2], FILES[1]], "55 part 2"),
    "the first and the second are exchanged": ([FILES[1], FILES[0], FILES[2]], "50 header"),
    "the third one twice": ([*FILES, FILES[2]], "55 part 4"),
    "an empty one after one that isn't full": ([*FILES, b""], "55 part 4"),
    "an empty one after a full one": ([*FILES[:2], b""], ""),
    "two empty ones after a full one": ([*FILES[:2], b"", b""], "55 part 4"),
    "a part after a beginning of one": ([FILES[0], FILES[1][:40], FILES[2]], "55 part 3"),
    "another script": ([FILES[0], part(2, sum_of(FIRST), LINES[3:6], OTHER_SCRIPT) + b"."], "55 part 2"),
    "another root": ([FILES[0], part(2, sum_of(FIRST), LINES[3:6], root=b"Q") + b"."], "55 part 2"),
    "another sum": ([FILES[0], part(2, sum_of(FIRST + b"."), LINES[3:6]) + b"."], "55 part 2"),
    "no sum": ([FILES[0], part(2, b"-", LINES[3:6]) + b"."], "55 part 2"),
    "another number": ([FILES[0], part(3, sum_of(FIRST), LINES[3:6]) + b"."], "55 part 2"),
    "too many records in the first": ([part(1, b"-", LINES[:4]) + b"."], "55 part 1"),
    "too many records in the second": ([FILES[0], part(2, sum_of(FIRST), LINES[3:7]) + b"."], "55 part 2"),
    "too few records in the first": ([part(1, b"-", LINES[:2]) + b".", part(2, sum_of(part(1, b"-", LINES[:2])), LINES[2:5]) + b"."], "55 part 2"),
    "a part without a record": ([FILES[0], part(2, sum_of(FIRST), []) + b"."], ""),
    "a part without a gate": ([FILES[0], part(2, sum_of(FIRST), LINES[3:4])], "55 part 2"),
    "a line that is none": ([FILES[0], part(2, sum_of(FIRST), [b"1 3 X+ 2"]) + b"."], "55 part 2"),
}


@pytest.mark.parametrize("files, wanted", WRONG.values(), ids=list(WRONG))
def test_wrong_parts(files: list[bytes], wanted: str) -> None:
    assert fault_of(files) == wanted


WRONG_RECORDS = {
    "a verdict in the second part": (LINES[:4] + [b"2 2 R-"] + LINES[5:], "53 verdict 5"),
    "a number in the third part": (LINES[:6] + [b"3 2 E- 3"], "52 record 7"),
    "an event that there isn't": (LINES[:6] + [b"3 1 E- 5"], "52 record 7"),
}


@pytest.mark.parametrize("lines, wanted", WRONG_RECORDS.values(), ids=list(WRONG_RECORDS))
def test_wrong_records(lines: list[bytes], wanted: str) -> None:
    """Places are counted over all parts, and what is wrong with a record comes before what is wrong with a later part."""
    files = files_of(SCRIPT, b"P", lines, SIZE)
    told = (b"", b"j: %s\n" % wanted.encode(), 4)
    assert program.of_parts(files, SIZE, lambda session: "") == told
    assert program.of_parts([*files, b"no part"], SIZE, lambda session: "") == told
