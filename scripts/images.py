"""Images by their parts, spelt by docs/FORMATS.md and by nothing of the program."""
import struct

from reading import VERSIONS

READ, EXECUTE, WRITE, APPEND = 1, 2, 4, 8
SUPERVISOR, USER = 1, 3
DIRECTORY, SEGMENT, MAILBOX, LINE = range(4)


def path_of(text):
    """The entries of a path such as /1/0; root has none."""
    return [int(entry) for entry in text.split("/") if entry]


def words_of(text):
    """The two words of a path."""
    entries = path_of(text)
    e = entries + [0] * (7 - len(entries))
    return len(entries) << 12 | e[0] << 8 | e[1] << 4 | e[2], e[3] << 12 | e[4] << 8 | e[5] << 4 | e[6]


def path_bytes(text):
    return struct.pack("<HH", *words_of(text))


def subject(greatest=0, current=0, mode=USER, previous=USER, registers=(), user=0, supervisor=0, pc=0, entries=(), windows=()):
    """The bytes of a subject: registers and fault entries by their number, windows as pairs of number and path."""
    full = [dict(registers).get(n, 0) for n in range(6)]
    faults = [dict(entries).get(n, 0) for n in range(8)]
    head = bytes([greatest, current, mode, previous]) + struct.pack("<17H", *full, user, supervisor, pc, *faults)
    shown = sorted(windows)
    return head + bytes([len(shown)]) + b"".join(bytes([number]) + path_bytes(path) for number, path in shown)


def thing(path, kind, blocks=0, level=0, quota=0, row=(), words=()):
    """The path and the bytes of an object, in pieces: before its row, the row with room for 64 subjects, and behind it. The row is given
    as pairs of subject and modes, a line's number in the place of blocks."""
    halves = bytearray(32)
    for number, modes in row:
        halves[number // 2] |= modes << 4 * (number % 2)
    kept = list(words)
    while kept and kept[-1] == 0:
        kept.pop()
    head = path_bytes(path) + bytes([kind, blocks, level, 0]) + struct.pack("<H", quota)
    return path_of(path), (head, bytes(halves), struct.pack(f"<{1 + len(kept)}H", len(kept), *kept))


def image(turns, levels, schedule, subjects, things, holds, version=None):
    """The bytes of an image: levels as pairs of class and categories, holds as subject, path and modes, in any order. The version is
    that which the image has to have, or the given one."""
    small = len(subjects) <= 32 and all(categories < 1 << 16 for _, categories in levels)
    version = version or (1 if small else 2)
    words, row = VERSIONS[version]
    ordered = sorted(things, key=lambda each: each[0])
    held = sorted(holds, key=lambda each: (each[0], path_of(each[1])))
    lines = sum(head[4] == LINE for _, (head, _, _) in ordered)
    counts = bytes([len(levels), len(subjects), lines, len(schedule)]) + struct.pack("<HH", len(ordered), len(held))
    return b"".join([
        b"BLPK", struct.pack("<HH", version, turns), counts,
        *[bytes([number, 0]) + categories.to_bytes(2 * words, "little") for number, categories in levels],
        bytes(schedule), *subjects, *[head + halves[:row] + tail for _, (head, halves, tail) in ordered],
        *[bytes([number, modes]) + path_bytes(path) for number, path, modes in held],
    ])
