"""The largest inputs that a run may have: the most turns, the longest image of each version, and the longest script."""
import struct

from reading import VERSIONS

MOST_IMAGE = 524288
MOST_SCRIPT = 1048576
MOST_OBJECTS = 3904
MOST_HOLDS = 65535


def turns(sample):
    """The sample with 4,096 turns a slot and the word 000777, a branch to itself, at the program's start: 1,024 slots."""
    loop = bytearray(sample)
    loop[6:8] = struct.pack("<H", 4096)
    loop[170:172] = struct.pack("<H", 0o777)
    return bytes(loop) + b"END 1024\n"


def packed(path):
    """The two words of a path of at most three entries."""
    entries = list(path) + [0] * (7 - len(path))
    first = len(path) << 12 | entries[0] << 8 | entries[1] << 4 | entries[2]
    return struct.pack("<HH", first, 0)


def walk(path):
    """The paths of at most three entries from this one on, in order, and whether each is a directory's."""
    yield path, len(path) < 3
    if len(path) < 3:
        for entry in range(16):
            yield from walk(path + (entry,))


def record(path, directory, row, words):
    """The bytes of an object: a directory, or a segment of one block with so many words, with a row of so many bytes."""
    quota = MOST_OBJECTS if path == () else 0
    head = packed(path) + bytes([0 if directory else 1, 0 if directory else 1, 0, 0]) + struct.pack("<H", quota)
    return head + b"\x11" * row + struct.pack("<H", words) + b"\x01\x00" * words


def image(version):
    """Root, and below it directories and segments of one block up to 3,904 objects; as many subjects as the version has, and as many
    holds by r as there is room for."""
    categories, row = VERSIONS[version]
    count = 2 * row
    objects = [pair for pair, _ in zip(walk(()), range(MOST_OBJECTS))]
    subjects = b"".join(bytes([0, 0, 3, 3]) + bytes(12 + 6 + 16) + b"\x00" for _ in range(count))
    front = 16 + 2 + 2 * categories + 2 + len(subjects)
    words = [0 if directory else 4 for _, directory in objects]
    room = MOST_IMAGE - front - sum(12 + row + 2 * n for n in words)
    extra = room % 6 // 2
    words[[i for i, o in enumerate(objects) if not o[1]][0]] += extra
    holds = (room - 2 * extra) // 6
    assert holds <= min(MOST_HOLDS, count * len(objects)), (holds, len(objects))
    body = b"".join(record(path, directory, row, n) for (path, directory), n in zip(objects, words))
    pairs = [(s, path) for s in range(count) for path, _ in objects][:holds]
    tail = b"".join(bytes([s, 1]) + packed(path) for s, path in pairs)
    header = b"BLPK" + struct.pack("<HH", version, 1) + bytes([1, count, 0, 2]) + struct.pack("<HH", len(objects), holds)
    whole = header + bytes(2 + 2 * categories) + bytes(2) + subjects + body + tail
    assert len(whole) == MOST_IMAGE
    return whole + b"END 0\n"


def script(sample):
    """The sample and a script of 1,048,576 bytes: 3,957 records, and END."""
    lines = [f"{slot} 0 ".encode() + b"61" * (109 if slot == 9999 else 128) + b"\n" for slot in range(9999, 13956)]
    whole = b"".join(lines) + b"END 13956\n"
    assert len(whole) == MOST_SCRIPT
    return bytes(sample) + whole
