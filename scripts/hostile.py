"""Hostile inputs from a seed: words and bytes, each from the seed and its number alone.

The bytes are those of examples (and of an image and a configuration that use more of the formats) with bytes changed, cut,
doubled and exchanged, numbers at their bounds, programs of random words, and text of no grammar.
"""
import glob
import os
import random
import re

import images
from checking import content, top
from images import APPEND, DIRECTORY, EXECUTE, LINE, MAILBOX, READ, SEGMENT, SUPERVISOR, USER, WRITE

# Numbers at the bounds of the formats' fields, and one beside each.
BOUNDS = [0, 1, 2, 7, 8, 15, 16, 17, 31, 32, 33, 47, 48, 63, 64, 65, 127, 128, 129, 255, 256, 3903, 3904, 3905, 4095, 4096, 4097, 32767,
          32768, 65533, 65534, 65535, 65536, 4194303, 4194304, 4194305, 99999999, 999999999, 1000000000, 2**32 - 1, 2**32, 2**48 - 1, 2**48,
          2**64]

CONFIGURATION = b"""; every kind of line
turns 32
level 0 0
level 1 0
level 2 177777
level 2 7000000000177777
schedule 0 1 0
subject 0 0 user user 0 20100 20100 0 0 0 0 0 010400
subject 2 1 super user 0 0 20100 1 2 3 4 5 177777
fault 0 4 200
window 0 user i 0 /0
window 1 super i 0 /0
window 0 user d 1 /1/15
object / directory 0 3904
object /0 segment 0 4 talk
object /1 directory 0 0
object /1/15 segment 0 128
object /2 directory 1 100
object /2/0 mailbox 2
object /3 line 0 0
row / 0 rw
row / 1 r
row /0 0 re
row /0 1 re
row /1 0 r
row /1/15 0 rewa
hold 0 / r
hold 0 /0 e
hold 0 /1 r
hold 0 /1/15 rw
hold 1 / r
program talk 0
A = 10 + 2 * 3 - <7 ! 1>
START: MOV #A,R1 ; a comment
1$:    TSTB @2(R1)
       BNE 1$
       SOB R0,1$
       JSR PC,@-(R5)
       EMT 20
       BR START
       .WORD START, . , -1, 'A
       .BYTE 1, 377
       .ASCIZ /text/
       .EVEN
       .BLKW 3
endprogram
"""

WRONG_WORDS = [
    [], [b""], [b"RUN"], [b"run", b""], [b"run", b"run"], [b"run", b"gen", b"1"], [b" run"], [b"run\n"], [b"build", b"x"],
    [b"list", b"list"], [b"gen"], [b"gen", b""], [b"gen", b"00"], [b"gen", b"01"], [b"gen", b"-1"], [b"gen", b"+1"],
    [b"gen", b"1 "], [b"gen", b"0x1"], [b"gen", b"1", b"2"], [b"gen", b"4294967296"], [b"gen", b"9" * 4000], [b"--help"],
    [b"--version"], [b"\xff\xfe"], [b"run", b"\xc3"], [b"r\xc3\xbcn"], [b"x" * 100000], [b"run"] * 3000,
]


def rich_image(turns, code, subjects_code=(), categories=3, further=0):
    """An image with what the sample has not: an upgraded directory, mailboxes, both modes, fault entries, and this program; of version 2
    where these categories of its highest level, or so many further subjects, ask for it."""
    everyone = [(0, READ | EXECUTE), (1, READ | EXECUTE), (2, READ | EXECUTE)]
    def user(level, mode, line, registers):
        windows = [(16, "/0"), (0, "/0"), (25, "/1"), (9, "/2"), (26, "/5/0")]
        return images.subject(2, level, mode, USER, {5: images.words_of(line)[0], **registers}, 0o020100, 0o020100, 0,
                              {4: 0o100, 5: 0o40}, windows)
    things = [
        images.thing("/", DIRECTORY, quota=300, row=[(0, READ | WRITE), (1, READ), (2, READ)]),
        images.thing("/0", SEGMENT, 4, row=everyone, words=code),
        images.thing("/1", SEGMENT, 2, row=[(0, READ | WRITE | APPEND), (1, READ), (2, READ)], words=[0o100, 0o20]),
        images.thing("/2", SEGMENT, 1, row=[(0, READ | WRITE), (1, READ)]),
        images.thing("/3", MAILBOX, level=1, row=[(0, APPEND), (1, WRITE)]),
        images.thing("/4", LINE, 0, 0, row=[(0, WRITE)]),
        images.thing("/5", DIRECTORY, level=1, quota=20, row=[(1, READ | WRITE), (2, READ)]),
        images.thing("/5/0", SEGMENT, 3, 1, row=[(1, READ | WRITE), (2, READ)]),
        images.thing("/5/1", LINE, 1, 1, row=[(1, WRITE)]),
        images.thing("/6", LINE, 2, 2, row=[(2, WRITE), (0, APPEND), (1, APPEND)]),
    ]
    holds = [(s, path, modes) for s, path, modes in [
        (0, "/", READ | WRITE), (0, "/0", EXECUTE), (0, "/1", READ | WRITE), (0, "/2", READ | WRITE), (0, "/3", APPEND), (0, "/4", WRITE),
        (1, "/", READ), (1, "/0", EXECUTE), (1, "/1", READ), (1, "/5", READ | WRITE), (1, "/5/0", READ | WRITE), (1, "/5/1", WRITE),
        (2, "/", READ), (2, "/0", EXECUTE), (2, "/6", WRITE)]]
    first, second, third = [*subjects_code, {}, {}, {}][:3]
    subjects = [user(0, USER, "/4", first), user(1, USER, "/5/1", second), user(2, SUPERVISOR, "/6", third)]
    return images.image(turns, [(0, 0), (1, 0), (2, categories)], [0, 1, 0, 2], subjects + further * [images.subject()], things, holds)


def parts(name):
    """What the examples have under this name."""
    return [content(path) for path in sorted(glob.glob(os.path.join(top, "examples", "*", name)))]


ECHO = [0o010501, 0o012702, 0, 0o104020, 0o005700, 0o001402, 0o104024, 0o000770, 0o010203, 0o010501, 0o012702, 0, 0o104017, 0o000762]
WIDE = {"categories": 1 << 47 | 1 << 16 | 3, "further": 61}
IMAGES = [*parts("image"), rich_image(32, ECHO), rich_image(32, ECHO, **WIDE)]
SCRIPTS = [*parts("script"), b"0 0 00ff\n0 1 61\n3 1 " + b"62" * 128 + b"\nEND 8\n", b"END 0\n"]
REPORTS = parts("report")
CONFIGURATIONS = [*parts("configuration"), CONFIGURATION]


def span(rng, data):
    """Two places of the bytes, the first not above the second."""
    return sorted(rng.randint(0, len(data)) for _ in range(2))


def changed(rng, data):
    """Some bytes are others."""
    for _ in range(rng.choice([1, 1, 1, 2, 4, 8])):
        at = rng.randrange(len(data))
        data = data[:at] + bytes([rng.choice([0, 1, 2, 10, 13, 32, 48, 57, 127, 128, 255, rng.randrange(256)])]) + data[at + 1:]
    return data


def cut(rng, data):
    """Bytes are missing: the end, or some in the midst."""
    first, last = span(rng, data)
    return data[:last] if rng.random() < 0.4 else data[:first] + data[last:]


def doubled(rng, data):
    """Some bytes stand once more."""
    first, last = span(rng, data)
    return data[:last] + data[first:last] * rng.choice([1, 1, 1, 2, 30]) + data[last:]


def exchanged(rng, data):
    """Two neighbouring pieces have changed their places."""
    first, second, third = sorted(rng.randint(0, len(data)) for _ in range(3))
    return data[:first] + data[second:third] + data[first:second] + data[third:]


def moved(rng, data):
    """Text lines stand elsewhere, or twice, or one is missing."""
    lines = data.splitlines(keepends=True)
    at, to = rng.randrange(len(lines)), rng.randrange(len(lines))
    line = lines[at] if rng.random() < 0.3 else lines.pop(at)
    return b"".join(lines[:to] + [line] * rng.choice([0, 1, 1, 1, 2]) + lines[to:])


def bounded(rng, data):
    """A number is at a bound: a field of the text, or one or two bytes."""
    numbers = list(re.finditer(rb"(?<![^ \n/])[0-9]+(?![^ \n/])", data))
    bound = rng.choice(BOUNDS)
    if numbers and rng.random() < 0.8:
        found = rng.choice(numbers)
        text = rng.choice([b"%d"] * 9 + [b"%o", b"0%d", b"-%d", b"+%d", b"%d."]) % bound
        return data[:found.start()] + text + data[found.end():]
    at, size = rng.randrange(len(data)), rng.choice([1, 2])
    return data[:at] + (bound % 256 ** size).to_bytes(size, "little") + data[at + size:]


def mutated(rng, data):
    """One to four such changes, one after another."""
    for _ in range(rng.choice([1, 1, 1, 2, 3, 4])):
        if data:
            data = rng.choice([changed, changed, cut, doubled, exchanged, moved, bounded, bounded])(rng, data)
    return data


def garbage(rng):
    """Bytes of no grammar."""
    size = rng.choice([0, 1, 2, 40, 300, 3000])
    letters = rng.choice([bytes(range(256)), b"0123456789 \n", b"END 0123456789abcdef \n", b"object /0 segment\n", b"\n", b"\0",
                          b"MOV #@R01,()+-<>*;:'\n"])
    text = bytes(rng.choice(letters) for _ in range(size))
    return rng.choice([b"", b"", b"BLPK", b"BLPK\x01\x00", b"END "]) + text


def call_words(rng):
    """A kernel call with arguments near those that the images know, or far from them."""
    path = rng.choice(["/", "/0", "/1", "/2", "/3", "/4", "/5", "/5/0", "/5/1", "/6", "/7", "/5/2", "/1/0", "/15/15/15/15/15/15/15"])
    first, second = images.words_of(path) if rng.random() < 0.9 else (rng.randrange(65536), rng.randrange(65536))
    third = rng.choice([*range(33), 0o100, 0o177, 0o400, 0o401, 0o1000, 0o1400, 65535])
    fourth, fifth = rng.choice([0, 1, 2, 3, 31, 32, 63, 64, 65535]), rng.choice([0, 1, 5, 16, 3904, 3905])
    arguments = [0o012701, first, 0o012702, second, 0o012703, third, 0o012704, fourth, 0o012705, fifth]
    return arguments[:rng.choice([4, 6, 8, 10])] + [0o104000 + rng.randrange(0o31)]


def code(rng):
    """A program of at most 128 words: calls, references, returns, traps, jumps and random words."""
    words = []
    while len(words) < 100 and rng.random() < 0.96:
        address = rng.choice([0, 2, 0o020000, 0o020002, 0o020077, 0o020100, 0o020177, 0o040000, 0o177776, rng.randrange(65536)])
        words += rng.choice([
            call_words(rng), call_words(rng), [0o104020, 0o104017],
            [0o013700 + rng.randrange(8), address], [0o010037 + 64 * rng.randrange(8), address], [0o110037, address], [0o113703, address],
            [0o010046 + 64 * rng.randrange(8)], [0o012600 + rng.randrange(8)], [rng.choice([0o004737, 0o000137]), 2 * rng.randrange(128)],
            [rng.choice([0, 1, 2, 3, 4, 5, 6, 0o104400, 0o207, 0o106510, 0o006510, 0o106610, 0o006610])],
            [rng.randrange(65536)], [rng.randrange(65536), rng.randrange(65536)],
            [0o012703, rng.randrange(8), 0o012704, 2 * rng.randrange(100), 0o104025]])
    return [*words[:127], 0o000400 + 256 - rng.randint(1, 128)]


def script(rng, lines):
    """A script of the grammar."""
    end = rng.choice([0, 1, 2, 4, 12, 64])
    places = sorted({(rng.randrange(end), rng.randrange(lines)) for _ in range(rng.randrange(12))}) if end and lines else []
    records = ["%d %d %s\n" % (slot, line, bytes(rng.randrange(256) for _ in range(rng.choice([1, 2, 8, 64, 65, 128]))).hex())
               for slot, line in places]
    return "".join(records).encode() + b"END %d\n" % end


def registers(rng):
    return {n: rng.choice([0, 1, 0o010400, 0o177777, rng.randrange(65536)]) for n in range(5) if rng.random() < 0.5}


def hostile_program(rng):
    """An accepted image whose first three subjects run a program that nobody meant, and a script for it."""
    turns, more = rng.choice([1, 2, 16, 64, 256]), rng.choice([{}, {}, WIDE])
    return rich_image(turns, code(rng), [registers(rng) for _ in range(3)], **more) + script(rng, 3)


def other(rng):
    """Something else than what is asked for, or more of it than there may be."""
    whole = rng.choice(IMAGES) + rng.choice(SCRIPTS)
    return rng.choice([
        lambda: garbage(rng), lambda: rng.choice(IMAGES), lambda: cut(rng, rng.choice(IMAGES)), lambda: rng.choice(SCRIPTS), lambda: rng.choice(REPORTS),
        lambda: rng.choice(IMAGES) + rng.choice(REPORTS), lambda: mutated(rng, rng.choice(REPORTS)), lambda: whole + whole,
        lambda: rng.choice(IMAGES) + garbage(rng), lambda: rng.choice(CONFIGURATIONS), lambda: whole.replace(b"\n", b"\r\n"),
        lambda: whole + bytes(rng.choice([1, 5000, 1600000])), lambda: rng.choice(CONFIGURATIONS) * rng.choice([2, 50]),
    ])()


def run_bytes(rng):
    """The input of a run."""
    kind = rng.random()
    if kind < 0.35:
        return hostile_program(rng)
    if kind < 0.55:
        return rng.choice(IMAGES) + mutated(rng, rng.choice(SCRIPTS))
    if kind < 0.85:
        return mutated(rng, rng.choice(IMAGES)) + rng.choice(SCRIPTS)
    if kind < 0.92:
        return mutated(rng, hostile_program(rng))
    return other(rng)


def hostile(seed, number):
    """The words and the input of this number."""
    rng = random.Random(f"{seed} {number}")
    kind = rng.random()
    if kind < 0.75:
        return [b"run"], run_bytes(rng)
    if kind < 0.93:
        word = rng.choice([b"build", b"list"])
        return [word], mutated(rng, rng.choice(CONFIGURATIONS)) if rng.random() < 0.8 else other(rng)
    if kind < 0.95:
        return [b"gen", b"%d" % rng.choice([bound for bound in BOUNDS if bound < 2**32])], other(rng)
    return rng.choice(WRONG_WORDS), other(rng)
