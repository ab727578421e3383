"""Images, scripts and reports as values, read by docs/FORMATS.md and by nothing of the program: the first fault of what is no image
with its place and field, and the first text line of what is no script or no report."""
import re
import struct
from types import SimpleNamespace as Value

LONGEST = 524288
DIRECTORY, SEGMENT, MAILBOX, LINE = range(4)
KINDS = ["directory", "segment", "mailbox", "line"]
READ, EXECUTE, WRITE, APPEND = 1, 2, 4, 8
LETTERS = {READ: "r", EXECUTE: "e", WRITE: "w", APPEND: "a"}
KIND_MODES = [READ | WRITE, READ | EXECUTE | WRITE | APPEND, WRITE | APPEND, WRITE | APPEND]
# Of each version of images: the words of a level's categories, and the bytes of a row, each with two subjects.
VERSIONS = {1: (1, 16), 2: (3, 32)}


class Refused(Exception):
    """What is read is none: where, and why."""

    def __init__(self, place, field):
        super().__init__(f"{place}: {field}")


class Parts:
    """The parts of some bytes, one after another."""

    def __init__(self, data):
        self.data = data
        self.at = 0

    def take(self, count):
        """The next part, and where it begins."""
        begin = self.at
        if begin + count > LONGEST:
            raise Refused(begin, "long")
        if begin + count > len(self.data):
            raise Refused(len(self.data), "end")
        self.at += count
        return self.data[begin:self.at], begin

    def number(self, count, field, allowed):
        """A part that is a number, which has to be allowed."""
        part, begin = self.take(count)
        value = int.from_bytes(part, "little")
        check([(field, value not in allowed)], begin)
        return value


def check(checks, place):
    """The first check that fails is the fault."""
    for field, fails in checks:
        if fails:
            raise Refused(place, field)


def dominates(above, below):
    """Levels are pairs of a class and a set of categories as a mask."""
    return above[0] >= below[0] and below[1] & ~above[1] == 0


def allows(mode, greatest, current, level):
    """The simple security condition and the *-property."""
    simple = mode == APPEND or dominates(greatest, level)
    if mode in (READ, EXECUTE):
        return simple and dominates(current, level)
    return simple and dominates(level, current) and (mode == APPEND or dominates(current, level))


def path_in(part):
    """The entries that two words stand for, or None."""
    first, second = struct.unpack("<HH", part)
    entries = [first >> 8 & 15, first >> 4 & 15, first & 15] + [second >> shift & 15 for shift in (12, 8, 4, 0)]
    depth = first >> 12
    return entries[:depth] if depth <= 7 and not any(entries[depth:]) else None


def text_of(path):
    return "/" + "/".join(map(str, path))


def modes_in(modes):
    return [mode for mode in LETTERS if mode & modes]


def read_subject(parts, levels):
    part, begin = parts.take(39)
    greatest, current, mode, previous = part[:4]
    words = struct.unpack("<17H", part[4:38])
    known = greatest < len(levels) and current < len(levels)
    check([("level", not known or not dominates(levels[greatest], levels[current])), ("mode", {mode, previous} - {1, 3}),
           ("entry", any(entry % 2 for entry in words[9:])), ("counts", part[38] > 32)], begin)
    windows, last = [], -1
    for _ in range(part[38]):
        window, begin = parts.take(5)
        path = path_in(window[1:])
        check([("window", window[0] > 31 or window[0] <= last or path is None)], begin)
        last = window[0]
        windows.append((last, path))
    return Value(greatest=greatest, current=current, windows=windows)


def read_object(parts, image, before):
    part, begin = parts.take(12 + image.row_bytes)
    path = path_in(part[:4])
    kind, blocks, level, zero = part[4:8]
    quota, row, count = int.from_bytes(part[8:10], "little"), part[10:-2], int.from_bytes(part[-2:], "little")
    granted = [row[s // 2] >> 4 * (s % 2) & 15 for s in range(2 * len(row))]
    check([("path", path is None or (path != [] if before is None else path <= before))], begin)
    above = image.by_path.get(text_of(path[:-1])) if path else None
    check([("parent", path and (above is None or above.kind != DIRECTORY)),
           ("kind", kind > 3 or (not path and kind != DIRECTORY))], begin)
    taken = [other.blocks for other in image.objects if other.kind == LINE]
    wrong = {SEGMENT: not 1 <= blocks <= 128, LINE: blocks >= image.lines or blocks in taken}.get(kind, blocks != 0)
    falls = level >= len(image.levels) or (above and not dominates(image.levels[level], image.levels[above.level]))
    has_cell = kind == DIRECTORY and (not path or level != above.level)
    check([("blocks", wrong), ("level", falls), ("zero", zero), ("quota", not 1 <= quota <= 3904 if has_cell else quota != 0),
           ("row", any(m & ~KIND_MODES[kind] or (m and s >= image.subject_count) for s, m in enumerate(granted))),
           ("contents", count > 32 * blocks if kind == SEGMENT else count != 0)], begin)
    words, _ = parts.take(2 * count)
    check([("contents", count and words[-2:] == b"\0\0")], begin)
    return Value(path=path, kind=kind, blocks=blocks, level=level, quota=quota, granted=granted, at=begin, has_cell=has_cell, used=1)


def charge(image):
    """The used number of each cell."""
    for each in image.objects[1:]:
        own = {SEGMENT: each.blocks, MAILBOX: 2, LINE: 1}.get(each.kind, each.quota if each.has_cell else 1)
        payer = each.path[:-1]
        while not image.by_path[text_of(payer)].has_cell:
            payer = payer[:-1]
        image.by_path[text_of(payer)].used += own


def read_hold(parts, image, before):
    part, begin = parts.take(6)
    subject, modes, path = part[0], part[1], path_in(part[2:])
    check([("subject", subject >= image.subject_count), ("modes", not 1 <= modes <= 15),
           ("path", path is None or (subject, path) <= before)], begin)
    held = image.by_path.get(text_of(path))
    check([("exists", held is None)], begin)
    who = image.subjects[subject]
    greatest, current, level = (image.levels[n] for n in (who.greatest, who.current, held.level))
    parent = image.by_path[text_of(path[:-1])]
    check([("kind", modes & ~KIND_MODES[held.kind]), ("row", modes & ~held.granted[subject]),
           ("ss", modes & ~APPEND and not dominates(greatest, level)),
           ("star", not all(allows(mode, greatest, current, level) for mode in modes_in(modes))),
           ("parent", path and not dominates(current, image.levels[parent.level]))], begin)
    return Value(subject=subject, modes=modes, path=path)


def read_image(data):
    """The image in front of the bytes."""
    parts = Parts(data)
    image = Value(levels=[], subjects=[], objects=[], holds=[], by_path={})
    check([("magic", parts.take(4)[0] != b"BLPK")], 0)
    image.version = parts.number(2, "version", VERSIONS)
    words, image.row_bytes = VERSIONS[image.version]
    image.turns = parts.number(2, "turns", range(1, 4097))
    counts = [range(1, 65), range(1, 2 * image.row_bytes + 1), range(17), range(1, 65)]
    level_count, image.subject_count, image.lines, places = (parts.number(1, "counts", allowed) for allowed in counts)
    object_count = parts.number(2, "counts", range(1, 3905))
    hold_count = parts.number(2, "counts", range(65536))
    for _ in range(level_count):
        part, begin = parts.take(2 + 2 * words)
        level = (part[0], int.from_bytes(part[2:], "little"))
        check([("level", part[1] or level in image.levels)], begin)
        image.levels.append(level)
    small = image.subject_count <= 32 and all(mask < 1 << 16 for _, mask in image.levels)
    check([("version", image.version == 2 and small)], 4)
    image.schedule = [parts.number(1, "schedule", range(image.subject_count)) for _ in range(places)]
    image.subjects = [read_subject(parts, image.levels) for _ in range(image.subject_count)]
    before = None
    for _ in range(object_count):
        each = read_object(parts, image, before)
        before = each.path
        image.objects.append(each)
        image.by_path[text_of(before)] = each
    charge(image)
    for each in image.objects:
        check([("quota", each.has_cell and each.used > each.quota)], each.at)
    check([("lines", sum(each.kind == LINE for each in image.objects) < image.lines)], 10)
    before = (-1, [])
    for _ in range(hold_count):
        hold = read_hold(parts, image, before)
        before = (hold.subject, hold.path)
        image.holds.append(hold)
    image.length = parts.at
    image.line_levels = {each.blocks: each.level for each in image.objects if each.kind == LINE}
    return image


RAISE = "027"
NUMBER = r"(?:0|[1-9][0-9]*)"
RECORD = re.compile(rb"(0|[1-9][0-9]{0,8}) (0|[1-9][0-9]{0,8}) ((?:[0-9a-f]{2}){1,128})")
SLOTS = re.compile(rb"END (0|[1-9][0-9]{0,8})")
MOST_SCRIPT, MOST_SLOTS, MOST_TURNS = 1048576, 65535, 4194304


def read_script(data, image):
    """The records of a script for the image, each with its slot, its line and its bytes, and the number of slots."""
    check([("long", len(data) > MOST_SCRIPT)], "line 0")
    records, before = [], (0, -1)
    *lines, rest = data.split(b"\n")
    for number, line in enumerate(lines, 1):
        place = f"line {number}"
        end, found = SLOTS.fullmatch(line), RECORD.fullmatch(line)
        if end:
            slots = int(end[1])
            check([("limit", slots > MOST_SLOTS or slots * image.turns > MOST_TURNS), ("slot", records and records[-1].slot >= slots)], place)
            check([("after", rest or lines[number:])], f"line {number + 1}")
            return records, slots
        check([("form", not found)], place)
        slot, on = int(found[1]), int(found[2])
        check([("limit", slot >= MOST_SLOTS), ("line", on >= image.lines), ("order", (slot, on) <= before)], place)
        before = (slot, on)
        records.append(Value(slot=slot, line=on, bytes=bytes.fromhex(found[3].decode())))
    raise Refused(f"line {len(lines) + 1}", "end")


ITEM = re.compile(rf"C ({NUMBER}) ({NUMBER}) ({NUMBER}) ([0-7]{{3}})((?: [0-7]{{6}}){{6}}) (?:(yes) 0|(no|\?) ([1-9]\d*))"
                  rf"|F ({NUMBER}) ({NUMBER}) ({NUMBER}) ([0-7]) ([0-7]{{6}}) (enter|stop)"
                  rf"|L ({NUMBER}) ({NUMBER}) ({NUMBER}) ([0-7]{{3}})")
END = re.compile(rf"END ({NUMBER}) ({NUMBER}) ({NUMBER}) ({NUMBER})")


def read_report(text, image):
    """The items of a report of the image, and its number of slots."""
    items, lines, current = [], text.split("\n"), [subject.current for subject in image.subjects]
    for place, line in enumerate(lines[:-1], 1):
        end = END.fullmatch(line)
        if end:
            calls = sum(item.kind == "C" for item in items)
            check([("after", lines[place:] != [""])], f"line {place + 1}")
            check([("totals", int(end[4]) != calls or int(end[2]) != int(end[1]) * image.turns)], f"line {place}")
            check([("slot", any(item.slot >= int(end[1]) for item in items))], f"line {place}")
            return items, int(end[1])
        found = ITEM.fullmatch(line)
        check([("form", not found)], f"line {place}")
        items.append(item_of(line, found, image, current, f"line {place}"))
    raise Refused(f"line {len(lines)}", "end")


def item_of(line, found, image, current, place):
    """An item: its place in the run, the subject in whose slot it stands, and the number of that one's current level when it comes. A
    raise that is answered yes changes it for those after it."""
    item = Value(kind=line[0], text=line)
    slot, turn, who = next(found.group(n, n + 1, n + 2) for n in (1, 9, 15) if found[n] is not None)
    item.slot, item.turn = int(slot), int(turn)
    item.subject = image.schedule[item.slot % len(image.schedule)]
    item.level = current[item.subject]
    if item.kind == "L":
        item.line, item.byte = int(who), int(found[18], 8)
        check([("line", item.line not in image.line_levels)], place)
    else:
        check([("subject", int(who) != item.subject)], place)
    if item.kind == "C":
        item.call, item.answer, item.cause = found[4], found[6] or found[7], int(found[8] or 0)
        if (item.call, item.answer) == (RAISE, "yes"):
            current[item.subject] = int(found[5].split()[3], 8)
            check([("level", current[item.subject] >= len(image.levels))], place)
    if item.kind == "F":
        item.fault, item.how = int(found[12]), found[14]
    check([("turn", item.turn >= image.turns)], place)
    return item
