"""What the program may answer to any input at all, and the smallest part of an input that it answers otherwise."""
import collections
import contextlib
import os
import re
import resource
import signal
import subprocess
import tempfile
import threading
import time

from checking import say
from hostile import hostile

# Seconds of the processor, and seconds in all, after which an answer has taken too long; and the seconds that making an input
# smaller may take.
SECONDS = 10
PATIENCE = 100
SHRINKING = 60
# The longest output that is compared with its grammar.
READABLE = 1 << 20

NUMBER = rb"(?:0|[1-9][0-9]*)"
ITEM = (rb"(?:C # # # [0-7]{3}(?: [0-7]{6}){6} (?:yes 0|no #|\? #)|F # # # [0-7] [0-7]{6} (?:enter|stop)|L # # # [0-7]{3})\n"
        .replace(b"#", NUMBER))
END = rb"END # # # #\n".replace(b"#", NUMBER)
FIELDS = (rb"magic|version|turns|counts|level|schedule|mode|entry|window|path|parent|kind|blocks|zero|quota|row|contents|lines"
          rb"|subject|modes|exists|ss|star|long|end")
ASSEMBLY = rb"form|doubled|odd|undefined|size|divide|range"
REFUSALS = {
    0: b"",
    2: rb"usage: blpk run \| build \| list \| gen N\n",
    3: rb"image refused at #: (?:FIELDS)\n",
    4: rb"script refused at line #: (?:long|end|form|limit|line|order|slot|after)\n",
    5: rb"build refused at line #: (?:long|form|range|doubled|unknown|missing|program (?:ASSEMBLY)|image (?:FIELDS))\n",
}
REFUSALS = {status: line.replace(b"#", NUMBER).replace(b"FIELDS", FIELDS).replace(b"ASSEMBLY", ASSEMBLY)
            for status, line in REFUSALS.items()}
OUTPUTS = {b"run": b"(?:" + ITEM + b")*" + END, b"gen": END, b"build": rb"(?s:BLPK.+)", b"list": rb"(?s:(?:PROGRAM .+\n)?)"}

Answer = collections.namedtuple("Answer", "status output errors")


def answer(program, words, data):
    """What the program does with these words and this input. It is ended by a signal where it takes too long."""
    with tempfile.TemporaryFile() as given:
        given.write(data)
        given.seek(0)
        run = subprocess.Popen([program, *words], stdin=given, stdout=subprocess.PIPE, stderr=subprocess.PIPE)
        with contextlib.suppress(ProcessLookupError):
            resource.prlimit(run.pid, resource.RLIMIT_CPU, (SECONDS, SECONDS + 1))
        watch = threading.Timer(PATIENCE, run.send_signal, [signal.SIGXCPU])
        watch.start()
        output, errors = run.communicate()
        watch.cancel()
    return Answer(run.returncode, output, errors)


def own_statuses(words, built):
    """The statuses that these words may end with where no stream fails and memory is ample; `built` are the words that are there."""
    if len(words) == 1 and words[0] in (b"run", b"build", b"list"):
        return (2,) if words[0] not in built else (0, 3, 4) if words[0] == b"run" else (0, 5)
    number = re.fullmatch(NUMBER, words[1]) if len(words) == 2 and words[0] == b"gen" else None
    return (0,) if number and int(words[1]) < 2**32 else (2,)


def fault(program, words, data, built):
    """What is wrong with the program's answers to the input, if something is; and its status and its line."""
    first, second = answer(program, words, data), answer(program, words, data)
    return wrong(words, built, first, second), first.status, first.errors


def wrong(words, built, first, second):
    if first.status == -signal.SIGXCPU:
        return f"takes more than {SECONDS} seconds"
    if first.status < 0:
        return f"ends by signal {-first.status}"
    if first.status not in own_statuses(words, built):
        return f"ends with status {first.status}"
    if not re.fullmatch(REFUSALS[first.status], first.errors):
        return f"ends with status {first.status} and the error output {first.errors[:200]!r}"
    if first.status != 0 and first.output:
        return f"writes on the output with status {first.status}"
    if first.status == 0 and len(first.output) <= READABLE and not re.fullmatch(OUTPUTS[words[0]], first.output):
        return f"writes no whole output of its grammar: {first.output[-200:]!r}"
    if first != second:
        return "answers otherwise the second time"
    return None


def smallest(fails, data):
    """A part of the input that still fails: halves, quarters and so on are left out where that can be."""
    size, end = max(len(data) // 2, 1), time.monotonic() + SHRINKING
    while size and data:
        at = 0
        while at < len(data) and time.monotonic() < end:
            shorter = data[:at] + data[at + size:]
            if fails(shorter):
                data = shorter
            else:
                at += size
        size //= 2
    return data


def tell(program, words, data, built, seed, number, found):
    """Says what failed, and saves the smallest part of the input that fails."""
    part = smallest(lambda shorter: fault(program, words, shorter, built)[0] is not None, data)
    place = os.path.join(tempfile.gettempdir(), f"attack-{seed}-{number}")
    with open(place, "wb") as file:
        file.write(part)
    shown = b" ".join(words)[:200]
    say(f"seed {seed}, input {number}, words {shown!r}: it {found}; {len(part)} of {len(data)} bytes fail: {place}")


def attack(program, seed, count):
    """How many inputs of this seed are answered as they may be, up to the first that isn't; how often each status comes, and
    each line of a refusal without its place."""
    built = [word for word in (b"run", b"build", b"list") if answer(program, [word], b"").status != 2]
    say(f"seed {seed}, words {b', '.join(built).decode()} and gen")
    statuses, lines = collections.Counter(), collections.Counter()
    for number in range(count):
        words, data = hostile(seed, number)
        found, status, errors = fault(program, words, data, built)
        if found:
            tell(program, words, data, built, seed, number, found)
            return number, statuses, lines
        statuses[status] += 1
        if status in (3, 4, 5):
            lines[re.sub(rb"[0-9]+", b"N", errors)] += 1
    return count, statuses, lines
