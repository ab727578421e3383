"""What the checks of this folder share: building a program once, the folder of cases from outside, and the last line.

Usage: checking.py CRATE      prints the path of the crate's program, once it is proved and built
"""
import glob
import hashlib
import os
import subprocess
import sys

top = os.path.normpath(os.path.join(os.path.dirname(os.path.abspath(__file__)), ".."))
name = os.path.basename(sys.argv[0])


def say(text):
    print(f"{name}: {text}", flush=True)


def fail(text):
    say(text)
    sys.exit(1)


def sources():
    """A sum over what a program is built from: the toolchain, each crate's own files, and the list of crates."""
    found = hashlib.sha256(subprocess.run(["rt", "version"], capture_output=True).stdout)
    places = [os.path.join(top, "crates.txt")]
    for kind in ("src", "specs", "proofs"):
        places += glob.glob(os.path.join(top, "crates", "*", kind, "**", "*.*"), recursive=True)
    for place in sorted(places):
        found.update(os.path.relpath(place, top).encode() + b"\0" + content(place) + b"\0")
    return found.hexdigest()


def built(crate):
    """The path of the crate's program, proved and built. What an earlier check built is taken where program and sources are the ones
    that it left; else it is taken away, and the program is proved and built anew."""
    place = os.path.join(top, "crates", crate)
    program, note = os.path.join(place, "out", crate), os.path.join(place, "out", "built-of")
    state = sources()
    if os.path.exists(note) and os.access(program, os.X_OK) and content(note).decode() == noted(state, program):
        return program
    for left in (note, program):
        if os.path.exists(left):
            os.remove(left)
    # `gen 0` asks for no input; a program that reads its input finds none, and its own status doesn't matter here.
    made = subprocess.run(["rt", "run", "--", "gen", "0"], cwd=place, stdin=subprocess.DEVNULL, capture_output=True)
    if not os.access(program, os.X_OK):
        sys.stdout.write((made.stdout + made.stderr).decode(errors="replace")[-2000:])
        fail(f"{crate} could not be built")
    with open(note, "w") as file:
        file.write(noted(state, program))
    return program


def noted(state, program):
    """What stands beside a program that was built of these sources."""
    return f"{state} {hashlib.sha256(content(program)).hexdigest()}\n"


def vectors(*parts):
    """The place of cases from outside in the folder that BLPK_VECTORS names, by default ../shared/vectors; None where that
    whole folder is missing. A folder that is there and lacks the place is a failure."""
    folder = os.environ.get("BLPK_VECTORS", os.path.join(top, "..", "shared", "vectors"))
    if not os.path.isdir(folder):
        return None
    place = os.path.join(folder, *parts)
    if not os.path.exists(place):
        fail(f"{place} is missing")
    return place


def needs_vectors(*parts):
    """The place of cases from outside; where the whole folder is missing the check ends here, and says so."""
    place = vectors(*parts)
    if place is None:
        say("not made, since there are no cases from outside")
        sys.exit(0)
    return place


def wanted(case):
    """What a case from outside has to give: the status, the output and the error output of the latest of its answers."""
    answer = next(case + kind for kind in (".ten", ".v2", "") if os.path.exists(case + kind + ".status"))
    return int(content(answer + ".status")), content(answer + ".out"), content(answer + ".err")


def content(path):
    """The bytes of a file that has to be there."""
    try:
        with open(path, "rb") as file:
            return file.read()
    except OSError as error:
        fail(f"{path}: {error.strerror}")


def finish(agree, total, least, what):
    """The last line, and the status: all have to agree, and there have to be at least so many."""
    say(f"{agree} of {total} {what}")
    if total < least:
        fail(f"there have to be at least {least}")
    sys.exit(0 if agree == total else 1)


if __name__ == "__main__":
    print(built(sys.argv[1]))
