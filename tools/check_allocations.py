#!/usr/bin/env python3
"""Runs the commands of `layc` with each request for memory refused in turn, and with all from one on.

A small library stands before the C library's allocator (`refused_allocations.c`). Each command is run once with no request refused, which tells its outcome
and how many requests it makes. Then it is run again for each of these: it must end with its own outcome, or with `out of memory`. Where it ends with that, a
file that it was to write is as it was before or holds all that it was to hold, and what it printed is a first part of what it prints else.

Words: `--most N` tries some N requests of each command, spread over all; without it, 60. `--all` tries each."""

import os
import subprocess
import sys
import tempfile
from concurrent.futures import ThreadPoolExecutor

import checking
from checking import MEMORY_STATUS, check

HERE = os.path.dirname(os.path.abspath(__file__))
SOURCE = os.path.join(HERE, "refused_allocations.c")
PROGRAMS = os.path.join(HERE, "programs")
# Each with the input of its run: one file and two, structures, functions by pointer, allocations, and output.
NAMES = [["avl_tree.c"], ["bank.1.c", "bank.2.c"], ["calculator.c"], ["dispatch.c"], ["double_list.c"]]
BEFORE = b"what stood there before\n"
MOST = 60
SECONDS = 120
TEXT = b"out of memory"


class Command:
    """A command with its words, in which OUT is the file that it is to write, and the text of its input."""

    def __init__(self, words, text=b"", writes=False):
        self.words, self.text, self.writes = words, text, writes


class Ended:
    def __init__(self, done, written):
        self.status, self.output, self.errors, self.written = done.returncode, done.stdout, done.stderr, written

    def same(self, other):
        return (self.status, self.output, self.errors, self.written) == (other.status, other.output, other.errors, other.written)


def input_of(names):
    path = os.path.join(PROGRAMS, names[0].split(".")[0] + ".in")
    if not os.path.exists(path):
        return b""
    with open(path, "rb") as text:
        return text.read()


def commands_of(layc, folder, names):
    """The commands on one program. Its compiled file and its profile are made first, with all memory."""
    paths = [os.path.join(PROGRAMS, name) for name in names]
    text = input_of(names)
    elf, profile = os.path.join(folder, names[0] + ".elf"), os.path.join(folder, names[0] + ".profile")
    made = checking.run([layc, "compile", "--plain", "-o", elf, *paths], seconds=SECONDS)
    check(made.returncode == 0, f"compile {names}: {made.stderr[-200:]!r}")
    counted = checking.run([layc, "profile", "-o", profile, *paths], input=text, seconds=SECONDS)
    check(counted.returncode != MEMORY_STATUS and os.path.exists(profile), f"profile {names}: {counted.stderr[-200:]!r}")
    return [
        Command(["compile", "--plain", "-o", "OUT", *paths], writes=True),
        Command(["compile", "--plain", "--profile", profile, "-o", "OUT", *paths], writes=True),
        Command(["profile", "-o", "OUT", *paths], text, writes=True),
        Command(["interp", *paths], text),
        Command(["run", elf], text),
    ]


def ended(library, layc, command, refused):
    """How the command ends where these requests are refused, and how many it made."""
    with tempfile.TemporaryDirectory() as folder:
        out, requests = os.path.join(folder, "out"), os.path.join(folder, "requests")
        with open(out, "wb") as file:
            file.write(BEFORE)
        env = dict(os.environ, LD_PRELOAD=library, REQUESTS=requests, REFUSED=refused)
        words = [layc, *(out if word == "OUT" else word for word in command.words)]
        done = checking.run(words, input=command.text, env=env, seconds=SECONDS)
        with open(out, "rb") as file:
            written = file.read()
        made = 0
        if os.path.exists(requests):
            with open(requests) as text:
                made = int(text.read())
        return Ended(done, written), made


def try_refused(library, layc, command, own, refused):
    end, _ = ended(library, layc, command, refused)
    what = f"{' '.join(os.path.basename(word) for word in command.words)}, refused {refused}"
    if end.same(own):
        return False
    check(end.status == MEMORY_STATUS and TEXT in end.errors, f"{what}: status {end.status}, errors {end.errors[-200:]!r}")
    check(own.output.startswith(end.output), f"{what}: printed {end.output[-80:]!r}")
    check(end.written in (BEFORE, own.written), f"{what}: the file was changed")
    return True


def numbers(count, most):
    """All numbers from 1 to the count, or the first and the last of them and so many between."""
    if count <= most:
        return list(range(1, count + 1))
    step = count / most
    return sorted({1 + int(k * step) for k in range(most)} | set(range(1, 33)) | set(range(count - 31, count + 1)))


def try_command(pool, library, layc, command, most):
    own, count = ended(library, layc, command, "")
    again, made = ended(library, layc, command, "")
    check(own.same(again) and made == count > 0, f"{command.words[0]}: two runs differ, of {count} and {made} requests")
    check((own.written != BEFORE) == command.writes, f"{command.words[0]}: status {own.status}, and its file")
    tried = [text for number in numbers(count, most) for text in (str(number), f"+{number}")]
    refusals = sum(pool.map(lambda refused: try_refused(library, layc, command, own, refused), tried))
    check(refusals > 0, f"{command.words[0]}: no refused request was told")
    return count, len(tried), refusals


def main():
    words = sys.argv[1:]
    most = 10**9 if "--all" in words else int(words[words.index("--most") + 1]) if "--most" in words else MOST
    layc = checking.built("layc")
    if layc is None:
        print("skipped: layc cannot be built")
        return 1
    if not checking.have("gcc"):
        return 0
    with tempfile.TemporaryDirectory() as folder, ThreadPoolExecutor(max(1, len(os.sched_getaffinity(0)))) as pool:
        library = os.path.join(folder, "refused.so")
        subprocess.run(["gcc", "-O2", "-shared", "-fPIC", "-o", library, SOURCE, "-ldl"], check=True)
        for names in NAMES:
            tried = [try_command(pool, library, layc, command, most) for command in commands_of(layc, folder, names)]
            print(f"{names[0]}: " + "; ".join(f"{count} requests, {runs} runs, {refusals} out of memory" for count, runs, refusals in tried), flush=True)
    print(f"check_allocations: {checking.made - checking.failed} comparisons hold, {checking.failed} do not")
    return 1 if checking.failed else 0


if __name__ == "__main__":
    sys.exit(main())
