#!/usr/bin/env python3
"""Lists the crates that a change touches, each with its processor seconds, and says how long their proofs take.

Words: a commit to compare the files with, HEAD where none is given. `*` marks a crate that has a change of its own; the others stand above one.

`--watch` fills `seconds.txt`: while `rt ci` or `./layc` proves crates of this checkout, in another terminal, it adds up the processor time of each crate,
since the log of `rt ci` has no times. Ctrl-C ends it. It is right where all is proved from nothing, as by `rt ci --anew`; what is under way when it begins
or ends is left out, and what the table has of other crates is kept."""

import os
import subprocess
import sys
import time

import building
import proof_seconds

PROCESSORS = 4
SECONDS_BETWEEN_LOOKS = 1
# A check over kept work takes less.
LEAST_SECONDS = 2


# ---- the crates that a change touches


def changed_files(base):
    """The files that differ from the commit, and new ones."""
    names = []
    for words in [["diff", "--name-only", base], ["ls-files", "--others", "--exclude-standard"]]:
        done = subprocess.run(["git", *words], cwd=building.HERE, capture_output=True, text=True)
        if done.returncode != 0:
            sys.exit(f"git {' '.join(words)}: {done.stderr.strip()}")
        names += done.stdout.splitlines()
    return names


def lines_of_crates(text):
    lines = (line.partition("#")[0].partition(":") for line in text.splitlines())
    return {name.strip(): used.split() for name, colon, used in lines if colon}


def relisted(base):
    """The crates whose line in crates.txt differs from the commit's."""
    done = subprocess.run(["git", "show", f"{base}:crates.txt"], cwd=building.HERE, capture_output=True, text=True)
    with open(os.path.join(building.HERE, "crates.txt")) as text:
        now, before = lines_of_crates(text.read()), lines_of_crates(done.stdout)
    return {name for name in now if now[name] != before.get(name)}


def changed_crates(base, uses):
    names = changed_files(base)
    crates = {name.split("/")[1] for name in names if name.startswith("crates/") and name.count("/") > 1}
    return (crates | (relisted(base) if "crates.txt" in names else set())) & set(uses)


def affected(changed, uses):
    """The crates, the lowest first, that are changed or stand above a changed one."""
    order = []
    for crate in uses:
        order += [each for each in building.crates_for(crate, uses) if each not in order]
    touched = set(changed)
    for crate in order:
        if touched.intersection(uses[crate]):
            touched.add(crate)
    return [crate for crate in order if crate in touched]


def show(base):
    uses = building.crates()
    changed = changed_crates(base, uses)
    order = affected(changed, uses)
    known, seconds = proof_seconds.table(), proof_seconds.seconds_of(order)
    for crate in order:
        print(f"{'*' if crate in changed else ' '} {seconds[crate]:6.0f} s{' ' if crate in known else '~'} {crate}")
    total, chain = sum(seconds.values()), max(proof_seconds.chains(order, uses, seconds).values(), default=0)
    together = proof_seconds.seconds_together(order, uses, seconds, PROCESSORS)
    print(f"{len(changed)} crates are changed, and {len(order)} of {len(uses)} are to be proved: {proof_seconds.in_words(total)} of a processor, about "
          f"{proof_seconds.in_words(together)} on {PROCESSORS}; the longest chain takes {proof_seconds.in_words(chain)}")
    if any(crate not in known for crate in order):
        print("~ has no figure in seconds.txt, and is reckoned by its lines")


# ---- watching proofs


TICKS = os.sysconf("SC_CLK_TCK")


def proofs():
    """The processes that prove a crate of this checkout: by number and start, the crate and the processor seconds so far."""
    found = {}
    for number in filter(str.isdigit, os.listdir("/proc")):
        try:
            with open(f"/proc/{number}/cmdline", "rb") as text:
                words = text.read().decode(errors="replace").split("\0")
            folder = os.readlink(f"/proc/{number}/cwd")
            with open(f"/proc/{number}/stat") as text:
                fields = text.read().rpartition(")")[2].split()
        except OSError:
            continue
        crate = os.path.basename(folder)
        is_whole = words[0].endswith("/rattle") and words[1] in ("build", "check") and "--only" not in words
        if is_whole and folder == building.folder_of(crate):
            found[number, fields[19]] = crate, (int(fields[11]) + int(fields[12])) / TICKS
    return found


def write_table(seconds):
    order = [crate for crate in building.crates() if crate in seconds]
    with open(proof_seconds.TABLE, "w") as table:
        table.write("# Processor seconds of the proof of a crate and of its tests from nothing, as `affected.py --watch` saw them.\n")
        table.writelines(f"{crate} {seconds[crate]:.0f}\n" for crate in order)


def watch():
    """Adds up the proofs that begin and end while it looks, and writes them to the table. A crate that is at work as it begins is left out."""
    left_out, running, seen, table = {crate for crate, _ in proofs().values()}, {}, {}, proof_seconds.table()
    print("watching the proofs of this checkout; Ctrl-C ends it", flush=True)
    while True:
        now = proofs()
        for key in running.keys() - now.keys():
            crate, spent = running.pop(key)
            seen[crate] = seen.get(crate, 0) + spent
            if crate not in left_out and seen[crate] >= LEAST_SECONDS:
                write_table({**table, **{each: seen[each] for each in seen.keys() - left_out if seen[each] >= LEAST_SECONDS}})
                print(f"{crate} {seen[crate]:.0f}", flush=True)
        running.update(now)
        time.sleep(SECONDS_BETWEEN_LOOKS)


def main():
    words = sys.argv[1:]
    try:
        if "--watch" in words:
            watch()
        else:
            show(words[0] if words else "HEAD")
    except KeyboardInterrupt:
        return 130
    return 0


if __name__ == "__main__":
    sys.exit(main())
