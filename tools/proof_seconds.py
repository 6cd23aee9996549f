"""How long proofs take: processor seconds of each crate, from `seconds.txt` or by its lines, and how long several take at a time."""

import heapq
import os

HERE = os.path.dirname(os.path.dirname(os.path.abspath(__file__)))
TABLE = os.path.join(HERE, "tools", "seconds.txt")
PARTS = ["src", "specs", "proofs"]
# What a crate without a figure takes: some seconds before its first function, and more for each line of code, and of definitions and lemmas.
SECONDS_OF_CRATE = 15
SECONDS_OF_LINE = {".rt": 0.25, ".antt": 0.007}


def table():
    """The crates that have a figure, with it."""
    seconds = {}
    if os.path.exists(TABLE):
        with open(TABLE) as lines:
            for line in lines:
                words = line.partition("#")[0].split()
                if len(words) == 2:
                    seconds[words[0]] = float(words[1])
    return seconds


def seconds_by_lines(crate):
    seconds = SECONDS_OF_CRATE
    for part in PARTS:
        for folder, _, names in os.walk(os.path.join(HERE, "crates", crate, part)):
            for name in names:
                with open(os.path.join(folder, name), "rb") as text:
                    seconds += text.read().count(b"\n") * SECONDS_OF_LINE.get(os.path.splitext(name)[1], 0)
    return seconds


def seconds_of(crates):
    """Processor seconds of each of the crates."""
    known = table()
    return {crate: known[crate] if crate in known else seconds_by_lines(crate) for crate in crates}


def chains(order, uses, seconds):
    """For each crate the seconds of the longest chain of crates that begins with it and goes up."""
    longest = {crate: seconds[crate] for crate in order}
    for crate in reversed(order):
        for used in uses[crate]:
            if used in longest:
                longest[used] = max(longest[used], seconds[used] + longest[crate])
    return longest


def seconds_together(order, uses, seconds, at_once):
    """How long the crates take, so many at a time, where the one with the longest chain above it comes first. `order` has the lowest first."""
    longest, left, done, running, now = chains(order, uses, seconds), set(order), set(), [], 0.0
    while left or running:
        ready = [crate for crate in left if all(used in done or used not in longest for used in uses[crate])]
        for crate in sorted(ready, key=lambda each: (-longest[each], each))[: at_once - len(running)]:
            left.remove(crate)
            heapq.heappush(running, (now + seconds[crate], crate))
        now, crate = heapq.heappop(running)
        done.add(crate)
    return now


def in_words(seconds):
    return f"{seconds:.0f} s" if seconds < 100 else f"{seconds / 60:.0f} min"
