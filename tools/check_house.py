"""Whether the house stands as docs/ARCHITECTURE.md says it does.

Each crate stands there in one line, and in docs/PROVED.md but for those of the last group; both name no crate that is not there. Groups and crates
come in crates.txt as they come there, and a crate cites only those above it. There are not too many crates, no chain of them is too long, and few
paths lead down through crates.txt, which the gate walks before its first proof. A crate names just what its sources, definitions and proofs name.
Lines of prose are not too wide, and no prose has a word that the table of words rules out, of those that mean nothing else.
"""

import functools
import os
import re
import sys

HERE = os.path.dirname(os.path.dirname(os.path.abspath(__file__)))
CRATES, CHAIN, PATHS, WIDTH = 70, 15, 60000, 160
RULED_OUT = ["checker state", "extent", "well levelled"]
faults = []


def text_of(path):
    with open(os.path.join(HERE, path), encoding="utf-8") as file:
        return file.read()


def files_below(folder, *ends):
    for at, folders, names in os.walk(os.path.join(HERE, folder)):
        folders[:] = sorted(name for name in folders if name not in ("out", "data"))
        yield from (os.path.relpath(os.path.join(at, name), HERE) for name in sorted(names) if name.endswith(ends))


def rows_between(text, first, last):
    """The cells of a table's rows, between two headings."""
    part = text.partition(f"\n{first}")[2].partition(f"\n{last}")[0]
    return [[cell.strip() for cell in line.strip("|").split("|")] for line in part.splitlines() if line.startswith("| ")]


def crates_txt():
    """The crates in their order, each with its group and with what it names."""
    uses, groups, group = {}, {}, None
    for line in text_of("crates.txt").splitlines()[1:]:
        name, colon, used = line.partition("#")[0].partition(":")
        if line.startswith("# "):
            group = line[2:]
        elif colon:
            uses[name.split()[0]], groups[name.split()[0]] = used.split(), group
    return uses, groups


def check_documents(groups):
    """ARCHITECTURE and PROVED against the crates and their groups."""
    group, standing = None, {}
    for cells in rows_between(text_of("docs/ARCHITECTURE.md"), "## The crates", "## Words"):
        if cells[0].startswith("**"):
            group = cells[0].strip("*")
        elif cells[0].startswith("`"):
            standing[cells[0].strip("`")] = group
    if list(standing.items()) != list(groups.items()):
        odd = sorted(set(standing.items()) ^ set(groups.items())) or "their order"
        faults.append(f"docs/ARCHITECTURE.md and crates.txt differ in {odd}")
    proved = {name for row in rows_between(text_of("docs/PROVED.md"), "| crate |", "## ") for name in re.findall(r"`(\w+)`", row[0])}
    told = text_of("docs/PROVED.md")
    tests = list(groups.values())[-1]
    faults.extend(f"docs/PROVED.md has no crate {name}" for name in groups if f"`{name}`" not in told and groups[name] != tests)
    faults.extend(f"docs/PROVED.md has a row of {name}, which is no crate" for name in sorted(proved - set(groups)))


def check_crates(uses, groups):
    """Counts, chains and paths; what a crate names, and that it stands above."""
    order = list(uses)
    folders = {name for name in os.listdir(os.path.join(HERE, "crates")) if os.path.isdir(os.path.join(HERE, "crates", name, "src"))}
    faults.extend(f"{name}: only one of crates.txt and crates/ has it" for name in sorted(folders ^ set(order)))
    for name in order:
        named = set()
        for path in files_below(f"crates/{name}", ".rt", ".antt"):
            text = re.sub(r"//.*" if path.endswith(".rt") else r"--.*", "", text_of(path))
            named |= set(re.findall(r"\bRattle\.(\w+)\.", text)) | set(re.findall(r"(?<![\w:])([a-z]\w*)::", text))
        faults.extend(f"crates.txt: {name} does not name {other}" for other in uses[name] if other not in named)
        above = order[: order.index(name)]
        faults.extend(f"crates.txt: {name} cites {other}, which stands below it" for other in uses[name] if other in order and other not in above)
    if not faults:
        below = {name: [other for other in used if other in uses] for name, used in uses.items()}
        depth = functools.lru_cache(None)(lambda name: 1 + max(map(depth, below[name]), default=0))
        paths = functools.lru_cache(None)(lambda name: 1 + sum(map(paths, below[name])))
        for what, count, most in [("crates", len(uses), CRATES), ("in a chain", max(map(depth, uses)), CHAIN), ("paths", sum(map(paths, uses)), PATHS)]:
            if count > most:
                faults.append(f"{count} {what}, and {most} at the most are meant")


def check_prose():
    """Widths and words, of documents and comments."""
    table = [cells[2] for cells in rows_between(text_of("docs/ARCHITECTURE.md"), "## Words", "## ") if len(cells) > 2]
    faults.extend(f"docs/ARCHITECTURE.md does not rule out '{word}'" for word in RULED_OUT if not any(word in cell.split(", ") for cell in table))
    ruled_out = re.compile(rf"\b({'|'.join(RULED_OUT)})\b")
    for path in ["README.md", *files_below("docs", ".md"), *files_below("tools", ".md", ".py"), *files_below("crates", ".rt", ".antt")]:
        for number, line in enumerate(text_of(path).splitlines(), 1):
            prose = line.lstrip().startswith(("//", "-- ")) if path.startswith("crates") else not line.startswith("|")
            if prose and len(line) > WIDTH:
                faults.append(f"{path}:{number}: {len(line)} columns")
            if prose and ruled_out.search(line) and not path.endswith("check_house.py"):
                faults.append(f"{path}:{number}: the word '{ruled_out.search(line).group(1)}'")


def main():
    uses, groups = crates_txt()
    check_documents(groups)
    check_crates(uses, groups)
    check_prose()
    for fault in faults:
        print(fault)
    print(f"the house: {len(uses)} crates, {len(faults)} faults")
    sys.exit(1 if faults else 0)


main()
