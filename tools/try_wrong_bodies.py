#!/usr/bin/env python3
"""Tries the wrong bodies of tools/wrong_bodies: the proof of their crate has to refuse each of them.

    try_wrong_bodies.py [--check] [CRATE | CRATE/NAME.edit ...]

It tries those that are named, or all, on a copy of their crate, over what earlier checks kept of it and of the
crates below it. So a trial proves anew little more than what the edit changes. What is missing is proved first.
With `--check` it tries none, and says of each whether it can be applied to its crate as that stands.
The exit status is 1 where one was not refused, could not be applied or was not tried."""

import os
import re
import shutil
import subprocess
import sys
import tempfile

from building import crates, crates_for

HERE = os.path.dirname(os.path.dirname(os.path.abspath(__file__)))
WRONG_BODIES = os.path.join(HERE, "tools", "wrong_bodies")
REFUSED, NOT_REFUSED, BAD_EDIT, NOT_TRIED = "refused", "NOT REFUSED", "BAD EDIT", "NOT TRIED"


def crates_with_edits():
    return sorted(name for name in os.listdir(WRONG_BODIES) if edits_of(name))


def edits_of(crate):
    folder = os.path.join(WRONG_BODIES, crate)
    return sorted(name for name in os.listdir(folder) if name.endswith(".edit")) if os.path.isdir(folder) else []


def asked(words):
    """The edits that the words name, by crate; None where a word names none."""
    edits = {}
    for word in words or crates_with_edits():
        crate, slash, name = word.partition("/")
        known = edits_of(crate)
        if not known or slash and name not in known:
            print(f"no wrong bodies in tools/wrong_bodies for {word}", file=sys.stderr)
            return None
        edits.setdefault(crate, []).extend([name] if slash else known)
    return edits


# ---- a copy of one crate


def put_copy(folder, crate):
    """A copy of the repository, with the libraries below that crate that were built, and with the work that was kept of the crate."""
    here, there = os.path.join(HERE, "crates"), os.path.join(folder, "crates")
    shutil.copytree(here, there, ignore=shutil.ignore_patterns("out"))
    below = [name for name in crates_for(crate, crates()) if name != crate]
    for part in [os.path.join(name, "out", "rlib") for name in below] + [os.path.join(crate, "out", "incremental")]:
        if os.path.isdir(os.path.join(here, part)):
            shutil.copytree(os.path.join(here, part), os.path.join(there, part))
    for name in ["crates.txt", "HANDLES"]:
        shutil.copy(os.path.join(HERE, name), folder)
    return os.path.join(there, crate)


# ---- one edit


def texts_with(edit, folder):
    """The texts of the files that an edit changes, as they become, by their path in the crate; or why it cannot be applied."""
    path, old, texts = None, None, {}
    with open(edit) as lines:
        for line in lines.read().split("\n"):
            word, colon, text = line.partition(":")
            text = text[1:] if text.startswith(" ") else text
            if word == "file":
                path = text
            elif word == "old":
                old = text
            elif word == "new":
                if path not in texts:
                    if not os.path.isfile(os.path.join(folder, path)):
                        return None, f"there is no file {path}"
                    with open(os.path.join(folder, path)) as file:
                        texts[path] = file.read()
                if texts[path].count(old) != 1:
                    return None, f"an old text is in {path} {texts[path].count(old)} times, and not once"
                texts[path] = texts[path].replace(old, text)
    return (texts, "") if texts else (None, "it changes nothing")


def put_texts(folder, texts):
    """Puts texts in the place of those of a crate, and answers what was there."""
    before = {}
    for path, text in texts.items():
        file = os.path.join(folder, path)
        with open(file) as old:
            before[path] = old.read()
        with open(file, "w") as new:
            new.write(text)
    return before


def check(folder):
    done = subprocess.run(["rt", "check"], cwd=folder, stdin=subprocess.DEVNULL, capture_output=True, text=True, errors="replace")
    return done.returncode, done.stdout + done.stderr


def judged(status, text):
    """What became of a wrong body, by the status and the text of its check, and the line that says so."""
    forged = re.search(r"^(\./)?src/\S+: error\[private-field\].*", text, re.M)
    unread = re.search(r"^(\./)?(src|specs)/\S+: error.*", text, re.M)
    open_goal = re.search(r"^note: src/\S+: it is not .*", text, re.M)
    broken = re.search(r"^(\./)?proofs/\S+: error.*", text, re.M)
    if status == 0:
        return NOT_REFUSED, "the crate is still proved"
    if forged:
        return REFUSED, f"before any proof: {forged[0]}"
    if unread:
        return BAD_EDIT, unread[0]
    if status == 1 and re.search(r"^logic=not-proved", text, re.M):
        if broken and not open_goal:
            return REFUSED, f"by a proof file, which may only name what the edit takes away: {broken[0]}"
        return REFUSED, open_goal[0] if open_goal else ""
    return BAD_EDIT, "it did not reach the prover"


def try_edit(folder, crate, name):
    texts, why = texts_with(os.path.join(WRONG_BODIES, crate, name), folder)
    if not texts:
        return BAD_EDIT, why
    before = put_texts(folder, texts)
    try:
        return judged(*check(folder))
    finally:
        put_texts(folder, before)


def try_crate(crate, names):
    """What became of each of these edits. None is tried where the crate itself is not proved."""
    results = []
    with tempfile.TemporaryDirectory(prefix="wrong_bodies_") as room:
        folder = put_copy(room, crate)
        status, text = check(folder)
        if status != 0:
            print(text)
        for name in names:
            result, said = (NOT_TRIED, "the crate itself is not proved") if status else try_edit(folder, crate, name)
            print(f"{crate}/{name}: {result}: {said[:200]}", flush=True)
            results.append(result)
    return results


def applied(edits):
    """How many of these edits there are, and how many cannot be applied, each of which is printed."""
    made = bad = 0
    for crate, names in edits.items():
        for name in names:
            texts, why = texts_with(os.path.join(WRONG_BODIES, crate, name), os.path.join(HERE, "crates", crate))
            made, bad = made + 1, bad + (not texts)
            if not texts:
                print(f"{crate}/{name}: {BAD_EDIT}: {why}")
    return made, bad


def main():
    words = [word for word in sys.argv[1:] if word != "--check"]
    edits = asked(words)
    if edits is None:
        return 1
    if len(words) < len(sys.argv) - 1:
        made, bad = applied(edits)
        print(f"wrong bodies: {made - bad} of {made} edits can be applied")
        return 1 if bad else 0
    if not shutil.which("rt"):
        print("skipped: the wrong bodies, which need the Rattle toolchain's command rt")
        return 0
    results = [result for crate, names in edits.items() for result in try_crate(crate, names)]
    print(", ".join(f"{results.count(kind)} {kind}" for kind in [REFUSED, NOT_REFUSED, BAD_EDIT, NOT_TRIED] if kind in results))
    return 0 if results.count(REFUSED) == len(results) else 1


if __name__ == "__main__":
    sys.exit(main())
