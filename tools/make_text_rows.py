#!/usr/bin/env python3
"""Makes what the program `crates/text_rows` is run on, and what it has to print, from `text_rows/*.txt`.

There a line `== KIND` says what is asked of the texts after it, as the README of `text_rows` has the kinds. A row is the lines that stand for its text
(`|TEXT`, `:TEXT`, `hex ..` and `times ..`, as `row_lines` has them), and after `= ` its answer; a line that begins with a space goes on the one before.
A row has the name in the line `[NAME]` before it, or its text where that is one line `:TEXT`. After `== KIND` may stand `text BEFORE@AFTER`, between
whose parts each text of one line stands, and `answer BEFORE@AFTER` for the answers. A line `# ..` is a comment.

With `--check` it writes nothing, and the exit status is 1 where a file is another than the rows have it."""

import os
import re
import sys

import row_files

FOLDER = os.path.join(os.path.dirname(os.path.abspath(__file__)), "text_rows")
PLACE = "@"


class Row:
    """What is asked of a text, with the lines that stand for it, its name and its answer."""

    def __init__(self, kind, name, lines, answer, frames):
        self.kind, self.name, self.lines, self.answer = kind, name, lines, frames["answer"].replace(PLACE, answer)
        is_one_line = len(lines) == 1 and lines[0].startswith(":")
        assert name or is_one_line, f"{kind}: which name have {lines}?"
        if not name:
            self.name = lines[0][1:]
        if frames["text"] != PLACE:
            assert is_one_line, f"{kind} {self.name}: more lines than one in a frame"
            self.lines = [":" + frames["text"].replace(PLACE, lines[0][1:])]


def rows_of(text):
    """The rows of a table."""
    kind, frames, name, lines = None, {}, None, []
    for line in re.sub(r"\n +", " ", text).splitlines():
        word, _, rest = line.partition(" ")
        if word == "==":
            kind, frames = rest, {"text": PLACE, "answer": PLACE}
        elif word in frames and not lines:
            frames[word] = rest
        elif line.startswith("[") and line.endswith("]"):
            name = line[1:-1]
        elif word == "=":
            yield Row(kind, name, lines, rest, frames)
            name, lines = None, []
        elif line.startswith((":", "|", "hex ", "times ")):
            lines.append(line)
        else:
            assert not line or line.startswith("# "), f"what is {line}?"
    assert not lines, f"which answer have {lines}?"


def every_row():
    rows = []
    for file in sorted(os.listdir(FOLDER)):
        with open(os.path.join(FOLDER, file)) as f:
            rows += rows_of(f.read())
    names = [(row.kind, row.name) for row in rows]
    twice = {name for name in names if names.count(name) > 1}
    assert not twice, f"two rows of a kind have one name: {sorted(twice)}"
    return rows


def main():
    rows = every_row()
    blocks = ["\n".join([f"{row.kind} {row.name}", *row.lines]) + "\n" for row in rows]
    return row_files.main("text_rows", blocks, [f"{row.name}: {row.answer}".rstrip() + "\n" for row in rows])


if __name__ == "__main__":
    sys.exit(main())
