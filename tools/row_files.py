"""Writing what a program of rows is run on, and what it has to print, into the folder of its crate."""

import os
import sys

import checking
from checking import HERE, check


def text_in(path):
    if not os.path.exists(path):
        return None
    with open(path) as f:
        return f.read()


def main(crate, blocks, answers):
    """Writes the files of a crate from the blocks of its rows and the lines of their answers. With `--check` it writes nothing, and the answer is 1 where
    a file is another."""
    folder = os.path.join(HERE, "crates", crate)
    made = {os.path.join(folder, "stdin"): "\n".join(blocks), os.path.join(folder, "stdout"): "".join(answers)}
    if "--check" not in sys.argv:
        for path, text in made.items():
            with open(path, "w") as f:
                f.write(text)
        return 0
    for path, text in made.items():
        check(text_in(path) == text, f"{os.path.relpath(path, HERE)} is not what tools/{os.path.basename(sys.argv[0])} makes of the rows")
    print(f"rows of {crate}: {checking.made - checking.failed} of {checking.made} files are as the rows have them")
    return 1 if checking.failed else 0
