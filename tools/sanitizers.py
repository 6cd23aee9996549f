"""The sanitizers of GCC and Clang: builds of a small program, and the line of the first undefined step that each reports."""

import os
import re
import tempfile
from concurrent.futures import ThreadPoolExecutor

import checking

COMMON = ["-std=c99", "-funsigned-char", "-g", "-O0", "-w", "-fno-omit-frame-pointer"]
OPTIONS = {
    "ASAN_OPTIONS": "detect_stack_use_after_return=1:detect_invalid_pointer_pairs=2:detect_leaks=0",
    "UBSAN_OPTIONS": "print_stacktrace=0",
}
SECONDS = 60
LIBRARY = re.compile(r"(?m)^void \*?(malloc|calloc|memcpy|memmove|memset|free)\(.*\);$|^int memcmp\(.*\);$")


def unchanged(text):
    return text


def with_long_sizes(text):
    """For a target of 64 bits, where the sizes of the library are longer."""
    return LIBRARY.sub(lambda m: m.group(0).replace("unsigned", "unsigned long"), text)


class Sanitizer:
    """A way to build a program that reports what is undefined in it."""

    def __init__(self, name, tools, words, changed=unchanged):
        self.name, self.tools, self.words, self.changed = name, tools, words, changed

    def works(self):
        """Whether it builds a program here."""
        return all(checking.is_there(tool) for tool in self.tools) and self.reports({"t.c": "int main(void) { return 0; }\n"}) == [""]

    def reports(self, files, inputs=(b"",)):
        """What the program of the files, which are names with texts, says on standard error with each input; None where it is not built."""
        with tempfile.TemporaryDirectory() as folder:
            for name, text in files.items():
                with open(os.path.join(folder, name), "w") as f:
                    f.write(self.changed(text))
            built = checking.run([*self.words, "-o", "sanitized", *files], cwd=folder, seconds=SECONDS)
            return [said_by(folder, text) for text in inputs] if built.returncode == 0 else None


def said_by(folder, text):
    done = checking.run(["./sanitized"], cwd=folder, seconds=SECONDS, input=text, env={**os.environ, **OPTIONS})
    return done.stderr.decode(errors="replace")


# GCC's tells pointers into two objects apart, Clang's sees steps from null; that of memory needs a target of 64 bits, and that of calls lld.
# Sums wrap here. Clang's -fwrapv would take steps of pointers for sums.
WRAPS = "-fno-sanitize=signed-integer-overflow,shift-base"
CALLS = ["-flto", "-fvisibility=hidden", "-fuse-ld=lld", "-fsanitize=cfi-icall", "-fno-sanitize-trap=cfi"]
SANITIZERS = [
    Sanitizer("GCC's of addresses and steps", ["gcc"], ["gcc", "-m32", *COMMON, "-fwrapv", "-fsanitize=address,undefined,pointer-compare,pointer-subtract"]),
    Sanitizer("Clang's of addresses and steps", ["clang"], ["clang", "-m32", *COMMON, "-fsanitize=address,undefined", WRAPS]),
    Sanitizer("Clang's of memory", ["clang"], ["clang", *COMMON, "-fsanitize=memory", "-fsanitize-memory-param-retval"], with_long_sizes),
    Sanitizer("Clang's of calls", ["clang", "ld.lld"], ["clang", "-m32", *COMMON, *CALLS]),
]
STEP = re.compile(r"(\w+\.c):(\d+):(?:\d+:)? runtime error: (.*)")
BEGIN = re.compile(r"(?:ERROR|WARNING): (?:Address|Memory)Sanitizer:? (.*)")
FRAME = re.compile(r"#\d+ .*?(\w+\.c):(\d+)")


def first_report(text, name):
    """The line of the file that the first report names, and what it says; None where there is none."""
    begin = None
    for line in text.split("\n"):
        step, frame = STEP.search(line), FRAME.search(line)
        if step and step.group(1) == name:
            return int(step.group(2)), step.group(3)
        if begin and frame and frame.group(1) == name:
            return int(frame.group(2)), begin
        begin = BEGIN.search(line).group(1) if BEGIN.search(line) else begin
    return None


def that_work():
    """The sanitizers that are there; one that is not is named."""
    found = [sanitizer for sanitizer in SANITIZERS if sanitizer.works()]
    for sanitizer in SANITIZERS:
        if sanitizer not in found:
            print(f"skipped: what needs {sanitizer.name}")
    return found


def reports(sanitizers, files, inputs=(b"",)):
    """What each sanitizer says of the program, for each input, or None; all are asked at once."""
    with ThreadPoolExecutor(len(sanitizers) or 1) as pool:
        return list(pool.map(lambda sanitizer: sanitizer.reports(files, inputs), sanitizers))


def first_reports(sanitizers, name, text):
    """The first report on the program by each sanitizer that has one."""
    said = [each[0] for each in reports(sanitizers, {name: text}) if each]
    return [found for found in [first_report(each, name) for each in said] if found]
