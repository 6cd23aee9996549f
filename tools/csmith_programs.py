#!/usr/bin/env python3
"""Random C programs by csmith, within this project's C: `program`, its parts in several files, and faulty ones.

csmith's own header is replaced by `csmith_runtime.h`, and the text is preprocessed, with its line markers. csmith does not keep to the rules of C99
on pointers to signed and unsigned numbers, so some of its programs are no strict C99; `is_strict` tells by GCC, where `const` has no effect.

What a compiler writes goes to a folder of its own or to standard output, and never to a device: one that runs as root may remove the file that it writes.

As a command, the module tests itself: what it makes prints the checksum of csmith's program under csmith's own headers, compiled as strict C99 where it
is that; the files of a split program do so too; and GCC refuses each faulty program. Where csmith cannot be had, that is said and skipped."""

import os
import random
import re
import subprocess
import sys
import tempfile

import checking
from checking import check

HERE = os.path.dirname(os.path.abspath(__file__))
GCC = ["gcc", "-std=c99", "-m32", "-funsigned-char", "-fwrapv"]
STRICT = [*GCC, "-pedantic-errors", "-x", "cpp-output"]
HEADERS = "/usr/include/csmith"
SECONDS = 10
SHORT = 10000

# What this project's C leaves out.
LEFT_OUT = """--no-longlong --no-math64 --no-float --no-bitfields --no-unions --no-volatiles --no-volatile-pointers --no-packed-struct --no-argc --no-jumps
--no-arg-structs --no-return-structs --no-inline-function --no-builtins --concise""".split()
# What may hold a record as the operand of a comma, or use the value of a record assignment.
RECORD_VALUES = ["--no-comma-operators", "--no-embedded-assigns"]
SMALL = ["--max-funcs", "4", "--max-block-depth", "3", "--max-expr-complexity", "6"]


def have_csmith():
    return checking.have("csmith") and checking.have("gcc")


def have_headers():
    if not os.path.isdir(HEADERS):
        checking.installs("libcsmith-dev")
    if not os.path.isdir(HEADERS):
        print("skipped: what needs csmith's own headers (package libcsmith-dev)")
        return False
    return True


# ---- programs


def original(seed, flags=()):
    """csmith's program for a seed, as csmith writes it; None where csmith does not end."""
    with tempfile.TemporaryDirectory() as folder:
        # csmith leaves a file in the folder that it runs in
        done = checking.run(["csmith", *LEFT_OUT, *flags, "--seed", str(seed)], cwd=folder, seconds=60)
    return done.stdout.decode() if done.returncode == 0 else None


def preprocessed(text, name):
    """The program on our header, with the line markers of the preprocessor, and without the functions of the header that it does not use."""
    text = re.sub(r"^// Options:.*\n", "", text).replace('#include "csmith.h"', '#include "csmith_runtime.h"')
    with tempfile.TemporaryDirectory() as folder:
        with open(os.path.join(folder, name), "w") as f:
            f.write(text)
        words = ["gcc", "-E", "-std=c99", "-undef", "-nostdinc", "-I", HERE, name]
        return without_unused(subprocess.run(words, cwd=folder, capture_output=True, text=True, check=True).stdout.replace(HERE + "/", ""))


SAFE_FUNCTION = re.compile(r"static \w+ (safe_\w+)\([^()]*\) \{[^{}]*\} ?")


def without_unused(text):
    used = set(re.findall(r"\bsafe_\w+", SAFE_FUNCTION.sub("", text)))
    return SAFE_FUNCTION.sub(lambda m: m.group(0) if m.group(1) in used else "", text)


def program(seed, records_as_values=False, small=False, name="t.c"):
    """The text of a random program; None where csmith makes none."""
    text = original(seed, flags_of(records_as_values, small))
    return preprocessed(text, name) if text else None


def flags_of(records_as_values, small):
    return ([] if records_as_values else RECORD_VALUES) + (SMALL if small else [])


def without_const(text):
    """The text for GCC where `const` has no effect."""
    return re.sub(r"\bconst\b", "", text)


def is_strict(text):
    """Whether GCC takes the preprocessed text as strict C99, but for `const`."""
    # what is declared and never completed GCC finds only on its way to assembly
    goal = ["-S", "-o", "-"] if len(text) < SHORT else ["-fsyntax-only"]
    return checking.run([*STRICT, *goal, "-"], input=without_const(text).encode(), seconds=60).returncode == 0


def strict_programs(count, first_seed=1, records_as_values=False, small=False):
    """So many programs that are strict C99, each with its seed."""
    seed = first_seed
    while count > 0:
        text = program(seed, records_as_values, small)
        if text is not None and is_strict(text):
            count -= 1
            yield seed, text
        seed += 1


# ---- parts of a program, in its text


class Item:
    """A declaration or definition at file scope: its text, and its name where it is an object or a function."""

    def __init__(self, text):
        self.text = text.strip()
        head = re.split(r"[={]", self.text, 1)[0]
        self.is_type = re.match(r"(typedef|struct\s+\w+\s*\{|struct\s+\w+\s*;)", self.text) is not None
        self.is_function = not self.is_type and "(" in head
        self.is_definition = self.text.endswith("}") if self.is_function else not self.is_type
        names = re.findall(r"\w+(?=\s*\()", head) if self.is_function else re.findall(r"\w+(?=\s*(?:\[[^\]]*\]\s*)*[;]?\s*$)", head)
        self.name = names[0] if names and not self.is_type else None
        self.names = set(re.findall(r"[A-Za-z_]\w*", re.sub(r'"(?:[^"\\]|\\.)*"', "", self.text)))

    def is_of_runtime(self):
        return self.name is not None and re.match(r"(safe_|crc32_|transparent_crc|print_text|platform_main|putchar)", self.name) is not None

    def declaration(self):
        """What other files say of it."""
        plain = re.sub(r"^static\s+", "", self.text)
        head = re.split(r"\s*\{", plain, 1)[0] if self.is_function else re.split(r"\s*=", plain, 1)[0]
        return ("" if self.is_function else "extern ") + head.rstrip("; ") + ";"


def items_of(text):
    """The items of a file without line markers, by its braces and semicolons; csmith's strings hold neither."""
    items, depth, begin = [], 0, 0
    body = re.sub(r"(?m)^#.*\n", "", text)
    for at, c in enumerate(body):
        depth += (c == "{") - (c == "}")
        ends = depth == 0 and (c == ";" or c == "}" and is_body_end(body, begin, at))
        if ends:
            items.append(Item(body[begin : at + 1]))
            begin = at + 1
    return items


def is_body_end(body, begin, at):
    head = body[begin:at].split("{", 1)[0]
    return "(" in head and "=" not in head


def split(text, number, seed):
    """The program in several files: each has the types and declares what it uses of the others; what one file alone uses may stay `static`."""
    chance = random.Random(seed)
    items = items_of(text)
    types = [i for i in items if i.is_type]
    runtime = [i for i in items if not i.is_type and i.is_of_runtime()]
    own = [i for i in items if not i.is_type and not i.is_of_runtime() and i.is_definition]
    place = {i.name: 0 if i.name == "main" else chance.randrange(number) for i in own}
    keeps = {name for name in place if name != "main" and chance.random() < 0.7}
    files = []
    for k in range(number):
        here = [i for i in own if place[i.name] == k]
        files.append(file_of(k, types, runtime, own, here, place, keeps))
    return {f"part{k}.c": file for k, file in enumerate(files)}


def file_of(k, types, runtime, own, here, place, keeps):
    needed = set().union(*(i.names for i in here)) if here else set()
    lines = [i.text for i in types] + [i.text for i in runtime_used(runtime, needed)]
    for i in own:
        if i.name in needed or place[i.name] == k:
            static = place[i.name] == k and i.name in keeps and is_used_here_alone(i, own, place)
            if i.is_function and i.name != "main":
                lines.append(("static " if static else "") + i.declaration())
            elif not i.is_function and place[i.name] != k:
                lines.append(i.declaration())
            elif not i.is_function:
                lines.append(i.text if static else re.sub(r"^static\s+", "", i.text))
    for i in here:
        if i.is_function:
            static = i.name in keeps and is_used_here_alone(i, own, place)
            lines.append(i.text if static else re.sub(r"^static\s+", "", i.text))
    return "\n".join(lines) + "\n"


def is_used_here_alone(item, own, place):
    return all(place[i.name] == place[item.name] for i in own if item.name in i.names)


def runtime_used(runtime, needed):
    """The functions of the header that a file needs, and what these need."""
    wanted = set(needed)
    for _ in range(4):
        for i in runtime:
            if i.name in wanted:
                wanted |= i.names
    return [i for i in runtime if i.name in wanted]


# ---- faults: each takes the text and a chance, and gives the faulty text, or None where the text has no place for it


def body_begin(text):
    """Where the body of the first function of csmith's program begins."""
    m = re.search(r"(?m)^static .*\bfunc_1\([^;{]*\)\s*\{", text)
    return m.end() if m else len(text)


def at_one(pattern, change):
    """Changes one of the places that a pattern has in the bodies of csmith's functions."""

    def changed(text, chance):
        begin = body_begin(text)
        found = list(re.finditer(pattern, text[begin:]))
        if not found:
            return None
        m = chance.choice(found)
        return text[: begin + m.start()] + change(m.group(0)) + text[begin + m.end() :]

    return changed


def at_number(change):
    return at_one(r"(?<!\[)\b0x[0-9A-F]+\b", change)


def before_return(statement):
    return at_one(r"\breturn\b", lambda word: statement + " return")


def at_end(item):
    return lambda text, chance: text + item + "\n"


CALL = r"(?<=\()(?:safe_\w+|func_\d+)\("

# Each fault with the rules that it may break.
FAULTS = {
    "an argument too many": ("Arguments", at_one(CALL + r"(?=\()", lambda call: call + "1, ")),
    "an argument too few": ("Arguments", before_return("transparent_crc(1, 0);")),
    "a pointer for an argument": ("Arguments", before_return("crc32_byte(crc32_tab);")),
    "an undeclared name": ("undeclared", at_one(r"\b[gl]_\d+\b", lambda name: name + "_unknown")),
    "an undeclared function": ("undeclared", at_one(CALL, lambda call: "unknown_" + call)),
    "a member that is not there": ("Member", at_one(r"\.f\d+", lambda member: ".f_unknown")),
    "a member of a number": ("Member", at_number(lambda number: f"({number}).f0")),
    "a string for a number": ("Arguments Operands Assign Return", at_one(r"(?<=[(,])0x[0-9A-F]+(?=[),])", lambda number: '"text"')),
    "a number that is called": ("Callee", at_number(lambda number: number + "()")),
    "what a number points to": ("Operands", at_number(lambda number: f"(*{number})")),
    "the address of a number": ("Lvalue", at_number(lambda number: f"(&{number})")),
    "a number that is stepped": ("Lvalue", at_number(lambda number: f"(++{number})")),
    "a number that is assigned": ("Lvalue", at_number(lambda number: f"({number} = 1)")),
    "a void operand": ("Operands", at_number(lambda number: f"(1 + (void){number})")),
    "a new tag in a function": ("Scope Operands Cast", at_number(lambda number: f"((struct Unknown *)1 + {number})")),
    "the difference of two kinds of pointers": ("Operands", at_number(lambda number: "((int *)0 - (char *)0)")),
    "a string as the right operand of a shift": ("Operands", at_number(lambda number: '(1 << "text")')),
    "a number that is a choice of two": ("Operands", at_number(lambda number: f'({number} ? 1 : "text")')),
    "sizeof void": ("Incomplete", at_number(lambda number: "sizeof(void)")),
    "sizeof a function": ("Incomplete", at_number(lambda number: "sizeof(func_1)")),
    "a return without a value": ("Return", at_one(r"\breturn [^;]*;", lambda statement: "return;")),
    "a return of an array's address": ("Return", before_return("return &crc32_tab;")),
    "a pointer for a number": ("Assign", before_return("{ int broken = &crc32_context; }")),
    "a number for a pointer": ("Assign", before_return("{ int *broken; broken = 1; }")),
    "a pointer of another type": ("Assign", before_return("{ int *broken = &crc32_context; }")),
    "one case twice": ("Label", before_return("switch (1) { case 3: ; case 1 + 2: ; }")),
    "two defaults": ("Label", before_return("switch (1) { default: ; default: ; }")),
    "a case that is not constant": ("Constant", before_return("switch (1) { case crc32_context: ; }")),
    "a switch on a pointer": ("Condition", before_return("switch (&crc32_context) { default: ; }")),
    "a void condition": ("Condition", before_return("if ((void)0) ;")),
    "an array that is assigned": ("Lvalue", before_return("crc32_tab = 0;")),
    "a function that is assigned": ("Lvalue", before_return("func_1 = 0;")),
    "a local twice": ("again", before_return("{ int twice; char twice; }")),
    "a void local": ("Incomplete", before_return("{ void broken; }")),
    "an array of no length": ("Length", before_return("{ int broken[0]; }")),
    "an initializer too many": ("Init", before_return("{ int broken[2] = { 1, 2, 3 }; }")),
    "a static local that is not constant": ("Init", before_return("{ static int broken = crc32_context; }")),
    "a typedef's name as a type and a word": ("Specifiers", before_return("{ unsigned int32_t broken; }")),
    "a function twice": ("again", at_end("int main(void) { return 0; }")),
    "an object of another type": ("again", at_end("extern char crc32_context;")),
    "a break outside": ("Jump", at_end("static void broken(void) { break; }")),
    "a continue in a switch": ("Jump", at_end("static void broken(void) { switch (1) { case 1: continue; } }")),
    "a structure twice": ("again", at_end("struct Twice { int x; }; struct Twice { int x; };")),
    "a structure inside itself": ("Incomplete", at_end("struct Twice { struct Twice inner; };")),
    "two storage classes": ("Specifiers", at_end("static extern int broken;")),
    "no type": ("Specifiers", at_end("unsigned void *broken;")),
    "an enumerator twice": ("again", at_end("enum { TWICE, TWICE };")),
    "a length that is not constant": ("Constant", at_end("static int broken[crc32_context];")),
    "a static object and then another": ("again", at_end("static int broken; int broken;")),
    "a result that is an array": ("ByValue", at_end("int broken(void)[3];")),
    "a cast of a function to an object pointer": ("Cast", at_number(lambda number: "((char *)func_1 != 0)")),
}


def faulty(text, seed):
    """Faulty programs made of one that is strict C99, each with the name of its fault and the rules it may break; GCC refuses them all."""
    chance = random.Random(seed)
    for name, (rules, change) in FAULTS.items():
        broken = change(text, chance)
        if broken is not None and not is_strict(broken):
            yield name, rules.split(), broken


# ---- faults between the files of a split program


def clashing(files):
    """The files where one of them declares an object with another type, and is strict C99 alone all the same, and the object's name."""
    for name, text in files.items():
        for m in re.finditer(r"(?m)^extern ((?:const )?u?int)(8|16|32)_t (g_\d+)(?=[;\[])", text):
            other = {"8": "16", "16": "32", "32": "8"}[m.group(2)]
            changed = text[: m.start(2)] + other + text[m.end(2) :]
            if is_strict(changed):
                return {**files, name: changed}, m.group(3)
    return None


def without_definition(files):
    """The files without the definition of an object that another file uses, and the object's name."""
    for text in files.values():
        for g in re.findall(r"(?m)^extern .*\b(g_\d+)(?=[;\[])", text):
            for name, other in files.items():
                definition = re.search(rf"(?m)^(?!extern|static)(\w[^=;\n]*\b{g}(?:\[\d+\])*)\s*=[^;]*;$", other)
                if definition:
                    return {**files, name: other[: definition.start()] + "extern " + definition.group(1) + ";" + other[definition.end() :]}, g
    return None


def with_two_mains(files):
    last = list(files)[-1]
    return {**files, last: files[last] + "int main(void) { return 1; }\n"}, "main"


# ---- the module's own test


def output_of(folder, compiler, files):
    """What the program prints, or None where it does not end."""
    built = checking.run([*compiler, "-o", "program", *files], cwd=folder, seconds=120)
    if built.returncode != 0:
        return f"not compiled: {built.stderr.decode(errors='replace')[:300]}"
    done = checking.run(["./program"], cwd=folder, seconds=SECONDS)
    return done.stdout.decode(errors="replace") if done.returncode == 0 else None


def write_files(folder, files):
    for name, text in files.items():
        with open(os.path.join(folder, name), "w") as f:
            f.write(text)


class Tally:
    """How many seeds gave a program that ends, and how many of these are strict C99."""

    def __init__(self):
        self.ended = self.strict = 0


def check_seed(seed, has_headers, tally):
    text = original(seed, flags_of(seed % 2 == 1, seed % 3 == 0))
    if text is None:
        return
    ours = preprocessed(text, "t.c")
    parts = split(ours, 2 + seed % 3, seed)
    strict = is_strict(ours)
    compiler = STRICT if strict else [*GCC, "-x", "cpp-output"]
    with tempfile.TemporaryDirectory() as folder:
        files = {name: without_const(each) if strict else each for name, each in {"t.c": ours, **parts}.items()}
        write_files(folder, {"original.c": text, **files})
        found = output_of(folder, compiler, ["t.c"])
        if found is None:
            return
        tally.ended += 1
        tally.strict += strict
        wanted = output_of(folder, [*GCC, "-I", HEADERS], ["original.c"]) if has_headers else output_of(folder, [*compiler, "-O2"], ["t.c"])
        check(found == wanted and found.startswith("checksum = "), f"seed {seed}: prints {found!r}, wanted {wanted!r}")
        again = output_of(folder, compiler, list(parts))
        check(again == wanted, f"seed {seed} in {len(parts)} files: prints {again!r}, wanted {wanted!r}")


def check_faults(seed, text):
    made = [name for name, _, _ in faulty(text, seed)]
    check(len(made) >= 9 * len(FAULTS) // 10, f"seed {seed}: {len(made)} of {len(FAULTS)} faults can be made; not {sorted(set(FAULTS) - set(made))}")


def check_joined_faults(seed, text):
    """The files of each case compile, and do not link but where only a type differs."""
    parts = split(text, 3, seed)
    for case, links in [(clashing(parts), True), (without_definition(parts), False), (with_two_mains(parts), False)]:
        if case is None:
            continue
        with tempfile.TemporaryDirectory() as folder:
            write_files(folder, case[0])
            compiled = checking.run([*GCC, "-c", *case[0]], cwd=folder, seconds=120).returncode == 0
            linked = checking.run([*GCC, *(name.replace(".c", ".o") for name in case[0])], cwd=folder, seconds=120).returncode == 0
            check(compiled and linked == links, f"seed {seed}: the files with a fault of {case[1]}: compiled {compiled}, linked {linked}")


def main():
    count = int(sys.argv[1]) if len(sys.argv) > 1 else 20
    if not have_csmith():
        return 0
    has_headers = have_headers()
    tally = Tally()
    for seed in range(1, count + 1):
        check_seed(seed, has_headers, tally)
    for seed, text in strict_programs(max(1, count // 10), small=True):
        check_faults(seed, text)
        check_joined_faults(seed, text)
    print(f"{tally.ended} of {count} seeds gave a program that ends, {tally.strict} of them strict C99")
    print(f"csmith: {checking.made - checking.failed} comparisons hold, {checking.failed} do not")
    return 1 if checking.failed else 0


if __name__ == "__main__":
    sys.exit(main())
