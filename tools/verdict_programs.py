"""Random programs of records within this project's C, for the script `check_verdicts.py`: each violates a few of the ten tests, some of them often."""

import random

from verdict_reading import TESTS
from verdict_types import CHAR, INT, SHORT, VOID, array, function, is_pointer, pointer, record, spelled

LIBRARY = """void *malloc(unsigned);
void *calloc(unsigned, unsigned);
void free(void *);
void *memcpy(void *, const void *, unsigned);
void *memmove(void *, const void *, unsigned);
void *memset(void *, int, unsigned);
int memcmp(const void *, const void *, unsigned);
int putchar(int);
enum { ZERO, FOUR = 4 };"""
TO_VOID, TO_CHAR, TO_INT = pointer(VOID), pointer(CHAR), pointer(INT)
NUMBERS = [INT, CHAR, SHORT]
NULLS = ["0", "ZERO", "(FOUR - 4)", "(void *)0"]


def to(tag):
    return pointer(record(tag))


def hook(tag):
    """The type of a pointer to a function that takes `T *`."""
    return pointer(function(INT, [to(tag)]))


def has_element(t, wanted):
    while t != wanted and t[0] == "array":
        t = t[1]
    return t == wanted


def bare(text):
    """A text without parentheses around it, where they may be left out of an argument."""
    depth = 0
    for at, byte in enumerate(text):
        depth += (byte == "(") - (byte == ")")
        if depth == 0 and at < len(text) - 1 or depth == 1 and byte == ",":
            return text
    return text[1:-1]


class Maker:
    """Writes one program. Expressions that have operators stand in parentheses of their own."""

    def __init__(self, seed):
        self.chance = random.Random(seed)
        self.favoured = self.chance.sample(TESTS, self.chance.choice([0, 1, 1, 2, 3]))
        self.rate = self.chance.choice([0.02, 0.05, 0.1, 0.2])
        self.tags = [f"R{k}" for k in range(self.chance.randint(1, 4))]
        self.fields, self.functions, self.scopes, self.count = [], [], [[]], 0
        self.lines = []

    def sins(self, test):
        return test in self.favoured and self.chance.random() < self.rate

    def any(self, *makers):
        return self.chance.choice(makers)()

    def tag(self):
        return self.chance.choice(self.tags)

    def new(self, letter):
        self.count += 1
        return f"{letter}{self.count}"

    def pick(self, t):
        """A name of an object of a type, or None."""
        names = [name for scope in self.scopes for name, one in scope if one == t]
        return self.chance.choice(names) if names else None

    def maybe_bare(self, text):
        return bare(text) if text[0] == "(" and self.chance.random() < 0.5 else text

    # -- paths

    def subscripts(self, t, wanted):
        text = ""
        while t != wanted:
            text += f"[{self.any(lambda: str(self.chance.randrange(t[2])), lambda: self.pick(INT))}]"
            t = t[1]
        return text

    def path(self, t, depth):
        fields = [field for field in self.fields if has_element(field[2], t)]
        name = self.pick(t)
        if not fields or name and (depth <= 0 or self.chance.random() < 0.35):
            return name
        tag, field, whole = self.chance.choice(fields)
        return self.inside(tag, depth - 1) + field + self.subscripts(whole, t)

    def inside(self, tag, depth):
        """What stands before a field of a record."""
        return f"{self.whole(tag, depth)}." if self.chance.random() < 0.25 else f"{self.to_record(tag, depth)}->"

    def whole(self, tag, depth):
        """A record itself."""
        holders = [field for field in self.fields if has_element(field[2], record(tag))]
        if holders and depth > 0 and self.chance.random() < 0.6:
            owner, field, t = self.chance.choice(holders)
            return self.inside(owner, depth - 1) + field + self.subscripts(t, record(tag))
        base = self.to_record(tag, depth - 1)
        return self.chance.choice([f"(*{base})", f"{base}[{self.chance.randrange(3)}]", self.pick(record(tag)) or f"{base}[0]"])

    # -- values

    def value(self, t, depth):
        if t[0] == "number":
            return self.integer(depth)
        makers = {TO_VOID: self.to_void, TO_CHAR: self.to_char, TO_INT: self.to_int}
        if t in makers:
            return makers[t](depth)
        if t[1][0] == "record":
            return self.to_record(t[1][1], depth)
        return self.hook(t[1][2][0][1][1]) if t[1][0] == "function" else self.to_pointer(t[1][1][1], depth)

    def assigned(self, t, depth):
        """What may be assigned to an object of a type."""
        if is_pointer(t) and t[1][0] == "record" and self.chance.random() < 0.4:
            tag = t[1][1]
            if self.favoured and self.chance.random() < self.rate / 2:
                return self.other_allocation(tag)
            if self.sins("CSTT"):
                return self.any(lambda: self.to_void(depth), lambda: self.other_allocation(tag), lambda: self.call(TO_VOID, depth))
            return self.any(lambda: self.chance.choice(["0", "ZERO", "(void *)0"]), lambda: self.allocation(tag, depth), lambda: self.allocation(tag, depth))
        if t == TO_VOID and self.sins("CSTF"):
            return self.maybe_bare(self.to_record(self.tag(), depth))
        if t == TO_VOID and self.chance.random() < 0.5:
            return self.maybe_bare(self.any(lambda: self.to_char(depth), lambda: self.to_int(depth), lambda: self.to_pointer(self.tag(), depth)))
        return self.maybe_bare(self.value(t, depth))

    def to_record(self, tag, depth):
        t = to(tag)
        if self.sins("CSTT"):
            other = self.any(lambda: self.to_void(0), lambda: self.to_char(0), lambda: self.to_int(0), lambda: self.to_pointer(tag, 0),
                             lambda: self.path(to(self.tag()), 1))
            return f"(({spelled(t)}){other})"
        if depth <= 0 or self.chance.random() < 0.4:
            return self.path(t, depth) if self.chance.random() < 0.9 else f"(({spelled(t)}){self.chance.choice(NULLS)})"
        below = depth - 1
        one = self.to_record(tag, below)
        return self.any(
            lambda: f"({one} + {self.chance.randrange(4)})", lambda: f"(&{one}[{self.chance.randrange(4)}])", lambda: f"(&*{one})",
            lambda: f"({self.integer(below)} ? {one} : {self.to_record(tag, below)})", lambda: f"({self.integer(below)} ? {one} : 0)",
            lambda: f"({self.integer(below)}, {one})", lambda: f"({self.path(t, below)} = {self.assigned(t, below)})",
            lambda: f"({self.path(t, below)}++)", lambda: f"(--{self.path(t, below)})", lambda: f"(*{self.to_pointer(tag, below)})",
            lambda: f"(({spelled(t)}){self.allocation(tag, below)})", lambda: self.call(t, below), lambda: f"(({spelled(t)}){self.no_null(tag, below)})",
            lambda: f"(&{self.pick(record(tag))})" if self.pick(record(tag)) else one)

    def no_null(self, tag, depth):
        """A value of type `T *` that is no null by its form, and may be cast."""
        one = self.to_record(tag, depth)
        return self.pick(to(tag)) if any(one == f"(({spelled(to(tag))}){null})" for null in NULLS) else one

    def allocation(self, tag, depth):
        """A recognised allocation."""
        size = self.chance.choice([f"sizeof({spelled(record(tag))})", f"sizeof *{self.pick(to(tag))}", f"sizeof({self.pick(to(tag))}[1])"])
        times = self.any(lambda: "3", lambda: "sizeof(int)", lambda: self.integer(depth))
        return self.chance.choice([f"malloc({size})", f"malloc({times} * {size})", f"malloc({size} * {times})", f"calloc({self.maybe_bare(times)}, {size})"])

    def other_allocation(self, tag):
        size, other = f"sizeof({spelled(record(tag))})", f"sizeof({spelled(record(self.tag()))})"
        return self.chance.choice([f"malloc({size} + 4)", "malloc(8)", f"calloc({size}, 2)", f"malloc({other})", f"malloc(2 * {size} * 3)",
                                   f"malloc(sizeof({spelled(array(record(tag), 2))}))", f"malloc({size} * {size})", f"malloc((unsigned){size})"])

    def to_void(self, depth):
        if self.sins("CSTF"):
            one, test, other = self.no_null(self.tag(), depth - 1), self.pick(INT), self.pick(TO_VOID)
            return self.chance.choice([f"((void *){one})", f"({test} ? {one} : {other})", f"({test} ? {other} : {one})",
                                       f"({other} = {bare(one) if one[0] == '(' else one})"])
        if self.sins("SIZE"):
            return f"malloc({self.size_of(depth)})" if depth > 0 else f"malloc({self.pick(INT)} * {self.size_of(0)})"
        if depth <= 0 or self.chance.random() < 0.5:
            return self.pick(TO_VOID)
        below = depth - 1
        return self.any(lambda: f"((void *){self.to_char(below)})", lambda: f"malloc({self.integer(below)})", lambda: self.call(TO_VOID, below),
                        lambda: f"({self.integer(below)} ? {self.to_char(0)} : {self.to_void(below)})", lambda: f"({self.integer(0)}, {self.to_void(0)})",
                        lambda: f"memset({self.pick(TO_VOID)}, {self.integer(0)}, 1)", lambda: "((void *)0)",
                        lambda: f"((void *){self.to_pointer(self.tag(), 0)})")

    def to_char(self, depth):
        if self.sins("CSTF"):
            return f"((char *){self.no_null(self.tag(), depth)})"
        return self.any(lambda: self.path(TO_CHAR, depth), lambda: '"ab"', lambda: "bytes", lambda: f"((char *){self.pick(TO_VOID)})",
                        lambda: f"({self.path(TO_CHAR, 0)} + {self.integer(depth - 1)})", lambda: "(&bytes[2])", lambda: "(&2[bytes])")

    def to_int(self, depth):
        fields = [field for field in self.fields if has_element(field[2], INT)]
        if fields and self.sins("ATKN"):
            tag, field, t = self.chance.choice(fields)
            base = self.inside(tag, depth) + field
            return f"(&{base}{self.subscripts(t, INT)})" if t == INT or t[1] != INT or self.chance.random() < 0.4 else base
        return self.any(lambda: self.path(TO_INT, depth), lambda: f"(&{self.pick(INT)})", lambda: f"((int *){self.pick(TO_VOID)})")

    def to_pointer(self, tag, depth):
        """A value of type `T **`."""
        t = pointer(to(tag))
        return self.any(lambda: self.path(t, depth), lambda: f"(&{self.pick(to(tag))})", lambda: f"(({spelled(t)}){self.pick(TO_VOID)})")

    def taker(self, tag):
        """The name of a function that takes `T *`."""
        return self.chance.choice([name for name, t in self.functions if pointer(t) == hook(tag)])

    def hook(self, tag):
        if self.sins("IND"):
            return self.chance.choice(["{}", "(&{})"]).format(self.taker(tag))
        return self.any(lambda: self.path(hook(tag), 1), lambda: "0")

    def call(self, result, depth):
        functions = [one for one in self.functions if one[1][1] == result]
        if not functions:
            return self.path(result, depth)
        name, t = self.chance.choice(functions)
        return f"{name}({', '.join(self.assigned(p, depth - 1) for p in t[2])})"

    def called_through(self, depth):
        tag = self.tag()
        return f"{self.chance.choice(['{}', '(*{})']).format(self.path(hook(tag), depth))}({self.assigned(to(tag), depth)})"

    def integer(self, depth):
        if self.chance.random() < self.rate and self.favoured:
            text = self.sin_in_number(self.chance.choice(self.favoured), depth - 1)
            if text:
                return text if self.chance.random() < 0.85 else f"sizeof({text})"
        if depth <= 0 or self.chance.random() < 0.3:
            return self.any(lambda: str(self.chance.randrange(9)), lambda: self.path(INT, depth), lambda: self.path(self.chance.choice(NUMBERS), depth))
        tag, below = self.tag(), depth - 1
        return self.any(
            lambda: f"({self.integer(below)} {self.chance.choice('+ - * / & | ^ < > << == != && ||'.split())} {self.integer(below)})",
            lambda: f"({self.chance.choice('-~!')}{self.integer(below)})", lambda: f"({self.integer(0)} ? {self.integer(below)} : {self.integer(below)})",
            lambda: f"({self.path(INT, below)} {self.chance.choice(['=', '+=', '|='])} {self.integer(below)})", lambda: f"({self.path(INT, below)}++)",
            lambda: f"({self.to_record(tag, below)} {self.chance.choice(['==', '!=', '<'])} {self.to_record(tag, below)})", lambda: self.call(INT, below),
            lambda: f"({self.to_record(tag, below)} != {self.chance.choice(['0', '(void *)0'])})", lambda: f"(!{self.to_record(tag, below)})",
            lambda: f"({self.integer(below)}, {self.integer(below)})", lambda: f"((char){self.integer(below)})", lambda: self.called_through(below),
            lambda: f"sizeof({spelled(to(tag))})", lambda: f"sizeof(sizeof({spelled(record(tag))}))", lambda: f"(*{self.to_int(below)})",
            lambda: f"({self.hook(tag)} == {self.hook(tag)})", lambda: f"({self.to_void(below)} == {self.to_char(below)})",
            lambda: f"memcmp({self.to_void(0)}, {self.to_char(0)}, {self.integer(0)})", lambda: f"({self.to_record(tag, below)} - {self.to_record(tag, 0)})")

    # -- violations

    def size_of(self, depth):
        tag = self.tag()
        one = self.to_record(tag, depth)
        return self.chance.choice([f"sizeof({spelled(record(tag))})", f"sizeof *{one}", f"sizeof({one}[1])", f"sizeof({spelled(array(record(tag), 2))})"])

    def address(self, depth):
        tag, field, t = self.chance.choice(self.fields)
        base = self.inside(tag, depth) + field
        if t[0] != "array":
            return f"(&{base} != 0)"
        part = self.subscripts(t, t[1])
        return self.chance.choice([f"({base} != 0)", f"(&{base} == 0)", f"(&{base}{part} != 0)", f"(!{base})", f"(*({base} + 1), 0)", f"({base} == {base})",
                                   f"(0[{base}], 0)"])

    def sin_in_number(self, test, depth):
        """A number whose expression violates a test; or None."""
        tag = self.tag()
        one, void, letters, arrays = self.to_record(tag, depth), self.to_void(0), self.to_char(0), spelled(pointer(array(record(tag), 2)))
        named, other = self.taker(tag), self.chance.choice(self.functions)[0]
        texts = {
            "CSTT": [f"(({spelled(to(tag))}){void} == {one})", f"(({spelled(to(tag))}){letters} != 0)"],
            "CSTF": [f"({void} == {one})", f"({one} != {void})", f"((char *){one} == {letters})", f"(!(void *){one})", f"({one} == (void *)(char *)0)"],
            "ATKN": [self.address(depth)],
            "LIBC": [f"memcmp({self.maybe_bare(one)}, {letters}, 4)", f"memcmp({void}, {self.maybe_bare(one)}, 4)"],
            "IND": [f"(!{named})", f"({named} == {self.path(hook(tag), 0)})", f"(&{other} != 0)", f"(!{other})", f"(*{named})({one})", f"(&{named})({one})",
                    f"({named} ? {named}({one}) : 0)"],
            "MSET": [f"(memset({one}, 0, 4) == 0)", f"(memcpy({letters}, {one}, 4) == {void})", f"(!memmove({one}, {letters}, 1))"],
            "SIZE": [self.size_of(depth), self.size_of(depth), f"sizeof(int [{self.size_of(0)}])"],
            "OBJT": [f"sizeof({arrays})", f"(({arrays}){void} == 0)", f"sizeof({spelled(pointer(function(VOID, [pointer(array(record(tag), 3))])))})"],
        }
        return self.chance.choice(texts[test]) if test in texts else None

    # -- statements, each on lines of its own

    def say(self, text):
        self.lines.append(text)

    def scalar(self):
        tag = self.tag()
        return self.chance.choice([INT, CHAR, SHORT, TO_VOID, TO_CHAR, TO_INT, to(tag), to(tag), to(tag), pointer(to(tag)), hook(tag)])

    def statement(self, depth):
        tag, test, path = self.tag(), self.integer, self.path
        if self.sins("COPY"):
            return self.say(f"{self.whole(tag, 2)} = {self.whole(tag, 2)};")
        if self.sins("MSET"):
            one = self.maybe_bare(self.to_record(tag, 2))
            return self.say(self.chance.choice([f"memset({one}, 0, 4);", f"memcpy({one}, {self.to_char(0)}, 4);", f"memmove({self.to_void(0)}, {one}, 4);"]))
        if depth > 0 and self.chance.random() < 0.35:
            return self.nested(depth - 1)
        t = self.scalar()
        self.say(self.any(
            lambda: f"{path(t, 2)} = {self.assigned(t, 3)};", lambda: f"{path(t, 2)} = {self.assigned(t, 2)};", lambda: f"{self.maybe_bare(test(3))};",
            lambda: f"free({self.assigned(TO_VOID, 1)});", lambda: f"free({self.maybe_bare(self.to_record(tag, 2))});", lambda: f"{self.call(INT, 3)};",
            lambda: f"memset(bytes, {test(1)}, {test(1)});", lambda: f"if ({test(2)}) {path(INT, 2)} += {test(1)};", lambda: f"(void){self.value(t, 2)};"))

    def nested(self, depth):
        """A statement with a block in it."""
        head = self.chance.choice(["if ({})", "while ({})", "for ({0}; {0}; {0})", "do", "switch ({})", ""]).replace("{0}", "{}")
        self.say(head.format(*[self.maybe_bare(self.integer(2)) for _ in range(head.count("{}"))]) + " {")
        if head.startswith("switch"):
            self.say(f"case {self.size_of(0) if self.sins('SIZE') else 'sizeof(int)'} + 100: ;")
        self.block(depth)
        self.say(f"}} while ({self.integer(2)});" if head == "do" else "}")

    def block(self, depth):
        self.scopes.append([])
        for _ in range(self.chance.randint(0, 2)):
            self.local()
        for _ in range(self.chance.randint(1, 3)):
            self.statement(depth)
        self.scopes.pop()

    def local(self):
        if self.sins("OBJT"):
            return self.object("")
        if self.sins("SIZE"):
            return self.say(f"int {self.new('l')}[{self.size_of(0)}];")
        if self.chance.random() < 0.25:
            return self.global_object("static ")
        t, name = self.scalar(), self.new("l")
        if self.chance.random() < 0.2:
            self.say(f"{spelled(array(t, 2), name)} = {{{self.assigned(t, 2)}, {self.assigned(t, 1)}}};")
            t = array(t, 2)
        elif is_pointer(t) and t[1][0] == "record" and self.chance.random() < 0.3:
            again = self.new("l")
            self.say(f"{spelled(t, name)} = {self.assigned(t, 2)}, *{again} = {self.assigned(t, 2)};")
            self.scopes[-1].append((again, t))
        else:
            self.say(f"{spelled(t, name)} = {self.assigned(t, 3)};")
        self.scopes[-1].append((name, t))

    # -- file scope

    def object(self, storage):
        """An object of a record, or one whose type has an array of records."""
        tag, name = self.tag(), self.new("o")
        t = self.chance.choice([record(tag), record(tag), array(record(tag), 2), pointer(array(record(tag), 2)),
                                pointer(function(VOID, [INT, pointer(array(record(tag), 2))]))])
        self.say(f"{storage}{spelled(t, name)};")
        self.scopes[-1].append((name, t))

    def constant(self, t):
        """What an object may hold at first that is there from the start."""
        if t[0] == "number":
            return self.size_of(0) if self.sins("SIZE") and t == INT else self.chance.choice(["1", "sizeof(int) - 2", "(char)3"])
        if t[1][0] == "record":
            size = f"sizeof({spelled(record(t[1][1]))})"
            null = f"(0 * {size})" if self.sins("SIZE") else self.chance.choice(["0", "(1 - 1)", "'\\0'", "(sizeof(int) - 4)"])
            return f"({spelled(t)}){self.chance.choice(['bytes', '(bytes + 4)', '&bytes[8]'])}" if self.sins("CSTT") else f"({spelled(t)}){null}"
        if t[1][0] == "function":
            return self.chance.choice(["{}", "&{}"]).format(self.taker(t[1][2][0][1][1])) if self.sins("IND") else "0"
        fields = [field for field in self.fields if field[2] in (INT, array(INT, 2))]
        if t == TO_INT and fields and self.sins("ATKN"):
            tag, field, whole = self.chance.choice(fields)
            return f"{'&' if whole == INT else ''}(({spelled(to(tag))})bytes)->{field}"
        tag = self.tag()
        if t == TO_VOID and self.sins("CSTF"):
            return self.chance.choice([f"({spelled(to(tag))})bytes", f"(void *)&{self.pick(record(tag)) or 'n1'}", f"&{self.pick(record(tag)) or 'n1'}"])
        return {TO_VOID: "bytes", TO_CHAR: "bytes", TO_INT: "&n1"}.get(t, "0")

    def measured_structure(self):
        """The size of an expression that defines a structure, with a field that violates a test where that is one of those favoured."""
        tag = self.tag()
        two = pointer(array(record(tag), 2))
        types = {"OBJT": [two, pointer(function(VOID, [two])), array(two, 3)], "NEST": [record(tag), array(record(tag), 2)]}
        t = self.chance.choice([t for test in types for t in types[test] if test in self.favoured] or [to(tag)])
        size = f"sizeof((struct {self.new('U')} {{ int x; {spelled(t, 'f')}; }} *)0)"
        return self.chance.choice([size, f"sizeof({size})", f"sizeof(1 + {size})"])

    def global_object(self, storage):
        t, name = self.scalar(), self.new("s")
        self.say(f"{storage}{spelled(t, name)} = {self.constant(t)};")
        if self.chance.random() < 0.3:
            self.say(f"{storage}{spelled(array(t, 2), self.new('a'))} = {{{self.constant(t)}, {self.constant(t)}}};")
        self.scopes[-1].append((name, t))

    def structure(self, number_of_it):
        owner, before = self.tags[number_of_it], self.tags[:number_of_it]
        self.say(f"struct {owner} {{")
        for k in range(self.chance.randint(1, 5)):
            tag = self.tag()
            t = self.chance.choice([INT, INT, CHAR, SHORT, TO_INT, TO_CHAR, to(tag), to(tag), array(INT, 2), array(array(INT, 3), 2), array(CHAR, 4),
                                    array(to(tag), 2), hook(tag), pointer(to(tag))])
            if before and self.sins("NEST"):
                t = self.chance.choice([record(before[-1]), array(record(before[0]), 2)])
            elif before and self.sins("OBJT"):
                t = pointer(array(record(before[0]), 2))
            text = spelled(t, f"f{k}")
            if t == array(INT, 2) and before and self.sins("SIZE"):
                text = text.replace("[2]", f"[sizeof({spelled(record(before[0]))})]")
                t = None
            self.say(f"{text};")
            if t is not None:
                self.fields.append((owner, f"f{k}", t))
        self.say("};")

    def prototypes(self):
        for tag in self.tags:
            self.functions.append((self.new("f"), function(INT, [to(tag)])))
        for _ in range(self.chance.randint(1, 3)):
            parameters = [self.scalar() for _ in range(self.chance.randint(0, 3))]
            result = self.chance.choice([INT, TO_VOID, to(self.tag())])
            if self.sins("OBJT"):
                parameters.append(pointer(array(record(self.tag()), 2)))
            self.functions.append((self.new("f"), function(result, parameters)))
        for name, t in self.functions:
            self.say(f"{spelled(t, name)};")
        # A function with such a parameter is never called: no value of the type is made.
        self.defined, self.functions = self.functions, [one for one in self.functions if not any(p[1][0] == "array" for p in one[1][2])]

    def objects(self):
        """The objects of the file, and of each a declaration for another file."""
        known = [("n1", INT), ("n2", INT), ("k1", CHAR), ("h1", SHORT), ("v1", TO_VOID), ("c1", TO_CHAR), ("i1", TO_INT), ("bytes", array(CHAR, 40))]
        for tag in self.tags:
            known += [(f"p{tag}", to(tag)), (f"q{tag}", to(tag)), (f"w{tag}", pointer(to(tag))), (f"g{tag}", hook(tag))]
        self.scopes[-1] += known
        return known

    def body(self, name, t):
        parameters = [(self.new("a"), p) for p in t[2]]
        words = [spelled(array(p[1], 3), a) if is_pointer(p) and p[1][0] == "record" and self.chance.random() < 0.3 else spelled(p, a) for a, p in parameters]
        head = spelled(t[1], f"{name}({', '.join(words) or 'void'})")
        self.say(f"{head} {{")
        self.scopes.append([*parameters])
        for _ in range(self.chance.randint(1, 3)):
            self.block(2)
        self.say(f"return {self.assigned(t[1], 2)};")
        self.say("}")
        self.scopes.pop()


def taken(maker):
    """The lines that were written since, with another name for some records in some places."""
    lines, maker.lines = maker.lines, []
    other = maker.chance.random() < 0.5
    return [line.replace("struct R0 ", "T0 ") if other and maker.chance.random() < 0.3 else line for line in lines]


def program(seed):
    """The files of a program, by name: one, or two of which the second has some of the functions."""
    maker = Maker(seed)
    for tag in maker.tags:
        maker.say(f"struct {tag};")
    for k in range(len(maker.tags)):
        maker.structure(k)
    head = [LIBRARY, *maker.lines, "typedef struct R0 T0;"]
    maker.lines = []
    maker.prototypes()
    head += taken(maker)
    known = maker.objects()
    objects = [f"{spelled(t, name)};" for name, t in known]
    if maker.chance.random() < 0.3 and len(maker.defined) > 1:
        parts = [maker.defined[::2], maker.defined[1::2]]
    else:
        parts = [maker.defined]
        if maker.sins("OBJT"):
            maker.object("")
        if maker.sins("SIZE"):
            maker.say(f"enum {{ E1 = {maker.size_of(0)} }};")
        if maker.sins("OBJT"):
            maker.say(f"typedef struct {maker.tag()} A1[2];")
        if maker.chance.random() < 0.3:
            maker.say(f"int z1 = {maker.measured_structure()};")
        for _ in range(maker.chance.randint(0, 4)):
            maker.global_object(maker.chance.choice(["static ", ""]))
    objects += taken(maker)
    files = {}
    for k, part in enumerate(parts):
        for name, t in part:
            maker.body(name, t)
        if k == 0:
            maker.body("main", function(INT, []))
        files[f"{'ab'[k]}.c"] = "\n".join([*head, *(objects if k == 0 else [f"extern {one}" for one in objects]), *taken(maker)]) + "\n"
    return files
