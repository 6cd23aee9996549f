"""Types of C as tuples that begin with the kind, for the script `check_verdicts.py` and its second reading."""


def number(word):
    return ("number", word)


def record(tag):
    return ("record", tag)


def pointer(t):
    return ("pointer", t)


def array(t, length):
    return ("array", t, length)


def function(result, parameters):
    return ("function", result, tuple(parameters))


VOID, INT, UNSIGNED, CHAR, SHORT = ("void",), number("int"), number("unsigned"), number("char"), number("short")
BYTES = {"char": 1, "signed char": 1, "unsigned char": 1, "short": 2, "unsigned short": 2}


def number_of(words):
    """The type of an integer by its words (C99 6.7.2)."""
    unsigned = "unsigned " if "unsigned" in words else ""
    if "char" in words:
        return number(("signed " if "signed" in words else unsigned) + "char")
    if "short" in words or "long" in words:
        return number(unsigned + ("short" if "short" in words else "long"))
    return UNSIGNED if unsigned else INT


def decayed(t):
    """What a value of a type is (6.3.2.1)."""
    if t[0] == "array":
        return pointer(t[1])
    return pointer(t) if t[0] == "function" else t


def is_pointer(t):
    return t[0] == "pointer"


def records_at(t):
    """T of `T *`, in a list."""
    return [t[1][1]] if is_pointer(t) and t[1][0] == "record" else []


def parts_of(t):
    """The types of which a type is built, itself first."""
    yield t
    inner = t[1:2] if t[0] in ("pointer", "array") else [t[1], *t[2]] if t[0] == "function" else []
    for part in inner:
        yield from parts_of(part)


def pointers_in(t):
    return [tag for part in parts_of(t) for tag in records_at(part)]


def arrays_in(t):
    return [part[1][1] for part in parts_of(t) if part[0] == "array" and part[1][0] == "record"]


def layout_of_number(t):
    """The size and the alignment of a number, or of a pointer."""
    size = BYTES.get(t[1], 4) if t[0] == "number" else 4
    return size, size


def spelled(t, name=""):
    """A declaration of a name, or the name of a type (6.7.6)."""
    if t[0] == "pointer":
        inner = f"*{name}"
        return spelled(t[1], f"({inner})" if t[1][0] in ("array", "function") else inner)
    if t[0] == "array":
        return spelled(t[1], f"{name}[{t[2]}]")
    if t[0] == "function":
        return spelled(t[1], f"{name}({', '.join(map(spelled, t[2])) or 'void'})")
    word = "void" if t == VOID else f"struct {t[1]}" if t[0] == "record" else t[1]
    return f"{word} {name}" if name else word
