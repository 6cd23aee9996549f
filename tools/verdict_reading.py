"""A second reading of the ten tests on records: on the tree that pycparser makes of a text, with types found here.

It is by the table of the tests and by C99, and takes these choices from `docs/DECISIONS.md`: null is exempt from both tests of conversions, the name of a
function under `&` stands at the `&`, `2[a]` is `*(2 + a)`, and `const` makes no other type. Parentheses around the whole of what is named are no part of it."""

import ast
import contextlib
import re

from verdict_types import CHAR, INT, UNSIGNED, VOID, array, arrays_in, decayed, function, is_pointer
from verdict_types import layout_of_number, number_of, pointer, pointers_in, record, records_at

try:
    from pycparser import c_ast, c_parser
except ImportError:
    c_ast = c_parser = None

TESTS = ["CSTT", "CSTF", "ATKN", "LIBC", "IND", "MSET", "NEST", "SIZE", "OBJT", "COPY"]
LIBRARY = ["malloc", "calloc", "free", "memcpy", "memmove", "memset", "memcmp", "putchar", "getchar", "exit"]
OF_MEMORY = ["memset", "memcpy", "memmove"]


def have_parser():
    """Whether pycparser is there, in a version that tells where parentheses begin; what is missing is said."""
    found = c_parser is not None and hasattr(c_parser.CParser, "_parse_primary_expression")
    if not found:
        print("skipped: what needs pycparser 3 (pip install pycparser), which is not installed")
    return found


# ---- reading


class Parser(c_parser.CParser if c_parser else object):
    """Keeps where parentheses and operators begin, which the tree has not."""

    def __init__(self):
        super().__init__()
        self.groups, self.operators, self.kept = {}, {}, []

    def _parse_primary_expression(self):
        token = self._peek()
        node = super()._parse_primary_expression()
        # No other node may come to have its number.
        self.kept.append(node)
        if token.value == "(":
            self.groups[id(node)] = self._tok_coord(token)
        return node

    def _parse_unary_expression(self):
        token = self._peek()
        node = super()._parse_unary_expression()
        self.kept.append(node)
        if isinstance(node, c_ast.UnaryOp) and token.value == node.op:
            self.operators[id(node)] = self._tok_coord(token)
        return node


FIRST_PARTS = {"StructRef": "name", "ArrayRef": "name", "FuncCall": "name", "BinaryOp": "left", "Assignment": "lvalue", "TernaryOp": "cond", "UnaryOp": "expr"}


class Reading:
    """The violations of a program, file by file."""

    def __init__(self, files):
        self.records, self.found, self.order, self.is_measured = {}, {}, [], False
        for self.file, (name, self.text) in enumerate(files.items()):
            self.starts = [0, *(m.end() for m in re.finditer("\n", self.text))]
            self.scopes, self.types, self.sizes = [{}], {}, set()
            self.parser = Parser()
            for item in self.parser.parse(self.text, name).ext:
                self.item(item)

    def add(self, tags, test, at, of_field=False):
        """Of what is only measured nothing counts but the fields of structures that are defined there."""
        for tag in tags if of_field or not self.is_measured else []:
            violation = (self.file, at, TESTS.index(test))
            self.found[tag] = min(violation, self.found.get(tag, violation))

    @contextlib.contextmanager
    def measuring(self):
        before, self.is_measured = self.is_measured, True
        yield
        self.is_measured = before

    # -- places

    def byte(self, coord):
        return self.starts[coord.line - 1] + coord.column - 1

    def begin(self, node):
        """The first token of an expression."""
        if id(node) in self.parser.operators:
            return self.byte(self.parser.operators[id(node)])
        kind = type(node).__name__
        if kind == "ExprList":
            return self.outer(node.exprs[0])
        if kind in FIRST_PARTS and getattr(node, "op", "") != "sizeof":
            return self.outer(getattr(node, FIRST_PARTS[kind]))
        return self.byte(node.coord)

    def outer(self, node):
        """The same with the parentheses around it."""
        group = self.parser.groups.get(id(node))
        return self.byte(group) if group else self.begin(node)

    def declarator(self, node):
        """The first token of a declarator with a name."""
        while not isinstance(node, c_ast.TypeDecl):
            node = node.type
        at = self.byte(node.coord)
        return at - len(re.search(r"(\*\s*(const\b\s*)*|\(\s*)*$", self.text[max(0, at - 80) : at]).group())

    def abstract(self, at):
        """The first token of the abstract declarator in the parentheses behind a place, or of the type where there is none."""
        begin = re.compile(r"[^(]*\(\s*").match(self.text, at).end()
        end = re.compile(r"[\w\s]+").match(self.text, begin).end()
        return begin if self.text[end] == ")" else end

    # -- names and types

    def named(self, name):
        return next(scope[name] for scope in reversed(self.scopes) if name in scope)

    def type_of(self, node):
        """The type that is written; what its text violates is added."""
        kind = type(node).__name__
        if kind == "PtrDecl":
            return pointer(self.type_of(node.type))
        if kind == "ArrayDecl":
            if node.dim is not None:
                self.value(node.dim)
            return array(self.type_of(node.type), self.constant(node.dim) if node.dim is not None else None)
        if kind == "FuncDecl":
            parameters = [self.type_of(p.type) for p in node.args.params] if node.args else []
            return function(self.type_of(node.type), [decayed(p) for p in parameters if p != VOID])
        if kind == "Struct":
            return self.structure(node)
        if kind == "Enum":
            self.enumeration(node)
            return INT
        if kind == "IdentifierType":
            typedef = self.named(node.names[0])[1] if len(node.names) == 1 and any(node.names[0] in scope for scope in self.scopes) else None
            return typedef or (VOID if node.names == ["void"] else number_of(node.names))
        return self.type_of(node.type)

    def structure(self, node):
        if node.decls:
            fields = [(field.name, self.type_of(field.type), field) for field in node.decls]
            if node.name not in self.records:
                self.order.append(node.name)
            self.records[node.name] = [(name, t) for name, t, _ in fields]
            for _, t, field in fields:
                at = self.declarator(field.type)
                self.add(arrays_in(t), "OBJT", at, of_field=True)
                held = self.held(t)
                self.add([node.name, *held] if held else [], "NEST", at, of_field=True)
        return record(node.name)

    def enumeration(self, node):
        following = 0
        for one in node.values.enumerators if node.values else []:
            if one.value is not None:
                self.value(one.value)
                following = self.constant(one.value)
            self.scopes[-1][one.name] = ("enumerator", following)
            following += 1

    def held(self, t):
        """The records that an object of a type is or holds."""
        if t[0] == "array":
            return self.held(t[1])
        return [t[1], *(tag for _, field in self.records[t[1]] for tag in self.held(field))] if t[0] == "record" else []

    def layout(self, t):
        """The size and the alignment of a type."""
        if t[0] == "array":
            size, alignment = self.layout(t[1])
            return size * t[2], alignment
        if t[0] == "record":
            end, most = 0, 1
            for _, field in self.records[t[1]]:
                size, alignment = self.layout(field)
                end, most = -(-end // alignment) * alignment + size, max(most, alignment)
            return -(-end // most) * most, most
        return layout_of_number(t)

    def raw(self, node):
        """The type of an expression before an array or a function becomes a pointer."""
        if id(node) not in self.types:
            self.types[id(node)] = getattr(self, f"type_of_{type(node).__name__}")(node)
        return self.types[id(node)]

    def of_value(self, node):
        return decayed(self.raw(node))

    def type_of_ID(self, node):
        kind, t = self.named(node.name)
        return INT if kind == "enumerator" else t

    def type_of_Constant(self, node):
        return array(CHAR, len(node.value) - 1) if node.type == "string" else INT

    def named_type(self, node):
        """The type that is written, as where it is only measured."""
        with self.measuring():
            return self.type_of(node)

    def type_of_Cast(self, node):
        return self.named_type(node.to_type)

    def type_of_StructRef(self, node):
        t = self.raw(node.name) if node.type == "." else self.of_value(node.name)[1]
        return dict(self.records[t[1]])[node.field.name]

    def type_of_ArrayRef(self, node):
        t = self.of_value(node.name)
        return t[1] if is_pointer(t) else self.of_value(node.subscript)[1]

    def type_of_UnaryOp(self, node):
        if node.op == "*":
            return self.of_value(node.expr)[1]
        if node.op == "&":
            return pointer(self.raw(node.expr))
        return self.raw(node.expr) if node.op in ("++", "--", "p++", "p--") else UNSIGNED if node.op == "sizeof" else INT

    def type_of_BinaryOp(self, node):
        left, right = self.of_value(node.left), self.of_value(node.right)
        if node.op == "+":
            return left if is_pointer(left) else right if is_pointer(right) else INT
        return left if node.op == "-" and is_pointer(left) and not is_pointer(right) else INT

    def type_of_Assignment(self, node):
        return self.raw(node.lvalue)

    def type_of_TernaryOp(self, node):
        left, right = self.of_value(node.iftrue), self.of_value(node.iffalse)
        if not is_pointer(left) and not is_pointer(right):
            return left if left == VOID else INT
        if self.is_null_constant(node.iftrue):
            return right if is_pointer(right) else left
        return pointer(VOID) if right == pointer(VOID) and not self.is_null_constant(node.iffalse) else left

    def type_of_FuncCall(self, node):
        t = self.of_value(node.name)
        return t[1][1]

    def type_of_ExprList(self, node):
        return self.of_value(node.exprs[-1])

    # -- constants and null (6.6, 6.3.2.3)

    def constant(self, node):
        """The value of an integer constant expression, or None."""
        kind = type(node).__name__
        if kind == "Constant" and node.type == "char":
            return ord(ast.literal_eval(node.value))
        if kind == "Constant" and node.type != "string":
            digits = node.value.rstrip("uUlL")
            return int(digits, 8 if re.match("0[0-7]", digits) else 0)
        if kind == "ID":
            entity = self.named(node.name)
            return entity[1] if entity[0] == "enumerator" else None
        if kind == "Cast":
            return self.constant(node.expr) if self.raw(node)[0] == "number" else None
        if kind == "UnaryOp" and node.op == "sizeof":
            return self.layout(self.measured(node))[0]
        parts = {"UnaryOp": ["expr"], "BinaryOp": ["left", "right"], "TernaryOp": ["cond", "iftrue", "iffalse"]}.get(kind)
        if parts is None or kind == "UnaryOp" and node.op not in ("-", "+", "~", "!"):
            return None
        values = [self.constant(getattr(node, part)) for part in parts]
        if None in values:
            return None
        return self.computed(node, *values)

    def computed(self, node, x, y=0, z=0):
        if isinstance(node, c_ast.TernaryOp):
            return y if x else z
        if isinstance(node, c_ast.UnaryOp):
            return {"-": -x, "+": x, "~": ~x, "!": int(not x)}[node.op]
        if node.op in ("/", "%"):
            return x // y if node.op == "/" else x % y
        if node.op in ("<<", ">>"):
            return x << y if node.op == "<<" else x >> y
        return int({"+": x + y, "-": x - y, "*": x * y, "&": x & y, "|": x | y, "^": x ^ y, "<": x < y, ">": x > y, "<=": x <= y, ">=": x >= y,
                    "==": x == y, "!=": x != y, "&&": bool(x and y), "||": bool(x or y)}[node.op])

    def is_null_constant(self, node):
        if isinstance(node, c_ast.Cast) and self.raw(node) == pointer(VOID):
            node = node.expr
        return self.of_value(node)[0] == "number" and self.constant(node) == 0

    def is_null(self, node):
        """A null pointer by its form: a constant, or a cast of a null pointer."""
        return self.is_null_constant(node) or isinstance(node, c_ast.Cast) and is_pointer(self.raw(node)) and self.is_null(node.expr)

    # -- expressions

    def measured(self, node):
        """The type that a `sizeof` asks of."""
        return self.named_type(node.expr) if isinstance(node.expr, c_ast.Typename) else self.raw(node.expr)

    def size_operand(self, node, tag):
        """The `sizeof` in a recognised allocation of a record, or None."""
        name = node.name.name if isinstance(node, c_ast.FuncCall) and isinstance(node.name, c_ast.ID) else None
        if name not in ("malloc", "calloc") or self.named(name)[0] != "library":
            return None
        sizes = node.args.exprs[-1:]
        if name == "malloc" and isinstance(sizes[0], c_ast.BinaryOp) and sizes[0].op == "*":
            sizes = [sizes[0].right, sizes[0].left]
        return next((s for s in sizes if isinstance(s, c_ast.UnaryOp) and s.op == "sizeof" and self.measured(s) == record(tag)), None)

    def convert(self, node, t):
        """A value becomes one of another type."""
        before = self.of_value(node)
        if not is_pointer(before) or not is_pointer(t) or before == t or self.is_null(node):
            return
        self.add(records_at(before), "CSTF", self.begin(node))
        for tag in records_at(t):
            size = self.size_operand(node, tag)
            if size is not None:
                self.sizes.add(id(size))
            else:
                self.add([tag], "CSTT", self.begin(node))

    def assign(self, node, t):
        self.convert(node, t)
        self.value(node)

    def taken(self, node):
        """The records of which a path takes a field, or a part of one."""
        if isinstance(node, c_ast.StructRef):
            inner = node.name
            t = self.raw(inner) if node.type == "." else self.of_value(inner)[1]
            return [t[1], *(self.taken(inner) if node.type == "." else [])]
        is_element = isinstance(node, c_ast.ArrayRef) and self.raw(node.name)[0] == "array"
        return self.taken(node.name) if is_element else []

    def value(self, node):
        """An expression that stands for its value."""
        t = self.raw(node)
        if t[0] == "array":
            self.add(self.taken(node), "ATKN", self.begin(node))
        if t[0] == "function" and isinstance(node, c_ast.ID):
            self.add(pointers_in(t), "IND", self.byte(node.coord))
        self.walk(node)

    def walk(self, node):
        """What an expression is built of."""
        getattr(self, f"walk_{type(node).__name__}")(node)

    def walk_ID(self, node):
        pass

    walk_Constant = walk_ID

    def walk_Cast(self, node):
        t = self.type_of(node.to_type)
        self.add(arrays_in(t), "OBJT", self.abstract(self.byte(node.coord)))
        self.assign(node.expr, t)

    def walk_StructRef(self, node):
        (self.walk if node.type == "." else self.value)(node.name)

    def walk_ArrayRef(self, node):
        (self.walk if self.raw(node.name)[0] == "array" else self.value)(node.name)
        self.value(node.subscript)

    def walk_UnaryOp(self, node):
        if node.op == "sizeof":
            self.size(node)
        elif node.op == "&" and self.raw(node.expr)[0] == "function" and isinstance(node.expr, c_ast.ID):
            self.add(pointers_in(self.raw(node.expr)), "IND", self.begin(node))
        elif node.op == "&":
            self.add(self.taken(node.expr), "ATKN", self.begin(node.expr))
            self.walk(node.expr)
        else:
            (self.walk if node.op in ("++", "--", "p++", "p--") else self.value)(node.expr)

    def size(self, node):
        if id(node) not in self.sizes:
            self.add(self.held(self.measured(node)), "SIZE", self.begin(node))
        if isinstance(node.expr, c_ast.Typename):
            self.add(arrays_in(self.type_of(node.expr)), "OBJT", self.abstract(self.byte(node.coord)))
        else:
            with self.measuring():
                self.value(node.expr)

    def walk_BinaryOp(self, node):
        if node.op in ("==", "!="):
            for one, other in [(node.left, node.right), (node.right, node.left)]:
                if self.of_value(other) == pointer(VOID) and not self.is_null_constant(other):
                    self.convert(one, pointer(VOID))
        self.value(node.left)
        self.value(node.right)

    def walk_Assignment(self, node):
        t = self.raw(node.lvalue)
        self.walk(node.lvalue)
        if t[0] == "record":
            self.add([t[1]], "COPY", self.begin(node))
            self.walk(node.rvalue)
        elif node.op == "=":
            self.assign(node.rvalue, t)
        else:
            self.value(node.rvalue)

    def walk_TernaryOp(self, node):
        self.value(node.cond)
        for branch in (node.iftrue, node.iffalse):
            self.assign(branch, self.raw(node))

    def walk_FuncCall(self, node):
        arguments = node.args.exprs if node.args else []
        name = node.name.name if isinstance(node.name, c_ast.ID) else None
        kind = self.named(name)[0] if name else None
        if kind not in ("function", "library"):
            self.value(node.name)
        for argument, t in zip(arguments, self.of_value(node.name)[1][2]):
            tags = records_at(self.of_value(argument))
            if kind == "library" and tags:
                if name != "free":
                    self.add(tags, "MSET" if name in OF_MEMORY else "LIBC", self.begin(argument))
                self.value(argument)
            else:
                self.assign(argument, t)

    def walk_ExprList(self, node):
        for one in node.exprs:
            self.value(one)

    # -- declarations and statements

    def declare(self, node):
        t = self.type_of(node.type)
        if node.name is None:
            return
        if t[0] == "array" and t[2] is None:
            t = array(t[1], len(node.init.exprs) if isinstance(node.init, c_ast.InitList) else len(node.init.value) - 1)
        whole = [t[1]] if t[0] == "record" and not isinstance(node, c_ast.Typedef) else []
        self.add([*whole, *arrays_in(t)], "OBJT", self.declarator(node.type))
        kind = "typedef" if isinstance(node, c_ast.Typedef) else "object"
        if t[0] == "function":
            kind = "library" if node.name in LIBRARY and len(self.scopes) == 1 else "function"
        self.scopes[-1][node.name] = (kind, t)
        if getattr(node, "init", None) is not None:
            self.initial(node.init, t)

    def initial(self, node, t):
        if isinstance(node, c_ast.InitList):
            types = [t[1]] * t[2] if t[0] == "array" else [field for _, field in self.records[t[1]]] if t[0] == "record" else [t]
            for one, part in zip(node.exprs, types):
                self.initial(one, part)
        elif t[0] == "record":
            self.walk(node)
        elif t[0] != "array":
            self.assign(node, t)

    def item(self, node):
        if isinstance(node, c_ast.FuncDef):
            self.declare(node.decl)
            self.result = self.named(node.decl.name)[1][1]
            self.scopes.append({})
            for p in node.decl.type.args.params if node.decl.type.args else []:
                if p.name is not None:
                    self.scopes[-1][p.name] = ("object", decayed(self.type_of(p.type)))
            self.statements(node.body.block_items)
            self.scopes.pop()
        elif isinstance(node, (c_ast.Decl, c_ast.Typedef)):
            self.declare(node)

    def statements(self, nodes):
        for node in nodes or []:
            self.statement(node)

    def statement(self, node):
        if isinstance(node, c_ast.Return):
            if node.expr is not None:
                self.assign(node.expr, self.result)
        elif isinstance(node, c_ast.Decl):
            self.declare(node)
        elif isinstance(node, (c_ast.Compound, c_ast.If, c_ast.While, c_ast.DoWhile, c_ast.For, c_ast.Switch)):
            self.scopes.append({})
            self.statements(child for _, child in node.children())
            self.scopes.pop()
        elif isinstance(node, (c_ast.DeclList, c_ast.Case, c_ast.Default)):
            self.statements(child for _, child in node.children())
        elif not isinstance(node, (c_ast.EmptyStatement, c_ast.Break, c_ast.Continue)):
            self.value(node)

    def verdicts(self, names):
        """Each record with its verdict."""
        return {tag: (TESTS[v[2]], names[v[0]], v[1]) if (v := self.found.get(tag)) else ("legal",) for tag in self.order}
