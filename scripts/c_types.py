"""A checker of names and types of the accepted part of C, written from its rules alone and apart from the program's own checker.

`faults_of(text)` gives all faults that stand in a text, each as the program prints it, `Unknown(24)`; none where the text is accepted
but for its sizes. The text is one that `c_trees.brief` has a tree of.
"""
import operator
import re

from c_trees import brief

FIELDS = {"Tree": 2, "Head": 3, "Param": 2, "Var": 4, "ForHead": 3}
EXPRESSIONS = set("Name Number EofName Paren Call Index Plus Minus Complement Not Cast Binary AndAlso OrElse Choose Assign Before After "
                  "Comma".split())
WIDTHS = {"Bool": 1, "Char": 8, "SignedChar": 8, "UnsignedChar": 8, "Short": 16, "UnsignedShort": 16, "Int": 32, "UnsignedInt": 32,
          "Long": 64, "UnsignedLong": 64}
COMPARISONS = {"Less": operator.lt, "Greater": operator.gt, "LessEqual": operator.le, "GreaterEqual": operator.ge, "Equal": operator.eq,
               "NotEqual": operator.ne}
EXACT = {"Mul": operator.mul, "Add": operator.add, "Sub": operator.sub, "And": operator.and_, "Xor": operator.xor, "Or": operator.or_}
SHIFTS = ("Shl", "Shr")
MOST_ELEMENTS = 1_048_576
MOST_PARAMETERS = 64


# ---- trees

class Node:
    """A form of a tree with its parts and, where it has them, its place and line."""

    def __init__(self, kind, parts):
        self.kind, self.parts, self.place, self.line = kind, parts, None, None
        self.known = None  # its faults, once they were looked for

    def __getattr__(self, name):
        return self.__dict__["parts"][name]


class Printed:
    """Reads a tree as `c_trees.brief` prints it."""

    def __init__(self, text):
        self.words, self.next = re.findall(r"[A-Za-z]+|-?\d+|[\[\](),:{@]", text), 0

    def take(self):
        self.next += 1
        return self.words[self.next - 1]

    def sees(self, word):
        return self.next < len(self.words) and self.words[self.next] == word

    def skip(self, word):
        if self.sees(word):
            self.next += 1

    def values(self, end):
        found = []
        while not self.sees(end):
            found.append(self.value())
            self.skip(",")
        self.take()
        return found

    def fields(self, count):
        found = {}
        for _ in range(count):
            name = self.take()
            self.take()
            found[name] = self.value()
            if len(found) < count:
                self.take()
        return found

    def value(self):
        word = self.take()
        if word == "[":
            return self.values("]")
        if re.fullmatch(r"-?\d+", word):
            return int(word)
        if self.sees("{"):
            self.take()
            node = Node(word, self.fields(FIELDS[word]))
        else:
            node = Node(word, [])
            if self.sees("("):
                self.take()
                node.parts = self.values(")")
        if self.sees("@") and (word in EXPRESSIONS or word in FIELDS):
            self.take()
            node.place = int(self.take())
            if self.sees(":"):
                self.take()
                node.line = int(self.take())
        return node


def tree_of(text):
    printed = brief(text)
    if not printed.startswith("Tree"):
        raise ValueError(f"{printed} in {text!r}")
    return Printed(printed).value()


def letters(name):
    return bytes(name).decode()


def base_name(node):
    return "Void" if node.kind == "Void" else node.parts[0].kind


# ---- numbers

def is_signed(t):
    return t in ("Char", "SignedChar", "Short", "Int", "Long")


def bounds(t):
    width = WIDTHS[t]
    return (-(1 << width - 1), (1 << width - 1) - 1) if is_signed(t) else (0, (1 << width) - 1)


def convert(t, n):
    if t == "Bool":
        return int(n != 0)
    n %= 1 << WIDTHS[t]
    return n - (1 << WIDTHS[t]) if n > bounds(t)[1] else n


def promoted(t):
    return "Int" if WIDTHS[t] < 32 else t


def common(a, b):
    a, b = promoted(a), promoted(b)
    if WIDTHS[a] != WIDTHS[b]:
        return a if WIDTHS[a] > WIDTHS[b] else b
    return b if is_signed(a) else a


def in_type(t, n):
    """The exact result as a number of the type; none where it overflows."""
    low, high = bounds(t)
    if is_signed(t):
        return n if low <= n <= high else None
    return convert(t, n)


def quotient(a, b):
    return abs(a) // abs(b) * (1 if (a < 0) == (b < 0) else -1)


def shifted(op, t, a, b):
    if not 0 <= b < WIDTHS[t]:
        return None
    if op == "Shr":
        return a >> b
    return None if is_signed(t) and a < 0 else in_type(t, a << b)


def operated(op, t, a, b):
    """An operator's number on operands of the type; none where it traps."""
    if op in SHIFTS:
        return shifted(op, t, a, b)
    if op in COMPARISONS:
        return int(COMPARISONS[op](a, b))
    if op in ("Div", "Rem"):
        if b == 0 or in_type(t, quotient(a, b)) is None:
            return None
        return quotient(a, b) if op == "Div" else a - b * quotient(a, b)
    return in_type(t, EXACT[op](a, b))


# ---- names

class Variable:
    def __init__(self, number_type, length):
        self.type, self.length = number_type, length


class Function:
    def __init__(self, result, params, defined):
        self.result, self.params, self.defined = result, params, defined


def builtins():
    return {"getchar": Function("Int", [], True), "putchar": Function("Int", ["Int"], True), "exit": Function("Void", ["Int"], True)}


class Checker:
    """Each rule gives the list of its faults."""

    def __init__(self, tree):
        self.tree, self.scopes = tree, [builtins()]
        heads = [o.parts[0] for o in tree.outers if o.kind == "Function"]
        self.defined, self.made = {letters(head.name) for head in heads}, set(builtins())
        self.inside, self.result = [], None

    def meaning(self, name):
        return next((scope[letters(name)] for scope in reversed(self.scopes) if letters(name) in scope), None)

    def declare(self, name, meaning, place):
        """The first declaration in a scope stands."""
        again = letters(name) in self.scopes[-1]
        self.scopes[-1].setdefault(letters(name), meaning)
        return [f"Redeclared({place})"] if again else []

    # -- expressions
    def base(self, e):
        """The type of an expression; int where there is a fault."""
        if self.faults(e):
            return "Int"
        if e.kind == "Name":
            return self.meaning(e.parts[0]).type
        if e.kind == "Number":
            return e.parts[1].kind
        if e.kind == "Call":
            return self.meaning(e.parts[0]).result
        if e.kind == "Index":
            return self.meaning(e.parts[0]).type
        if e.kind == "Cast":
            return base_name(e.parts[0])
        if e.kind in ("Plus", "Minus", "Complement"):
            return promoted(self.base(e.parts[0]))
        if e.kind == "Binary":
            return self.binary_type(*e.parts)
        if e.kind == "Choose":
            sides = [self.base(side) for side in e.parts[1:]]
            return "Void" if sides == ["Void", "Void"] else common(*sides)
        through = {"Paren": 0, "Assign": 1, "Before": 1, "After": 1, "Comma": 1}
        return self.base(e.parts[through[e.kind]]) if e.kind in through else "Int"

    def binary_type(self, op, left, right):
        if op.kind in COMPARISONS:
            return "Int"
        return promoted(self.base(left)) if op.kind in SHIFTS else common(self.base(left), self.base(right))

    def value(self, e):
        """The faults where a value is wanted."""
        found = self.faults(e)
        return found if found or self.base(e) != "Void" else [f"VoidValue({e.place})"]

    def values(self, es):
        return [fault for e in es for fault in self.value(e)]

    def faults(self, e):
        if e.known is None:
            e.known = self.found(e)
        return e.known

    def found(self, e):
        if e.kind == "Name":
            return self.name(self.meaning(e.parts[0]), e.place)
        if e.kind == "Call":
            return self.call(self.meaning(e.parts[0]), len(e.parts[1]), e.place) + self.values(e.parts[1])
        if e.kind == "Index":
            return self.indexed(self.meaning(e.parts[0]), e.parts[1]) + self.value(e.parts[3])
        if e.kind == "Cast":
            return self.faults(e.parts[1]) if e.parts[0].kind == "Void" else self.value(e.parts[1])
        if e.kind == "Choose":
            return self.value(e.parts[0]) + self.sides(e.parts[1], e.parts[2])
        if e.kind == "Assign":
            return self.target(e.parts[1], e.place) + self.value(e.parts[2])
        if e.kind in ("Before", "After"):
            return self.target(e.parts[1], e.place)
        if e.kind == "Comma":
            return self.faults(e.parts[0]) + self.faults(e.parts[1])
        if e.kind == "Paren":
            return self.faults(e.parts[0])
        return self.values([part for part in e.parts if isinstance(part, Node) and part.kind in EXPRESSIONS])

    def name(self, meaning, place):
        if meaning is None:
            return [f"Unknown({place})"]
        if isinstance(meaning, Function):
            return [f"NotAVariable({place})"]
        return [] if meaning.length is None else [f"ArrayValue({place})"]

    def call(self, meaning, count, place):
        if meaning is None:
            return [f"Unknown({place})"]
        if isinstance(meaning, Variable):
            return [f"NotAFunction({place})"]
        return [f"NoBody({place})"] * (not meaning.defined) + [f"ArgCount({place})"] * (count != len(meaning.params))

    def indexed(self, meaning, place):
        if meaning is None:
            return [f"Unknown({place})"]
        return [] if isinstance(meaning, Variable) and meaning.length is not None else [f"NotAnArray({place})"]

    def sides(self, first, second):
        if not self.faults(first) and not self.faults(second) and self.base(first) == self.base(second) == "Void":
            return []
        return self.value(first) + self.value(second)

    def target(self, e, operator):
        """What is assigned or stepped: a variable or an element, parentheses aside."""
        bare = e
        while bare.kind == "Paren":
            bare = bare.parts[0]
        if bare.kind == "Name" and isinstance(self.meaning(bare.parts[0]), Function):
            return [f"NotAVariable({operator})"]
        return self.faults(e) + [f"NotAVariable({operator})"] * (bare.kind not in ("Name", "Index"))

    # -- constant expressions
    def is_constant(self, e):
        if e.kind in ("Number", "EofName"):
            return True
        if e.kind == "Cast" and e.parts[0].kind == "Void":
            return False
        parts = [part for part in e.parts if isinstance(part, Node) and part.kind in EXPRESSIONS]
        builds = ("Paren", "Plus", "Minus", "Complement", "Not", "Cast", "Binary", "AndAlso", "OrElse", "Choose")
        return e.kind in builds and all(self.is_constant(part) for part in parts)

    def constant(self, e):
        """The number of a constant expression that doesn't trap, else none."""
        return self.number(e) if self.is_constant(e) else None

    def converted(self, e, t):
        n = self.number(e)
        return None if n is None else convert(t, n)

    def number(self, e):
        if e.kind == "Number":
            return e.parts[0]
        if e.kind == "EofName":
            return -1
        if e.kind == "Paren":
            return self.number(e.parts[0])
        if e.kind == "Cast":
            return self.converted(e.parts[1], base_name(e.parts[0]))
        if e.kind == "Binary":
            return self.binary_number(*e.parts)
        if e.kind == "Choose":
            test = self.number(e.parts[0])
            return None if test is None else self.converted(e.parts[1] if test else e.parts[2], self.base(e))
        if e.kind in ("AndAlso", "OrElse"):
            left = self.number(e.parts[0])
            if left is None or (left != 0) == (e.kind == "OrElse"):
                return None if left is None else int(left != 0)
            right = self.number(e.parts[1])
            return None if right is None else int(right != 0)
        n = self.converted(e.parts[0], promoted(self.base(e.parts[0])))
        if n is None or e.kind == "Not":
            return None if n is None else int(n == 0)
        return in_type(self.base(e), {"Plus": n, "Minus": -n, "Complement": ~n}[e.kind])

    def binary_number(self, op, left, right):
        if op.kind in SHIFTS:
            kind = promoted(self.base(left))
            a, b = self.converted(left, kind), self.converted(right, promoted(self.base(right)))
        else:
            kind = common(self.base(left), self.base(right))
            a, b = self.converted(left, kind), self.converted(right, kind)
        return None if a is None or b is None else operated(op.kind, kind, a, b)

    # -- declarations
    def length(self, v):
        """The length of an array, none where it has no good one."""
        if v.size.kind == "Unsized":
            found = len(v.init.parts[0]) if v.init.kind == "List" else None
        else:
            found = self.constant(v.size.parts[0])
        return found if found is not None and 1 <= found <= MOST_ELEMENTS else None

    def var(self, v, is_global):
        found = [f"VoidValue({v.place})"] * (v.base.kind == "Void")
        length, is_array = None, v.size.kind != "Scalar"
        values = v.init.parts[0] if v.init.kind == "List" else v.init.parts
        if v.size.kind == "Len":
            found += self.value(v.size.parts[0])
        if is_array:
            length = self.length(v)
            if length is None or (v.init.kind == "List" and len(values) > length):
                found.append(f"ArraySize({v.place})")
        if v.init.kind == ("One" if is_array else "List"):
            found.append(f"ArrayValue({v.place})")
        kind = "Int" if v.base.kind == "Void" else base_name(v.base)
        found += self.declare(v.name, Variable(kind, (length or 1) if is_array else None), v.place)
        found += self.values(values)
        if is_global:
            found += [f"NotConstant({v.place})" for e in values if self.constant(e) is None]
        return found

    def vars(self, vs, is_global=False):
        return [fault for v in vs for fault in self.var(v, is_global)]

    # -- statements
    def within(self, rule, *words):
        """A rule in a scope of its own, and inside of these."""
        self.scopes.append({})
        self.inside.append(words)
        found = rule()
        self.inside.pop()
        self.scopes.pop()
        return found

    def is_inside(self, *words):
        return any(word in words for found in self.inside for word in found)

    def stmts(self, ss):
        return [fault for s in ss for fault in self.stmt(s)]

    def stmt(self, s):
        if s.kind == "Vars":
            return self.vars(s.parts[0])
        if s.kind == "Block":
            return self.within(lambda: self.stmts(s.parts[0]))
        if s.kind == "Value":
            return self.faults(s.parts[0])
        if s.kind == "If":
            return self.value(s.parts[0]) + self.within(lambda: self.stmt(s.parts[1])) + self.within(lambda: self.maybe(s.parts[2]))
        if s.kind == "While":
            return self.value(s.parts[0]) + self.within(lambda: self.stmt(s.parts[1]), "loop")
        if s.kind == "DoWhile":
            return self.within(lambda: self.stmt(s.parts[0]), "loop") + self.value(s.parts[1])
        if s.kind == "For":
            return self.within(lambda: self.for_(*s.parts))
        if s.kind == "Switch":
            return self.value(s.parts[0]) + self.within(lambda: self.switch(*s.parts), "switch")
        if s.kind in ("Break", "Continue"):
            fine = self.is_inside("loop", "switch") if s.kind == "Break" else self.is_inside("loop")
            return [] if fine else [f"OutsideLoop({s.parts[0]})"]
        return self.return_(s.parts[0].parts, s.parts[1]) if s.kind == "Return" else []

    def maybe(self, part):
        return [fault for s in part.parts for fault in self.stmt(s)]

    def for_(self, head, body):
        found = self.maybe(head.first) + self.values(head.test.parts) + [f for e in head.step.parts for f in self.faults(e)]
        return found + self.within(lambda: self.stmt(body), "loop")

    def switch(self, e, items):
        kind = "Int" if self.base(e) == "Void" else promoted(self.base(e))
        found, cases, default = [], set(), False
        for item in items:
            if item.kind == "Item":
                found += self.stmt(item.parts[0])
            elif item.kind == "Default":
                found += [f"TwiceCase({item.parts[0]})"] * default
                default = True
            else:
                found += self.value(item.parts[0]) + self.case(kind, cases, self.constant(item.parts[0]), item.parts[1])
        return found

    def case(self, kind, cases, n, place):
        if n is None:
            return [f"BadCase({place})"]
        again = convert(kind, n) in cases
        cases.add(convert(kind, n))
        return [f"TwiceCase({place})"] * again

    def return_(self, values, place):
        if (self.result == "Void") == bool(values):
            return [f"VoidValue({place})"] + [fault for e in values for fault in self.faults(e)]
        return self.values(values)

    # -- sources
    def head(self, head, defines):
        name, params = letters(head.name), [base_name(p.base) for p in head.params]
        own = Function(base_name(head.base), params, name in self.defined)
        stands = self.scopes[0].setdefault(name, own)
        fine = isinstance(stands, Function) and (stands.result, stands.params) == (own.result, params)
        if defines:
            fine, self.made = fine and name not in self.made, self.made | {name}
        found = [f"Redeclared({head.place})"] * (not fine)
        return found + [f"TooManyParameters({head.place})"] * (len(params) > MOST_PARAMETERS)

    def params(self, head):
        found = [f"VoidValue({p.place})" for p in head.params if p.base.kind == "Void"]
        for p in head.params:
            if p.name.kind == "Some":
                kind = "Int" if p.base.kind == "Void" else base_name(p.base)
                found += self.declare(p.name.parts[0], Variable(kind, None), p.place)
        return found

    def outer(self, o):
        if o.kind == "Vars":
            return self.vars(o.parts[0], True)
        head = o.parts[0]
        found = self.head(head, o.kind == "Function")
        self.result = base_name(head.base)
        body = o.parts[1] if o.kind == "Function" else []
        return found + self.within(lambda: self.params(head) + self.stmts(body))

    def is_main(self, o):
        head = o.parts[0]
        return o.kind == "Function" and letters(head.name) == "main" and base_name(head.base) == "Int" and not head.params

    def all(self):
        found = [fault for o in self.tree.outers for fault in self.outer(o)]
        return found + [f"NoMain({self.tree.end})"] * (not any(self.is_main(o) for o in self.tree.outers))


def faults_of(text):
    return Checker(tree_of(text)).all()
