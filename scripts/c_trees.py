"""A reader of the accepted part of C, written from the grammar alone and apart from the program's own reader.

`brief(text)` gives the tree of a text as the program prints it for debugging, but for the names of boxes, of places and of closing
braces, which `SHORTER` leaves out; or `Lex`, `Syntax(place)` or `TooDeep`.
"""
import re
import sys

sys.setrecursionlimit(100_000)

SHORTER = [("Items { items: ", ""), ("Boxed { inner: ", ""), ("Expr { kind: ", ""), ("Ident { text: ", ""), (", place: ", "@"),
           (", line: ", ":"), (" }", "")]
MOST_LEVELS = 256
KEYWORDS = set("_Bool break case char continue default do else for if int long return short signed switch unsigned void while".split())
LEFT_OUT = set("auto const double enum extern float goto inline register restrict sizeof static struct typedef union volatile _Alignas "
               "_Alignof _Atomic _Complex _Generic _Imaginary _Noreturn _Static_assert _Thread_local".split())
TYPE_WORDS = {"void", "_Bool", "char", "short", "int", "long", "signed", "unsigned"}
TYPES = {}
for words, name in [("void", "Void"), ("_Bool", "Bool"), ("char", "Char"), ("signed char", "SignedChar"),
                    ("unsigned char", "UnsignedChar"), ("short", "Short"), ("signed short", "Short"), ("short int", "Short"),
                    ("signed short int", "Short"), ("unsigned short", "UnsignedShort"), ("unsigned short int", "UnsignedShort"),
                    ("int", "Int"), ("signed", "Int"), ("signed int", "Int"), ("unsigned", "UnsignedInt"),
                    ("unsigned int", "UnsignedInt"), ("long", "Long"), ("signed long", "Long"), ("long int", "Long"),
                    ("signed long int", "Long"), ("unsigned long", "UnsignedLong"), ("unsigned long int", "UnsignedLong")]:
    TYPES[tuple(sorted(words.split()))] = name
MARKS = sorted("( ) [ ] { } ; , : ? ~ ! + - * / % < > = & | ^ ++ -- << >> <= >= == != && || += -= *= /= %= &= ^= |= <<= >>=".split(),
               key=len, reverse=True)
ESCAPES = {"n": 10, "t": 9, "r": 13, "a": 7, "b": 8, "f": 12, "v": 11, "\\": 92, "'": 39, '"': 34, "?": 63}
OPERATORS = {"*": "Mul", "/": "Div", "%": "Rem", "+": "Add", "-": "Sub", "<<": "Shl", ">>": "Shr", "<": "Less", ">": "Greater",
             "<=": "LessEqual", ">=": "GreaterEqual", "==": "Equal", "!=": "NotEqual", "&": "And", "^": "Xor", "|": "Or"}
LEVELS = [["*", "/", "%"], ["+", "-"], ["<<", ">>"], ["<", ">", "<=", ">="], ["==", "!="], ["&"], ["^"], ["|"], ["&&"], ["||"]]
SIGNS = {"+": "Plus", "-": "Minus", "~": "Complement", "!": "Not"}
UNARY = re.compile(r"(Name|Number|EofName|Paren|Call|Index|Plus|Minus|Complement|Not|Before|After)\b")


class Fault(Exception):
    pass


def number_of(word):
    found = re.fullmatch(r"(0[xX][0-9a-fA-F]+|0[0-7]*|[1-9][0-9]*)([uU]?[lL]?|[lL][uU])", word)
    if not found:
        raise Fault("Lex")
    digits, suffix = found.group(1), found.group(2).lower()
    value = int(digits, 16) if digits[:2] in ("0x", "0X") else int(digits, 8) if digits[0] == "0" else int(digits)
    if suffix in ("ul", "lu"):
        types = ["UnsignedLong"]
    elif suffix == "u":
        types = ["UnsignedInt", "UnsignedLong"]
    elif suffix == "l":
        types = ["Long"] if digits[0] != "0" else ["Long", "UnsignedLong"]
    else:
        types = ["Int", "Long"] if digits[0] != "0" else ["Int", "UnsignedInt", "Long", "UnsignedLong"]
    most = {"Int": 2 ** 31, "UnsignedInt": 2 ** 32, "Long": 2 ** 63, "UnsignedLong": 2 ** 64}
    for name in types:
        if value < most[name]:
            return f"Number({value}, {name})"
    raise Fault("Lex")


def character_at(text, at):
    """The value of the character that begins at a quote, and where it ends."""
    rest = text[at + 1:]
    for pattern, value in [(r"[^'\\\x00-\x1f\x7f-\xff]'", lambda s: ord(s[0])), (r"\\([ntrabfv\\'\"?])'", lambda s: ESCAPES[s[1]]),
                           (r"\\[0-7]{1,3}'", lambda s: int(s[1:-1], 8)), (r"\\x[0-9a-fA-F]{1,2}'", lambda s: int(s[2:-1], 16))]:
        found = re.match(pattern, rest)
        if found and value(found.group()) <= 255:
            byte = value(found.group())
            return byte - 256 if byte > 127 else byte, at + 1 + found.end()
    raise Fault("Lex")


def tokens_of(text):
    """The tokens: kind, spelling or value, start and line."""
    found, at = [], 0
    while at < len(text):
        line = text.count("\n", 0, at) + 1
        include = re.compile(r"#[ \t]*include[ \t]*<(stdio|stdlib)\.h>[ \t]*(?=\n|\Z)").match(text, at)
        word = re.compile(r"[A-Za-z_][A-Za-z_0-9]*").match(text, at)
        number = re.compile(r"[0-9][A-Za-z_0-9.]*").match(text, at)
        if text[at] in " \t\n\r\v\f":
            at += 1
        elif text.startswith("/*", at):
            end = text.find("*/", at + 2)
            if end < 0:
                raise Fault("Lex")
            at = end + 2
        elif text.startswith("//", at):
            end = text.find("\n", at)
            at = len(text) if end < 0 else end
        elif include and (at == 0 or text[at - 1] == "\n"):
            at = include.end()
        elif word:
            if word.group() in LEFT_OUT:
                raise Fault("Lex")
            kind = "key" if word.group() in KEYWORDS else "eof" if word.group() == "EOF" else "name"
            found.append((kind, word.group(), at, line))
            at = word.end()
        elif number:
            found.append(("number", number_of(number.group()), at, line))
            at = number.end()
        elif text[at] == "'":
            value, end = character_at(text, at)
            found.append(("number", f"Number({value}, Int)", at, line))
            at = end
        else:
            mark = next((m for m in MARKS if text.startswith(m, at)), None)
            if mark is None:
                raise Fault("Lex")
            found.append(("mark", mark, at, line))
            at += len(mark)
    return found


def letters(name):
    return "[" + ", ".join(str(ord(c)) for c in name) + "]"


def listed(parts):
    return "[" + ", ".join(parts) + "]"


def at(form, token):
    return f"{form}@{token[2]}:{token[3]}"


class Reader:
    """Each rule gives the printed form of its tree, and how many levels it has."""

    def __init__(self, text):
        self.tokens, self.next, self.length = tokens_of(text), 0, len(text)

    def sees(self, *spellings, ahead=0):
        token = self.tokens[self.next + ahead:self.next + ahead + 1]
        return bool(token) and token[0][0] in ("mark", "key") and token[0][1] in spellings

    def kind(self, ahead=0):
        token = self.tokens[self.next + ahead:self.next + ahead + 1]
        return token[0][0] if token else None

    def stop(self, at):
        raise Fault(f"Syntax({self.tokens[at][2] if at < len(self.tokens) else self.length})")

    def take(self, *spellings):
        if self.next == len(self.tokens) or (spellings and not self.sees(*spellings)):
            self.stop(self.next)
        self.next += 1
        return self.tokens[self.next - 1]

    def name(self):
        if self.kind() != "name":
            self.stop(self.next)
        return self.take()

    # expressions
    def base(self):
        words, first = [], self.next
        while self.sees(*TYPE_WORDS):
            words.append(self.take()[1])
        found = TYPES.get(tuple(sorted(words)))
        if found is None:
            self.stop(first)
        return "Void" if found == "Void" else f"Int({found})"

    def primary(self):
        if self.kind() == "name":
            name = self.take()
            if self.sees("("):
                self.take()
                args = []
                while not self.sees(")") or args:
                    args.append(self.assign())
                    if not self.sees(","):
                        break
                    self.take()
                self.take(")")
                return at(f"Call({letters(name[1])}, {listed([a for a, n in args])})", name), 1 + max([n for a, n in args], default=0)
            if self.sees("["):
                bracket = self.take()
                index, levels = self.expr()
                self.take("]")
                return at(f"Index({letters(name[1])}, {name[2]}, {name[3]}, {index})", bracket), 1 + levels
            return at(f"Name({letters(name[1])})", name), 1
        if self.kind() == "number":
            token = self.take()
            return at(token[1], token), 1
        if self.kind() == "eof":
            return at("EofName", self.take()), 1
        token = self.take("(")
        inner, levels = self.expr()
        self.take(")")
        return at(f"Paren({inner})", token), 1 + levels

    def unary(self):
        if self.sees("++", "--"):
            token = self.take()
            inner, levels = self.unary()
            return at(f"Before({'Add' if token[1] == '++' else 'Sub'}, {inner})", token), 1 + levels
        if self.sees(*SIGNS):
            token = self.take()
            inner, levels = self.cast()
            return at(f"{SIGNS[token[1]]}({inner})", token), 1 + levels
        whole, levels = self.primary()
        while self.sees("++", "--"):
            token = self.take()
            whole, levels = at(f"After({'Add' if token[1] == '++' else 'Sub'}, {whole})", token), 1 + levels
        return whole, levels

    def cast(self):
        if self.sees("(") and self.sees(*TYPE_WORDS, ahead=1):
            token = self.take()
            base = self.base()
            self.take(")")
            inner, levels = self.cast()
            return at(f"Cast({base}, {inner})", token), 1 + levels
        return self.unary()

    def binary(self, level):
        if level == 0:
            return self.cast()
        left, levels = self.binary(level - 1)
        while self.sees(*LEVELS[level - 1]):
            token = self.take()
            right, others = self.binary(level - 1)
            form = {"&&": "AndAlso(", "||": "OrElse("}.get(token[1]) or f"Binary({OPERATORS[token[1]]}, "
            left, levels = at(f"{form}{left}, {right})", token), 1 + max(levels, others)
        return left, levels

    def cond(self):
        test, levels = self.binary(10)
        if not self.sees("?"):
            return test, levels
        token = self.take()
        first, n = self.expr()
        self.take(":")
        second, m = self.cond()
        return at(f"Choose({test}, {first}, {second})", token), 1 + max(levels, n, m)

    def assign(self):
        left, levels = self.cond()
        if not self.sees("=", *[o + "=" for o in "* / % + - << >> & ^ |".split()]):
            return left, levels
        if not UNARY.match(left):
            self.stop(self.next)
        token = self.take()
        op = "None" if token[1] == "=" else f"Some({OPERATORS[token[1][:-1]]})"
        right, others = self.assign()
        return at(f"Assign({op}, {left}, {right})", token), 1 + max(levels, others)

    def expr(self):
        left, levels = self.assign()
        while self.sees(","):
            token = self.take()
            right, others = self.assign()
            left, levels = at(f"Comma({left}, {right})", token), 1 + max(levels, others)
        return left, levels

    def optional(self, behind):
        if self.sees(behind):
            return "None", 0
        whole, levels = self.expr()
        return f"Some({whole})", levels

    # declarations
    def var(self, base):
        name = self.name()
        size, levels = "Scalar", 0
        if self.sees("["):
            self.take()
            size = "Unsized"
            if not self.sees("]"):
                length, levels = self.cond()
                size = f"Len({length})"
            self.take("]")
        init = "Absent"
        if self.sees("="):
            self.take()
            if self.sees("{"):
                self.take()
                values = [self.assign()]
                while self.sees(",") and not self.sees("}", ahead=1):
                    self.take()
                    values.append(self.assign())
                if self.sees(","):
                    self.take()
                self.take("}")
                init = f"List({listed([v for v, n in values])})"
                levels = max([levels] + [n for v, n in values])
            else:
                value, n = self.assign()
                init, levels = f"One({value})", max(levels, n)
        return at(f"Var {{ base: {base}, name: {letters(name[1])}, size: {size}, init: {init}", name), levels

    def vars(self):
        base = self.base()
        found = [self.var(base)]
        while self.sees(","):
            self.take()
            found.append(self.var(base))
        self.take(";")
        return listed([v for v, n in found]), max(n for v, n in found)

    # statements
    def item(self):
        if self.sees(*TYPE_WORDS):
            found, levels = self.vars()
            return f"Vars({found})", 1 + levels
        return self.stmt()

    def items(self):
        self.take("{")
        found = []
        while not self.sees("}"):
            found.append(self.item())
        self.take("}")
        return listed([s for s, n in found]), max([n for s, n in found], default=0)

    def closed(self):
        self.take("(")
        whole, levels = self.expr()
        self.take(")")
        return whole, levels

    def stmt(self):
        if self.sees("{"):
            found, levels = self.items()
            return f"Block({found})", 1 + levels
        rule = {"if": self.if_, "while": self.while_, "do": self.do, "for": self.for_, "switch": self.switch, "break": self.leave,
                "continue": self.leave, "return": self.return_}
        if self.kind() == "key" and self.tokens[self.next][1] in rule:
            return rule[self.tokens[self.next][1]](self.take())
        value, levels = self.optional(";")
        self.take(";")
        return ("Empty" if value == "None" else f"Value({value[5:-1]})"), 1 + levels

    def if_(self, word):
        test, n = self.closed()
        first, m = self.stmt()
        if not self.sees("else"):
            return f"If({test}, {first}, None)", 1 + max(n, m)
        self.take()
        second, k = self.stmt()
        return f"If({test}, {first}, Some({second}))", 1 + max(n, m, k)

    def while_(self, word):
        test, n = self.closed()
        body, m = self.stmt()
        return f"While({test}, {body})", 1 + max(n, m)

    def do(self, word):
        body, n = self.stmt()
        line = self.take("while")[3]
        test, m = self.closed()
        self.take(";")
        return f"DoWhile({body}, {test}, {line})", 1 + max(n, m)

    def for_(self, word):
        self.take("(")
        if self.sees(*TYPE_WORDS):
            found, n = self.vars()
            first, n = f"Some(Vars({found}))", 1 + n
        else:
            value, n = self.optional(";")
            self.take(";")
            first, n = ("None", 0) if value == "None" else (f"Some(Value({value[5:-1]}))", 1 + n)
        test, m = self.optional(";")
        self.take(";")
        step, k = self.optional(")")
        self.take(")")
        body, i = self.stmt()
        return f"For(ForHead {{ first: {first}, test: {test}, step: {step}, {body})", 1 + max(n, m, k, i)

    def switch(self, word):
        value, n = self.closed()
        self.take("{")
        found = []
        while not self.sees("}"):
            found.append(self.switch_item())
        self.take("}")
        return f"Switch({value}, {listed([s for s, m in found])})", 1 + max([n] + [m for s, m in found])

    def switch_item(self):
        if self.sees("case"):
            word = self.take()
            value, n = self.cond()
            self.take(":")
            return f"Case({value}, {word[2]})", n
        if self.sees("default"):
            word = self.take()
            self.take(":")
            return f"Default({word[2]})", 0
        found, n = self.item()
        return f"Item({found})", n

    def leave(self, word):
        self.take(";")
        return f"{word[1].capitalize()}({word[2]}, {word[3]})", 1

    def return_(self, word):
        value, n = self.optional(";")
        self.take(";")
        return f"Return({value}, {word[2]}, {word[3]})", 1 + n

    # sources
    def param(self):
        start = self.tokens[self.next][2] if self.next < len(self.tokens) else 0
        base = self.base()
        if self.kind() == "name":
            name = self.take()
            return f"Param {{ base: {base}, name: Some({letters(name[1])})@{name[2]}", True
        return f"Param {{ base: {base}, name: None@{start}", False

    def outer(self):
        ahead = 0
        while self.sees(*TYPE_WORDS, ahead=ahead):
            ahead += 1
        if not (self.kind(ahead) == "name" and self.sees("(", ahead=ahead + 1)):
            found, levels = self.vars()
            return f"Vars({found})", levels
        base, name = self.base(), self.take()
        self.take("(")
        params = []
        if self.sees("void") and self.sees(")", ahead=1):
            self.take()
        elif not self.sees(")"):
            params.append(self.param())
            while self.sees(","):
                self.take()
                params.append(self.param())
        self.take(")")
        head = at(f"Head {{ base: {base}, name: {letters(name[1])}, params: {listed([p for p, named in params])}", name)
        if self.sees(";"):
            self.take()
            return f"Prototype({head})", 0
        if not all(named for p, named in params):
            self.stop(self.next)
        body, levels = self.items()
        return f"Function({head}, {body})", levels

    def source(self, end):
        found = []
        while self.next < len(self.tokens):
            found.append(self.outer())
        if max([n for o, n in found], default=0) > MOST_LEVELS:
            raise Fault("TooDeep")
        return f"Tree {{ outers: {listed([o for o, n in found])}, end: {end}"


def brief(text):
    try:
        reader = Reader(text)
        kinds = reader.tokens
        end = 0
        if kinds:
            last = kinds[-1]
            end = last[2] + len(re.compile(r"[A-Za-z_0-9.]+|'(\\.[^']*|[^'])'|" + "|".join(re.escape(m) for m in MARKS)).match(text, last[2]).group())
        return reader.source(end)
    except Fault as fault:
        return str(fault)
