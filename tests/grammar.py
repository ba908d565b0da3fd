"""A second parser of the subset, written apart from the program: where does a text stop being the beginning of a program?

`refusal(text)` answers None where the text spells a program, and else the line, the column and the kind, `Syntax` or `Nested`,
of the first token with which no program goes on. It asks that the text has no fault of the lexis, and it knows neither line
markers nor the limits on nodes and depth.
"""
import re

TOKEN = re.compile(r"""[A-Za-z_]\w*|\d\w*|"(?:[^"\\\n]|\\.)*"|'(?:[^'\\\n]|\\.)*'|<<=|>>=|->|\+\+|--|<<|>>|[-+*/%&|^<>=!]=|&&|\|\||\S""", re.A)
SKIP = re.compile(r"\s+|/\*.*?\*/|//[^\n]*|^[ \t]*#[^\n]*", re.S | re.M)
KEYWORDS = set("""break case char const continue default do else enum extern for goto if int long return short signed sizeof static
struct switch typedef unsigned void volatile while auto double float inline register restrict union _Alignas _Alignof _Atomic _Bool
_Complex _Generic _Imaginary _Noreturn _Static_assert _Thread_local""".split())
BUILT_IN = """size_t ssize_t off_t time_t clock_t ptrdiff_t intptr_t int64_t uintptr_t uint64_t pthread_t nfds_t pid_t clockid_t int32_t
sig_atomic_t uid_t gid_t mode_t socklen_t uint32_t in_addr_t uint16_t sa_family_t in_port_t int16_t uint8_t int8_t sigset_t siginfo_t
FILE pthread_attr_t pthread_mutex_t pthread_mutexattr_t pthread_cond_t pthread_condattr_t sem_t fd_set""".split()
WORDS = ("void", "char", "short", "int", "long", "signed", "unsigned")
BINARY = {op: level for level, ops in enumerate("|| && | ^ & ==,!= <,>,<=,>= <<,>> +,- *,/,%".split(), 4) for op in ops.split(",")}
ASSIGN = {"=", "*=", "/=", "%=", "+=", "-=", "<<=", ">>=", "&=", "^=", "|="}


class Refused(Exception):
    pass


def tokens_of(text):
    found, at = [], 0
    while at < len(text):
        gap = SKIP.match(text, at)
        if gap and gap.end() > at:
            at = gap.end()
            continue
        token = TOKEN.match(text, at)
        found.append((token.group(), at))
        at = token.end()
    return found


def is_type(words):
    """Whether these words of a type, in this order, name one."""
    if words in (["void"], ["char"], ["signed", "char"], ["unsigned", "char"], ["whole"]):
        return True
    count = {word: words.count(word) for word in WORDS}
    if not words or "whole" in words or count["void"] or count["char"]:
        return False
    sign, long, short = count["signed"] + count["unsigned"], count["long"], count["short"]
    return sign <= 1 and count["int"] <= 1 and short <= 1 and long <= 2 and not (short and long)


class Parser:
    def __init__(self, tokens):
        self.tokens = tokens
        self.at = 0
        self.types = set(BUILT_IN)
        self.others = set()
        # the name of the typedef whose declarator is read
        self.own = None

    # ---- tokens

    def kind(self):
        if self.at == len(self.tokens):
            return "end"
        text = self.tokens[self.at]
        if text[0].isalpha() or text[0] == "_":
            return text if text in KEYWORDS else "type" if text in self.types else "name"
        return "integer" if text[0].isdigit() else "string" if text[0] == '"' else "character" if text[0] == "'" else text

    def refuse(self):
        raise Refused

    def take(self, *kinds):
        if kinds and self.kind() not in kinds:
            self.refuse()
        self.at += 1
        return self.tokens[self.at - 1]

    def skip(self, *kinds):
        if self.kind() in kinds:
            self.at += 1
            return True
        return False

    def declare(self):
        """A name that is declared as anything but a type."""
        if self.kind() != "name" or self.tokens[self.at] == self.own:
            self.refuse()
        self.others.add(self.take())

    def begins_type(self):
        return self.kind() in WORDS + ("const", "volatile", "struct", "enum", "type")

    # ---- types

    def specifiers(self):
        """Whether there is a struct or an enum among them."""
        words, tag = [], False
        while True:
            kind = self.kind()
            if kind in ("const", "volatile"):
                self.take()
                continue
            word = kind if kind in WORDS else "whole" if kind in ("struct", "enum", "type") else None
            if word is None or not is_type(words + [word]):
                break
            words.append(word)
            self.take()
            if kind != "type" and word == "whole":
                tag = True
                tagged = self.skip("name", "type")
                if self.skip("{"):
                    self.members() if kind == "struct" else self.enumerators()
                elif not tagged:
                    self.refuse()
        if not words:
            self.refuse()
        return tag

    def members(self):
        while True:
            self.specifiers()
            self.declarator(False)
            while self.skip(","):
                self.declarator(False)
            self.take(";")
            if self.skip("}"):
                return

    def enumerators(self):
        while True:
            self.declare()
            if self.skip("="):
                self.expression(3)
            if self.skip("}"):
                return
            self.take(",")
            if self.skip("}"):
                return

    def stars(self):
        while self.skip("*"):
            self.qualifiers()

    def qualifiers(self):
        while self.skip("const", "volatile"):
            pass

    def sizes(self, most):
        while most and self.skip("["):
            most -= 1
            if not self.skip("]"):
                self.expression(3)
                self.take("]")

    def parameters(self):
        if self.skip(")"):
            return
        while True:
            self.parameter()
            if self.skip(")"):
                return
            self.take(",")

    def pointer(self, named):
        """Behind the bracket of a pointer to a function, which has a name, has none, or may have one (None)."""
        self.take("*")
        self.qualifiers()
        if named or (named is None and self.kind() != ")"):
            self.declare()
            self.sizes(1)
        self.take(")")
        self.take("(")
        self.parameters()

    def parameter(self):
        self.specifiers()
        self.stars()
        if self.kind() == "name":
            self.declare()
            self.sizes(-1)
        elif self.skip("("):
            self.pointer(None)

    def type_name(self):
        self.specifiers()
        self.stars()
        if self.skip("("):
            self.pointer(False)

    def declarator(self, may_be_function, new=None):
        """Whether it is a function. new: called in place of declare, for the name of a typedef."""
        self.stars()
        if self.skip("("):
            self.take("*")
            self.qualifiers()
            (new or self.declare)()
            self.sizes(1)
            self.take(")")
            self.take("(")
            self.parameters()
            return False
        (new or self.declare)()
        if self.kind() == "[":
            self.sizes(-1)
        elif may_be_function and self.skip("("):
            self.parameters()
            return True
        return False

    # ---- expressions

    def expression(self, least):
        level = self.operand(least)
        while True:
            kind = self.kind()
            own, left = (1, 1) if kind == "," else (2, 15) if kind in ASSIGN else (3, 4) if kind == "?" else (BINARY[kind],) * 2 if kind in BINARY else (16, 16) if kind in ("[", "(", ".", "->", "++", "--") else (0, 99)
            if own < least or left > level:
                return
            self.take()
            if own in (1, 2):
                self.expression(2)
            elif own == 3:
                self.expression(1)
                self.take(":")
                self.expression(3)
            elif own < 16:
                self.expression(own + 1)
            elif kind == "[":
                self.expression(1)
                self.take("]")
            elif kind == "(":
                self.arguments()
            elif kind in (".", "->"):
                self.take("name")
            level = own

    def arguments(self):
        if self.skip(")"):
            return
        while True:
            self.expression(2)
            if self.skip(")"):
                return
            self.take(",")

    def operand(self, least):
        kind = self.kind()
        if kind in ("name", "integer", "character"):
            self.take()
            return 17
        if kind == "string":
            while self.skip("string"):
                pass
            return 17
        if self.skip("("):
            if self.begins_type() and least <= 14:
                self.type_name()
                self.take(")")
                self.expression(14)
                return 14
            self.expression(1)
            self.take(")")
            return 17
        if self.skip("sizeof"):
            if self.kind() == "(":
                self.take()
                if self.begins_type():
                    self.type_name()
                    self.take(")")
                    return 15
                self.at -= 1
            self.expression(15)
            return 15
        if self.skip("++", "--"):
            self.expression(15)
            return 15
        self.take("&", "*", "+", "-", "~", "!")
        self.expression(14)
        return 15

    # ---- declarations

    def initializer(self):
        if not self.skip("{"):
            return self.expression(2)
        while True:
            if self.skip("."):
                self.take("name")
                self.take("=")
            self.initializer()
            if self.skip("}"):
                return
            self.take(",")
            if self.skip("}"):
                return

    def declaration(self):
        """Inside a function."""
        self.skip("static", "extern")
        if self.specifiers() and self.skip(";"):
            return
        while True:
            if not self.declarator(True) and self.skip("="):
                self.initializer()
            if self.skip(";"):
                return
            self.take(",")

    def type_declarator(self):
        own = []

        def new():
            if self.kind() != "name" or self.tokens[self.at] in self.others:
                self.refuse()
            self.own = self.take()
            own.append(self.own)

        self.declarator(True, new)
        self.own = None
        self.types.add(own[0])

    def item(self):
        storage = self.take() if self.kind() in ("static", "extern", "typedef") else None
        if self.specifiers() and self.skip(";"):
            return
        first = True
        while True:
            if storage == "typedef":
                self.type_declarator()
            else:
                is_function = self.declarator(True)
                if is_function and first and self.skip("{"):
                    self.block(set())
                    return
                if not is_function and self.skip("="):
                    self.initializer()
            first = False
            if self.skip(";"):
                return
            self.take(",")

    # ---- statements: around has `loop` and `switch`

    def block(self, around, cases=False):
        while not self.skip("}"):
            self.statement(around, True, cases)

    def bracketed(self):
        self.take("(")
        self.expression(1)
        self.take(")")

    def optional(self, end):
        if not self.skip(end):
            self.expression(1)
            self.take(end)

    def statement(self, around, in_block=False, cases=False):
        kind = self.kind()
        if self.skip("{"):
            self.block(around)
        elif self.skip("if"):
            self.bracketed()
            self.statement(around)
            if self.skip("else"):
                self.statement(around)
        elif self.skip("while"):
            self.bracketed()
            self.statement(around | {"loop"})
        elif self.skip("do"):
            self.statement(around | {"loop"})
            self.take("while")
            self.bracketed()
            self.take(";")
        elif self.skip("for"):
            self.take("(")
            if self.begins_type() or self.kind() in ("static", "extern"):
                self.declaration()
            else:
                self.optional(";")
            self.optional(";")
            self.optional(")")
            self.statement(around | {"loop"})
        elif self.skip("switch"):
            self.bracketed()
            self.take("{")
            self.block(around | {"switch"}, True)
        elif cases and self.skip("case"):
            self.expression(3)
            self.take(":")
        elif cases and self.skip("default"):
            self.take(":")
        elif around and self.skip("break"):
            self.take(";")
        elif "loop" in around and self.skip("continue"):
            self.take(";")
        elif self.skip("return"):
            self.optional(";")
        elif self.skip("goto"):
            self.take("name")
            self.take(";")
        elif in_block and (self.begins_type() or kind in ("static", "extern")):
            self.declaration()
        elif in_block and kind == "name" and self.tokens[self.at + 1 : self.at + 2] == [":"]:
            self.declare()
            self.take(":")
        else:
            self.optional(";")

    def program(self):
        while self.kind() != "end":
            self.item()


def first_nested(tokens):
    opened = 0
    for number, token in enumerate(tokens):
        opened += (token in "([{") - (token in ")]}")
        if opened > 100:
            return number
    return len(tokens) + 1


def refusal(text):
    found = tokens_of(text)
    tokens = [token for token, _ in found]
    parser, kind = Parser(tokens), "Syntax"
    at = len(tokens) + 1
    try:
        parser.program()
    except Refused:
        at = parser.at
    nested = first_nested(tokens)
    if nested <= at and nested < len(tokens):
        at, kind = nested, "Nested"
    if at > len(tokens):
        return None
    place = found[at][1] if at < len(tokens) else len(text)
    return text.count("\n", 0, place) + 1, place - (text.rfind("\n", 0, place) + 1) + 1, kind
