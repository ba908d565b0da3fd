#!/usr/bin/env python3
"""The first misfit of a program: what `c_environment`, `c_rules`, `c_declared` and `c_judged` define, written once more and apart from them.

`answer(text)` is what is to be printed of a text that spells a program, certified as a.c, behind the status: `fits` where no rule of names
and kinds is broken. What is said of each node is kept in preorder, as `c_declared/specs/Said.antt` has it: a kind, a rule that is broken,
that it waits for a part, or nothing.

usage: tests/misfits.py FILE...
"""
import collections
import pathlib
import sys

import grammar
from built_in_names import LEFT_OUT, OPEN, STRUCTURES, TYPES, VALUES
from function_table import SAFE, UNSAFE

ROWS = {name: (row.split()[0][1:-1].split(",") if row.split()[0] != "()" else [], row.split()[1]) for table in (SAFE, UNSAFE) for row, names in table.items() for name in names.split()}
WAITS, SILENT = ("waits",), ("silent",)
VOID, INT, LONG, SIZE, CHAR, SET, KERNEL = ("void",), ("int", 32, True), ("int", 64, True), ("int", 64, False), ("int", 8, True), ("set",), ("kernel",)


def ptr(k):
    return ("ptr", k)


def fn(ks, k):
    return ("fn", tuple(ks), k)


HANDLER = fn([INT], VOID)


# Which constants an expression is: one of a size, one of a static object's initialiser, the place of such an object.
Constness = collections.namedtuple("Constness", "size fixed lasting")
NEVER = Constness(False, False, False)


class Tree(grammar.Parser):
    """The parser, which builds trees: tuples of a word, the first token's number, and the parts."""

    def specifiers(self):
        words, all_ = [], []
        while True:
            kind, first = self.kind(), self.at
            if kind in ("const", "volatile"):
                all_.append((self.take(),))
                continue
            word = kind if kind in grammar.WORDS else "whole" if kind in ("struct", "enum", "type") else None
            if word is None or not grammar.is_type(words + [word]):
                break
            words.append(word)
            text = self.take()
            if kind == "type":
                all_.append(("type", text))
            elif word == "whole":
                tag = self.take() if self.kind() in ("name", "type") else None
                if self.skip("{"):
                    all_.append((kind + "_of", tag, self.members() if kind == "struct" else self.enumerators()))
                else:
                    all_.append((kind + "_tag", tag))
            else:
                all_.append((text,))
        return all_

    def members(self):
        all_ = []
        while True:
            specs, names = self.specifiers(), [self.declarator(False)]
            while self.skip(","):
                names.append(self.declarator(False))
            self.take(";")
            all_.append((specs, names))
            if self.skip("}"):
                return all_

    def enumerators(self):
        all_ = []
        while True:
            first = self.at
            name = self.name()
            all_.append((first, name, self.expression(3) if self.skip("=") else None))
            if self.skip("}") or (self.take(",") and self.skip("}")):
                return all_

    def name(self):
        self.declare()
        return self.tokens[self.at - 1]

    def stars(self):
        all_ = []
        while self.skip("*"):
            all_.append(self.qualifiers())
        return all_

    def qualifiers(self):
        all_ = []
        while self.kind() in ("const", "volatile"):
            all_.append(self.take())
        return all_

    def sizes(self, most):
        all_ = []
        while most and self.skip("["):
            most -= 1
            if self.skip("]"):
                all_.append(None)
            else:
                all_.append(self.expression(3))
                self.take("]")
        return all_

    def parameters(self):
        if self.kind() == "void" and self.tokens[self.at + 1] == ")":
            self.at += 2
            return []
        all_ = []
        if self.skip(")"):
            return all_
        while True:
            all_.append(self.parameter())
            if self.skip(")"):
                return all_
            self.take(",")

    def pointer(self, first, stars, named):
        self.take("*")
        quals, name, sizes = self.qualifiers(), None, []
        if named or (named is None and self.kind() != ")"):
            name = self.name() if named is not self else named.name()
            sizes = self.sizes(1)
        self.take(")")
        self.take("(")
        return ("pointer", first, stars, quals, name, sizes, self.parameters())

    def parameter(self):
        start = self.at
        specs, first = self.specifiers(), self.at
        stars = self.stars()
        if self.kind() == "name":
            name = self.name()
            sizes = self.sizes(-1)
            return (start, specs, ("array", first, stars, name, sizes) if sizes else ("plain", first, stars, name))
        if self.skip("("):
            return (start, specs, self.pointer(first, stars, None))
        return (start, specs, ("plain", first, stars, None))

    def type_name(self):
        specs, first = self.specifiers(), self.at
        stars = self.stars()
        return (specs, self.pointer(first, stars, False) if self.skip("(") else ("plain", first, stars, None))

    def declarator(self, may_be_function, new=None):
        first, stars = self.at, self.stars()
        new = new or self.name
        if self.skip("("):
            self.take("*")
            quals, name = self.qualifiers(), new()
            sizes = self.sizes(1)
            self.take(")")
            self.take("(")
            return ("pointer", first, stars, quals, name, sizes, self.parameters())
        name = new()
        if self.kind() == "[":
            return ("array", first, stars, name, self.sizes(-1))
        if may_be_function and self.skip("("):
            return ("function", first, stars, name, self.parameters())
        return ("plain", first, stars, name)

    # ---- expressions

    def expression(self, least):
        first = self.at
        x, level = self.operand(least)
        while True:
            kind = self.kind()
            own, left = (1, 1) if kind == "," else (2, 15) if kind in grammar.ASSIGN else (3, 4) if kind == "?" else (grammar.BINARY[kind],) * 2 if kind in grammar.BINARY else (16, 16) if kind in ("[", "(", ".", "->", "++", "--") else (0, 99)
            if own < least or left > level:
                return x
            self.take()
            if own == 1:
                x = ("comma", first, x, self.expression(2))
            elif own == 2:
                x = ("assign", first, kind, x, self.expression(2))
            elif own == 3:
                y = self.expression(1)
                self.take(":")
                x = ("choose", first, x, y, self.expression(3))
            elif own < 16:
                x = ("binary", first, kind, x, self.expression(own + 1))
            elif kind == "[":
                x = ("index", first, x, self.expression(1))
                self.take("]")
            elif kind == "(":
                x = ("call", first, x, self.arguments())
            elif kind in (".", "->"):
                x = ("dot" if kind == "." else "arrow", first, x, self.take("name"))
            else:
                x = ("step", first, x)
            level = own

    def arguments(self):
        all_ = []
        if self.skip(")"):
            return all_
        while True:
            all_.append(self.expression(2))
            if self.skip(")"):
                return all_
            self.take(",")

    def operand(self, least):
        kind, first = self.kind(), self.at
        if kind in ("name", "integer", "character"):
            return (kind, first, self.take()), 17
        if kind == "string":
            while self.skip("string"):
                pass
            return ("text", first), 17
        if self.skip("("):
            if self.begins_type() and least <= 14:
                t = self.type_name()
                self.take(")")
                return ("cast", first, t, self.expression(14)), 14
            x = self.expression(1)
            self.take(")")
            return ("paren", first, x), 17
        if self.skip("sizeof"):
            if self.kind() == "(":
                self.take()
                if self.begins_type():
                    t = self.type_name()
                    self.take(")")
                    return ("size_of_type", first, t), 15
                self.at -= 1
            return ("size_of", first, self.expression(15)), 15
        if self.skip("++", "--"):
            return ("step", first, self.expression(15)), 15
        o = self.take("&", "*", "+", "-", "~", "!")
        return ("unary", first, o, self.expression(14)), 15

    # ---- declarations

    def initializer(self):
        first = self.at
        if not self.skip("{"):
            return ("single", self.expression(2))
        parts = []
        while True:
            name = None
            if self.skip("."):
                name = self.take("name")
                self.take("=")
            parts.append((name, self.initializer()))
            if self.skip("}") or (self.take(",") and self.skip("}")):
                return ("listed", first, parts)

    def declaration(self):
        first = self.at
        storage = self.take() if self.kind() in ("static", "extern") else None
        specs, names = self.specifiers(), []
        if self.skip(";"):
            return ("decl", first, storage, specs, names)
        while True:
            d = self.declarator(True)
            names.append((d, self.initializer() if d[0] != "function" and self.skip("=") else None))
            if self.skip(";"):
                return ("decl", first, storage, specs, names)
            self.take(",")

    def type_declarator(self):
        own = []

        def new():
            self.own = self.take()
            own.append(self.own)
            return self.own

        d = self.declarator(True, new)
        self.own = None
        self.types.add(own[0])
        return d

    def item(self):
        first = self.at
        storage = self.take() if self.kind() in ("static", "extern", "typedef") else None
        specs, names = self.specifiers(), []
        if self.skip(";"):
            return ("decl", first, storage, specs, names)
        while True:
            if storage == "typedef":
                names.append((self.type_declarator(), None))
            else:
                d = self.declarator(True)
                if d[0] == "function" and not names and self.kind() == "{":
                    at = self.at
                    self.take()
                    return ("function", first, storage, specs, d[2], d[3], d[4], ("block", at, self.block(set())))
                names.append((d, self.initializer() if d[0] != "function" and self.skip("=") else None))
            if self.skip(";"):
                return ("decl", first, storage, specs, names)
            self.take(",")

    # ---- statements

    def block(self, around, cases=False):
        all_ = []
        while not self.skip("}"):
            all_.append(self.statement(around, True, cases))
        return all_

    def bracketed(self):
        self.take("(")
        x = self.expression(1)
        self.take(")")
        return x

    def optional(self, end):
        if self.skip(end):
            return None
        x = self.expression(1)
        self.take(end)
        return x

    def statement(self, around, in_block=False, cases=False):
        kind, first = self.kind(), self.at
        if self.skip("{"):
            return ("block", first, self.block(around))
        if self.skip("if"):
            x, s = self.bracketed(), self.statement(around)
            return ("if", first, x, s, self.statement(around) if self.skip("else") else None)
        if self.skip("while"):
            return ("while", first, self.bracketed(), self.statement(around | {"loop"}))
        if self.skip("do"):
            s = self.statement(around | {"loop"})
            self.take("while")
            x = self.bracketed()
            self.take(";")
            return ("do", first, s, x)
        if self.skip("for"):
            self.take("(")
            start = self.declaration() if self.begins_type() or self.kind() in ("static", "extern") else ("start", self.optional(";"))
            return ("for", first, start, self.optional(";"), self.optional(")"), self.statement(around | {"loop"}))
        if self.skip("switch"):
            x, at = self.bracketed(), self.at
            self.take("{")
            return ("switch", first, x, ("block", at, self.block(around | {"switch"}, True)))
        if cases and self.skip("case"):
            x = self.expression(3)
            self.take(":")
            return ("case", first, x)
        if cases and self.skip("default"):
            self.take(":")
            return ("default", first)
        if self.skip("break") or self.skip("continue"):
            self.take(";")
            return ("jump", first)
        if self.skip("return"):
            return ("return", first, self.optional(";"))
        if self.skip("goto"):
            n = self.take("name")
            self.take(";")
            return ("goto", first, n)
        if in_block and (self.begins_type() or kind in ("static", "extern")):
            return self.declaration()
        if in_block and kind == "name" and self.tokens[self.at + 1 : self.at + 2] == [":"]:
            n = self.name()
            self.take(":")
            return ("label", first, n)
        return ("expression", first, self.optional(";"))

    def program(self):
        all_ = []
        while self.kind() != "end":
            all_.append(self.item())
        return all_


# ---- kinds

def word(k):
    return k[0]


def decayed(k):
    return ptr(k[1]) if k[0] == "arr" else k


def innermost(k):
    while k[0] == "arr":
        k = k[1]
    return k


def matches(k, l):
    if k[0] == "int" and l[0] == "int" or k[0] in ("ptr", "arr") and l[0] == "ptr":
        return True
    if k[0] == "struct" and l[0] == "struct":
        return k[1] == l[1]
    if k == SET and l == SET:
        return True
    return k[0] == "fn" and l[0] == "fn" and [word(x) for x in k[1]] == [word(x) for x in l[1]] and word(k[2]) == word(l[2])


def agrees(k, l):
    if k[0] == "arr" and l[0] == "arr":
        return agrees(k[1], l[1])
    return k == KERNEL and l == KERNEL or matches(k, l) or matches(l, k)


def is_condition(k):
    return decayed(k)[0] in ("int", "ptr", "fn")


def promoted(k):
    return INT if k[1] < 32 else k


def common(k, l):
    k, l = promoted(k), promoted(l)
    if k[2] == l[2]:
        return k if k[1] >= l[1] else l
    u, s = (k, l) if not k[2] else (l, k)
    return u if u[1] >= s[1] else s


# ---- operands: (judgement, constant, designates, based)

FITS = lambda k: ("fits", k)
FAILS = lambda m: ("fails", m)


def kind_of(j):
    return j[1] if j[0] == "fits" else None


def is_settled(j):
    return j[0] in ("fits", "silent") or j == ("fails", "LibraryAsValue")


def stands_for(c, due):
    return c in ("zero", "null") and due[0] in ("ptr", "fn") or c == "disposition" and due[0] == "fn"


def may_stand(c, k, due):
    return matches(k, due) or stands_for(c, due)


def is_accepted(due, c, k):
    return k is None or may_stand(c, k, due)


def initialiser_misfit(due, x):
    k, c = kind_of(x[0]), x[1]
    if k is None or may_stand(c, k, due) or c == "text" and due[0] == "arr" and due[1][0] == "int" and due[1][1] == 8 or c == "initializer" and due == KERNEL:
        return None
    return "KindMismatch"


def after(xs, rule):
    """A rule by kinds: asked where all are settled, and silent of kinds that are missing."""
    if not all(is_settled(x[0]) for x in xs):
        return WAITS
    ks = [kind_of(x[0]) for x in xs]
    return WAITS if None in ks else rule(*ks)


def if_(holds, k):
    return FITS(k) if holds else FAILS("KindMismatch")


def arithmetic(k, l):
    return FITS(common(k, l)) if k[0] == "int" and l[0] == "int" else FAILS("KindMismatch")


def compatible(c, e, k, l):
    return may_stand(c, k, decayed(l)) or may_stand(e, l, decayed(k))


def binary(o, x, y):
    def rule(k, l):
        if o in ("&&", "||"):
            return if_(is_condition(k) and is_condition(l), INT)
        if o in ("==", "!=", "<", ">", "<=", ">="):
            return if_(is_condition(k) and is_condition(l) and compatible(x[1], y[1], k, l), INT)
        if o in ("<<", ">>"):
            return if_(k[0] == "int" and l[0] == "int", promoted(k) if k[0] == "int" else k)
        if o == "+":
            k, l = decayed(k), decayed(l)
            if k[0] == "ptr" and l[0] == "int":
                return FITS(k)
            if k[0] == "int" and l[0] == "ptr":
                return FITS(l)
        if o == "-":
            k, l = decayed(k), decayed(l)
            if k[0] == "ptr" and l[0] == "int":
                return FITS(k)
            if k[0] == "ptr" and l[0] == "ptr":
                return FITS(LONG)
        return arithmetic(k, l)

    return after([x, y], rule)


def choose(w, x, y):
    def rule(j, k, l):
        if not is_condition(j):
            return FAILS("KindMismatch")
        if k[0] == "int" and l[0] == "int":
            return arithmetic(k, l)
        if k == VOID and l == VOID:
            return FITS(VOID)
        if not compatible(x[1], y[1], k, l):
            return FAILS("KindMismatch")
        k, l = decayed(k), decayed(l)
        if ptr(VOID) in (k, l):
            return FITS(ptr(VOID))
        return FITS(l if x[1] in ("zero", "null", "disposition") else k)

    return after([w, x, y], rule)


def unary(o, x):
    def rule(k):
        d = x[2]
        if o == "&":
            return FAILS("LeftOut") if d == "errno" else FITS(ptr(k)) if d in ("object", "const") else FITS(k) if d in ("function", "library") else FAILS("NotAssignable")
        if o == "*":
            if k[0] in ("ptr", "arr"):
                return FAILS("KindMismatch") if k[1] == VOID else FITS(k[1])
            return if_(k[0] == "fn", k)
        if o == "!":
            return if_(is_condition(k), INT)
        return FITS(promoted(k)) if k[0] == "int" else FAILS("KindMismatch")

    return after([x], rule)


def is_modifiable(x):
    k = kind_of(x[0])
    return x[2] in ("object", "errno") and not (k and k[0] == "arr")


def is_step(k):
    return k[0] in ("int", "ptr")


def assign(o, x, y):
    if not (is_settled(x[0]) and is_settled(y[0])):
        return WAITS
    if not is_modifiable(x):
        return FAILS("NotAssignable")
    if o == "=":
        return after([x, y], lambda k, l: if_(may_stand(y[1], l, k), k))
    if o in ("+=", "-="):
        return after([x, y], lambda k, l: if_(is_step(k) and l[0] == "int", k))
    return after([x, y], lambda k, l: if_(k[0] == "int" and l[0] == "int", k))


def step(x):
    if not is_settled(x[0]):
        return WAITS
    return after([x], lambda k: if_(is_step(k), k)) if is_modifiable(x) else FAILS("NotAssignable")


def index(x, y):
    def rule(k, l):
        if l[0] == "int" and (k[0] == "ptr" or k[0] == "arr" and x[3]):
            return FITS(k[1])
        return FAILS("KindMismatch")

    return after([x, y], rule)


def cast(to, x):
    def rule(k):
        k = decayed(k)
        ok = to == VOID or (to[0], k[0]) in (("int", "int"), ("int", "ptr"), ("ptr", "int"), ("ptr", "ptr"), ("fn", "fn")) or to[0] == "fn" and k[0] == "int" and x[1] == "zero"
        return FITS(to) if ok else FAILS("LeftOut")

    return after([x], rule)


def given(xs, k):
    return FITS(k) if all(kind_of(x[0]) for x in xs) else WAITS


def call(f, xs):
    if not all(is_settled(x[0]) for x in [f] + xs):
        return WAITS
    k = kind_of(f[0])
    if k is None:
        return WAITS
    if k[0] != "fn":
        return FAILS("NotCallable")
    if len(xs) != len(k[1]):
        return FAILS("WrongCount")
    return given(xs, k[2]) if all(is_accepted(due, x[1], kind_of(x[0])) for due, x in zip(k[1], xs)) else FAILS("KindMismatch")


def takes(p, c, k):
    pointer = decayed(k)[0] == "ptr"
    sig = lambda ks, r: k[0] == "fn" and [word(x) for x in k[1]] == ks and word(k[2]) == r
    if p == "i":
        return k[0] == "int"
    if p == "0":
        return c in ("zero", "null")
    if p == "H":
        return sig(["int"], "void") or c in ("disposition", "zero", "null")
    if p == "P":
        return sig(["ptr"], "ptr") or c == "disposition"
    if p == "Q":
        return sig([], "void") or c in ("disposition", "zero", "null")
    if p in "y*":
        return k[0] == "int" or pointer
    return pointer or c in ("zero", "null")


def library_call(name, xs):
    row = ROWS[name]
    if not all(is_settled(x[0]) for x in xs):
        return WAITS
    marks = [p.rstrip("?") for p in row[0]]
    fewest = sum(not p.endswith("?") and p != "*" for p in row[0])
    if len(xs) < fewest or "*" not in marks and len(xs) > len(marks):
        return FAILS("WrongCount")
    for i, x in enumerate(xs):
        p, k = marks[min(i, len(marks) - 1)], kind_of(x[0])
        if k is not None and not takes(p, x[1], k):
            return FAILS("KindMismatch")
    r = row[1]
    k = LONG if r == "i" else VOID if r in "v!" else HANDLER if r == "h" else ptr(
        VOID if name in "malloc calloc realloc memchr memcpy memmove memset".split() else KERNEL if name in ("fopen", "popen") else ("struct", 4) if name == "localtime" else CHAR)
    return given(xs, k)


# ---- the environment

class Misfits:
    def __init__(self, items):
        self.names, self.tags, self.structures, self.tagged = [{}], [{}, {}], [], []
        self.linked, self.initialised, self.labels, self.inside = {}, set(), set(), None
        # the operands so far of the expression that is walked over: which constants they are, and their kinds
        self.parts = []
        self.implementation = {}
        for n, k in TYPES.items():
            self.implementation[n] = ("type", dict(kind=k, fn=False, is_open=False, const=False, volatile=False, atomic=n == "sig_atomic_t"))
        for n, v in VALUES.items():
            self.implementation[n] = ("built_in", v)
        for n in OPEN:
            self.implementation[n] = ("built_in", ("opaque",))
        for n in LEFT_OUT:
            self.implementation[n] = ("built_in", ("left_out",))
        self.implementation["errno"] = ("built_in", ("errno",))
        for n in ROWS:
            self.implementation[n] = ("library", n)
        for tag, members in STRUCTURES:
            self.structures.append(dict(members=dict(members), begun=True, complete=True, declared=True))
            if tag:
                self.tags[0][tag] = ("struct", len(self.structures) - 1)
        self.functions = {i[5] for i in items if i[0] == "function"}
        self.objects = {d[3 if d[0] != "pointer" else 4] for i in items if i[0] == "decl" and i[2] != "typedef" for d, init in i[4] if d[0] != "function" and (i[2] != "extern" or init)}
        self.all = []

    def entity(self, n):
        for block in reversed(self.names):
            if n in block:
                return block[n]
        return self.implementation.get(n)

    def here(self, n):
        return self.names[-1].get(n)

    def tag(self, n):
        for block in reversed(self.tags):
            if n in block:
                return block[n]

    def enter(self):
        self.names.append({})
        self.tags.append({})

    def leave(self):
        self.names.pop()
        self.tags.pop()

    def value(self, n):
        e = self.entity(n)
        if e and e[0] == "enumerator":
            return e[1]
        if e and e[0] == "built_in" and e[1][0] == "number":
            return e[1][1]
        return 0 if e and e == ("built_in", ("null",)) else None

    # ---- constants: (type, value or None) or None

    def meaning(self, x):
        word_ = x[0]
        keep = lambda t, z: (t, z if z is not None and -(2**63) <= z < 2**63 else None)
        conv = lambda t, z: z % 2 ** t[1] if not t[2] else (z + 2 ** (t[1] - 1)) % 2 ** t[1] - 2 ** (t[1] - 1)
        if word_ == "name":
            v = self.value(x[2])
            return None if v is None else (INT, v)
        if word_ == "integer":
            t, n = literal(x[2])
            return keep(t, n)
        if word_ == "character":
            return (INT, character(x[2]))
        if word_ == "paren":
            return self.meaning(x[2])
        if word_ == "unary":
            m, o = self.meaning(x[3]), x[2]
            if m is None or o in "&*":
                return None
            t, z = m
            if o == "!":
                return (INT, None if z is None else int(z == 0))
            t = promoted(t)
            if z is None:
                return (t, None)
            z = {"+": z, "-": -z, "~": ~z}[o]
            return keep(t, conv(t, z) if not t[2] else z if -(2 ** (t[1] - 1)) <= z < 2 ** (t[1] - 1) else None)
        if word_ == "binary":
            m, l, o = self.meaning(x[3]), self.meaning(x[4]), x[2]
            return None if m is None or l is None else self.operation(o, m, l, keep, conv)
        if word_ == "choose":
            w, m, l = (self.meaning(y) for y in x[2:5])
            if None in (w, m, l):
                return None
            t = common(m[0], l[0])
            z = None if w[1] is None else m[1] if w[1] else l[1]
            return keep(t, None if z is None else conv(t, z))
        return None

    def operation(self, o, m, l, keep, conv):
        (s, y), (t, z) = m, l
        of = INT if o in ("&&", "||", "==", "!=", "<", ">", "<=", ">=") else promoted(s) if o in ("<<", ">>") else common(s, t)
        if o == "&&" and y == 0:
            return (of, 0)
        if o == "||" and y:
            return (of, 1)
        if y is None or z is None:
            return (of, None)
        if o in ("&&", "||"):
            return (of, int(bool(z)))
        c = common(s, t)
        if o in ("==", "!=", "<", ">", "<=", ">="):
            y, z = conv(c, y), conv(c, z)
            return (of, int({"==": y == z, "!=": y != z, "<": y < z, ">": y > z, "<=": y <= z, ">=": y >= z}[o]))
        if o in ("<<", ">>"):
            y, n = conv(of, y), z
            if not 0 <= n < of[1]:
                return (of, None)
            if o == ">>":
                return keep(of, y >> n)
            if of[2]:
                return keep(of, (y << n) if y >= 0 and (y << n) < 2 ** (of[1] - 1) else None)
            return keep(of, (y << n) % 2 ** of[1])
        y, z = conv(c, y), conv(c, z)
        if o in "/%" and z == 0:
            return (of, None)
        q = None if z == 0 else abs(y) // abs(z) * (1 if (y < 0) == (z < 0) else -1)
        r = {"+": y + z, "-": y - z, "*": y * z, "/": q, "%": None if q is None else y - q * z, "&": y & z, "|": y | z, "^": y ^ z}[o]
        if c[2]:
            low, high = -(2 ** (c[1] - 1)), 2 ** (c[1] - 1)
            if o == "%" and not low <= q < high:
                r = None
            return keep(c, r if r is not None and low <= r < high else None)
        return keep(c, r % 2 ** c[1])

    def constant(self, x):
        m = self.meaning(x)
        return None if m is None else m[1]

    # ---- nodes

    def node(self, first):
        self.all.append([first, WAITS])
        return len(self.all) - 1

    def close(self, at, j):
        self.all[at][1] = j
        return is_settled(j)

    # ---- types

    def structure_number(self, t):
        return t[1] if t and t[0] == "struct" else len(self.structures)

    def new_structure(self, n, declared):
        self.structures.append(dict(members={}, begun=False, complete=False, declared=declared))
        if n is not None:
            self.tags[-1][n] = ("struct", len(self.structures) - 1)
        return len(self.structures) - 1

    def specifiers(self, specs):
        """The type, what is broken, whether the nodes inside are settled, and whether it is a tag that isn't declared."""
        words, whole, broken, settled, unknown = [], None, set(), True, False
        plain = lambda k: dict(kind=k, fn=False, is_open=False, const=False, volatile=False, atomic=False)
        for s in specs:
            words.append(s[0])
            if s[0] == "void":
                whole = plain(VOID)
            elif s[0] == "type":
                whole = dict(self.entity(s[1])[1])
            elif s[0] == "struct_tag":
                t = self.tag(s[1])
                if t and t[0] == "enum":
                    broken.add("repeated")
                unknown = not t or t[0] == "enum" or not (self.structures[t[1]]["complete"] or self.structures[t[1]]["declared"])
                whole = plain(("struct", self.structure_number(t)))
                if not t:
                    self.new_structure(s[1], False)
                elif t[0] == "enum":
                    pass
            elif s[0] == "struct_of":
                t = self.tags[-1].get(s[1]) if s[1] is not None else None
                if t and (t[0] == "enum" or self.structures[t[1]]["begun"]):
                    broken.add("repeated")
                k = t[1] if t and t[0] == "struct" else self.new_structure(s[1], True)
                self.structures[k]["begun"] = True
                whole = plain(("struct", k))
                members = {}
                for inner, names in s[2]:
                    base, faults, ok, unk = self.specifiers(inner)
                    broken |= faults & {"repeated"}
                    settled &= ok
                    for d in names:
                        settled &= self.member(members, base, unk, d)
                self.structures[k] = dict(members=members, begun=True, complete=True, declared=True)
            elif s[0] == "enum_tag":
                t = self.tag(s[1])
                if t and t[0] == "struct":
                    broken.add("repeated")
                unknown = not t
                whole = plain(INT)
            elif s[0] == "enum_of":
                if s[1] is not None:
                    if s[1] in self.tags[-1]:
                        broken.add("repeated")
                    self.tags[-1][s[1]] = ("enum",)
                whole = plain(INT)
                before = None
                for first, n, x in s[2]:
                    at = self.node(first)
                    ok = self.said(x) if x else True
                    v = self.constant(x) if x else 0 if before is None else before + 1
                    v = v if v is not None and -(2**31) <= v < 2**31 else None
                    j = WAITS if not ok else FAILS("DeclaredTwice") if self.here(n) or n in self.implementation else FAILS("NotConstant") if v is None else FITS(INT)
                    self.names[-1][n] = ("enumerator", v)
                    before = v
                    settled &= self.close(at, j)
        if whole is None:
            width = 8 if "char" in words else 16 if "short" in words else 64 if "long" in words else 32
            whole = plain(("int", width, "unsigned" not in words))
        whole["const"] = whole["const"] or "const" in words
        whole["volatile"] = whole["volatile"] or "volatile" in words
        return whole, broken, settled, unknown

    def pointed(self, stars, t):
        for quals in stars:
            t = dict(kind=t["kind"] if t["fn"] else ptr(t["kind"]), fn=False, is_open=False, const="const" in quals, volatile="volatile" in quals, atomic=False)
        return t

    def arrayed(self, sizes, t):
        if not sizes:
            return t
        k = t["kind"]
        for _ in sizes:
            k = ("arr", k)
        return dict(t, kind=k, is_open=sizes[0] is None, atomic=False)

    def elements(self, is_open, sizes):
        return {"incomplete"} if sizes and (is_open or None in sizes[1:]) else set()

    def incomplete(self, t):
        k = innermost(t["kind"])
        return t["fn"] or k == VOID or k[0] == "struct" and not self.structures[k[1]]["complete"]

    def parameters(self, has_body, ps):
        """The kinds, what is broken outside of nodes, and whether the nodes are settled."""
        kinds, broken, settled = [], set(), True
        for start, specs, d in ps:
            named = d[3 if d[0] != "pointer" else 4] is not None
            at = self.node(start) if named else None
            base, faults, ok, unknown = self.specifiers(specs)
            t, inner, ok2, sizes_ok = self.declarator(base, d)
            ok &= ok2
            t = dict(kind=ptr(t["kind"][1]), fn=False, is_open=False, const=False, volatile=False, atomic=False) if t["kind"][0] == "arr" else t
            own = d[0] != "pointer" and not d[2]
            faults = faults | inner
            if own and unknown:
                faults.add("unknown")
            if t["kind"][0] in ("struct", "set"):
                faults.add("passed")
            if self.incomplete(t):
                faults.add("incomplete")
            if named:
                n = d[3 if d[0] != "pointer" else 4]
                j = self.declared_rule(faults, bool(self.here(n)), sizes_ok, not t["is_open"], t["kind"]) if ok else WAITS
                settled &= self.close(at, j)
                self.names[-1][n] = ("variable" if has_body else "parameter", dict(t, linked=False, lasting=False))
            else:
                settled &= ok
                broken |= faults
            kinds.append(t["kind"])
        return kinds, broken, settled

    def declarator(self, base, d):
        """Its type, what is broken, whether the nodes inside are settled, whether the sizes are constant."""
        t = self.pointed(d[2], base)
        if d[0] == "plain":
            return t, set(), True, True
        if d[0] == "array":
            ok, sizes_ok = self.sizes(d[4])
            return self.arrayed(d[4], t), self.elements(t["is_open"], d[4]), ok, sizes_ok
        broken = {"passed"} if t["kind"][0] in ("struct", "set") else set()
        if d[0] == "function":
            self.enter()
            kinds, faults, ok = self.parameters(False, d[4])
            self.leave()
            return dict(kind=fn(kinds, t["kind"]), fn=True, is_open=False, const=False, volatile=False, atomic=False), broken | faults, ok, True
        ok, sizes_ok = self.sizes(d[5])
        self.enter()
        kinds, faults, ok2 = self.parameters(False, d[6])
        self.leave()
        t = dict(kind=fn(kinds, t["kind"]), fn=False, is_open=False, const="const" in d[3], volatile="volatile" in d[3], atomic=False)
        return self.arrayed(d[5], t), broken | faults | self.elements(False, d[5]), ok and ok2, sizes_ok

    def sizes(self, sizes):
        ok, constant = True, True
        for x in sizes:
            if x is not None:
                ok &= self.said(x)
                constant &= self.parts[-1][0].size
        return ok, constant

    def declared_rule(self, faults, twice, constant, complete, k):
        for holds, m in (("unknown" in faults, "UnknownName"), (twice or "repeated" in faults, "DeclaredTwice"), ("passed" in faults, "LeftOut"), (not constant, "NotConstant"), ("incomplete" in faults or not complete, "KindMismatch")):
            if holds:
                return FAILS(m)
        return FITS(k)

    def member(self, members, base, unknown, d):
        at = self.node(d[1])
        t, faults, ok, constant = self.declarator(base, d)
        n = d[3 if d[0] != "pointer" else 4]
        if d[0] in ("plain", "array") and not d[2] and unknown:
            faults = faults | {"unknown"}
        if self.incomplete(t):
            faults = faults | {"incomplete"}
        j = self.declared_rule(faults, n in members, constant, not t["is_open"], t["kind"]) if ok else WAITS
        members[n] = t["kind"]
        return self.close(at, j)

    def type_name(self, t):
        base, faults, ok, _ = self.specifiers(t[0])
        of, inner, ok2, _ = self.declarator(base, t[1])
        faults = faults | inner
        for word_, m in (("unknown", "UnknownName"), ("repeated", "DeclaredTwice"), ("passed", "LeftOut"), ("incomplete", "KindMismatch")):
            if word_ in faults:
                return of, m, ok and ok2
        return of, None, ok and ok2

    # ---- expressions

    def said(self, x, as_callee=False):
        return is_settled(self.operand(x, as_callee)[0])

    def operand(self, x, as_callee=False):
        """What is said of the node, and its form: constant, designates, based."""
        around, self.parts = self.parts, []
        at = self.node(x[1])
        o = self.judged(x, as_callee)
        self.close(at, o[0])
        around.append((self.constness(x), kind_of(o[0])))
        self.parts = around
        return o

    def constness(self, x):
        """Which constants the expression is, behind its operands: each of them by what the names stand for where it stands."""
        w, last = x[0], self.parts[-1][0] if self.parts else NEVER
        if w == "name":
            return self.named_constness(x[2])
        if w in ("integer", "character", "size_of", "size_of_type"):
            return Constness(True, True, False)
        if w == "text":
            return Constness(False, True, True)
        if w == "paren":
            return last
        if w == "unary" and x[2] == "&":
            return Constness(False, last.lasting, False)
        if w == "unary" and x[2] != "*" or w in ("binary", "choose"):
            operands = [part for part, _ in self.parts]
            return Constness(all(part.size for part in operands), all(part.fixed for part in operands), False)
        if w == "cast":
            return Constness(False, last.fixed, False)
        if w == "dot":
            return Constness(False, False, last.lasting)
        if w == "index":
            (of, kind), (by, _) = self.parts
            return Constness(False, False, of.lasting and bool(kind) and kind[0] == "arr" and by.size)
        return NEVER

    def named_constness(self, n):
        e = self.entity(n)
        if not e:
            return NEVER
        size = e[0] == "enumerator" or e[0] == "built_in" and e[1][0] in ("number", "null", "opaque")
        lasting = e[0] == "function" or e[0] == "variable" and e[1]["lasting"]
        fixed = e[0] in ("enumerator", "function", "library") or e[0] == "built_in" and e[1][0] not in ("errno", "left_out") or lasting and e[1]["kind"][0] == "arr"
        return Constness(size, fixed, lasting)

    def judged(self, x, as_callee):
        w = x[0]
        plain = lambda j: (j, None, None, False)
        if w == "name":
            return self.named(x[2], as_callee)
        if w == "integer":
            t, n = literal(x[2])
            return (FITS(t), "zero" if n == 0 else None, None, False)
        if w == "character":
            return plain(FITS(INT))
        if w == "text":
            return (FITS(("arr", CHAR)), "text", "object", True)
        if w == "paren":
            y = self.operand(x[2])
            return (after([y], FITS), None, None if y[2] in ("function", "library") else y[2], y[3])
        if w == "unary":
            y = self.operand(x[3])
            j = unary(x[2], y)
            if x[2] != "*":
                return plain(j)
            k = kind_of(y[0])
            return (j, None, None if k and k[0] == "fn" else element_of(k, y[2]), True)
        if w in ("comma", "binary", "assign", "index"):
            one, two = self.operand(x[-2]), self.operand(x[-1])
            if w == "comma":
                return plain(after([one, two], lambda k, l: FITS(l)))
            if w == "binary":
                return plain(binary(x[2], one, two))
            if w == "assign":
                return plain(assign(x[2], one, two))
            return (index(one, two), None, element_of(kind_of(one[0]), one[2]), True)
        if w == "choose":
            return plain(choose(*[self.operand(y) for y in x[2:5]]))
        if w == "step":
            return plain(step(self.operand(x[2])))
        if w == "size_of":
            y = self.operand(x[2])
            return plain(after([y], lambda k: FITS(SIZE)))
        if w == "size_of_type":
            t, m, ok = self.type_name(x[2])
            return plain(WAITS if not ok else FAILS(m) if m else FITS(SIZE))
        if w == "cast":
            t, m, ok = self.type_name(x[2])
            y = self.operand(x[3])
            return plain(WAITS if not ok else FAILS(m) if m else cast(t["kind"], y))
        if w in ("dot", "arrow"):
            y = self.operand(x[2])
            k = kind_of(y[0])
            s = k if w == "dot" else k[1] if k and k[0] in ("ptr", "arr") else None
            m = self.structures[s[1]]["members"].get(x[3]) if s and s[0] == "struct" else None
            ok = bool(s) and s[0] == "struct"
            based = y[3] or w == "arrow"
            j = after([y], lambda k: FAILS("KindMismatch") if not ok else FAILS("UnknownName") if m is None else if_(based, m))
            return (j, None, element_of(k, y[2]) if w == "arrow" else part_of(y[2]), True)
        assert w == "call"
        e = self.entity(x[2][2]) if x[2][0] == "name" else None
        f = self.operand(x[2], True)
        xs = [self.operand(y) for y in x[3]]
        return plain(library_call(e[1], xs) if e and e[0] == "library" else call(f, xs))

    def named(self, n, as_callee):
        e = self.entity(n)
        if not e or e[0] == "type":
            return (FAILS("UnknownName"), None, None, True)
        if e[0] in ("variable", "parameter"):
            t = e[1]
            defined = e[0] == "parameter" or not t["linked"] or n in self.objects
            return (FITS(t["kind"]) if defined else FAILS("UnknownName"), None, "const" if t["const"] else "object", True)
        if e[0] == "function":
            j = FAILS("UnknownName") if n not in self.functions else FAILS("LeftOut") if n == "main" else FITS(e[1]["kind"])
            return (j, None, "function", True)
        if e[0] == "library":
            return (SILENT if as_callee else FAILS("LibraryAsValue"), None, "library", True)
        if e[0] == "enumerator":
            return (FITS(INT), None, None, True)
        b = e[1][0]
        if b == "left_out":
            return (FAILS("LeftOut"), None, None, True)
        k = HANDLER if b == "disposition" else KERNEL if b == "initializer" else ptr(KERNEL) if b == "stream" else INT
        return (FITS(k), b if b in ("null", "disposition", "initializer") else None, "errno" if b == "errno" else None, True)

    # ---- initialisers

    def initializer(self, due, i):
        """What breaks the rule of who holds it, whether its nodes are settled, the constant that it is, and whether a static object may have it."""
        if i[0] == "single":
            x = self.operand(i[1])
            return initialiser_misfit(due, x) if due else None, is_settled(x[0]), x[1], self.parts[-1][0].fixed
        at, place, settled, unknown, left_out, wrong, fixed = self.node(i[1]), 0, True, False, False, False, True
        members = list(self.structures[due[1]]["members"].items()) if due and due[0] == "struct" else []
        for number, (name, part) in enumerate(i[2]):
            if name is None:
                j = place
            else:
                j = next((k for k, (n, _) in enumerate(members) if n == name), None)
                unknown |= j is None
            kind = None if j is None else due[1] if due and due[0] == "arr" else members[j][1] if j < len(members) else None
            wrong |= kind is None
            m, ok, c, is_fixed = self.initializer(kind, part)
            settled &= ok
            fixed &= is_fixed
            wrong |= part[0] == "single" and m is not None
            left_out |= name is None and due == ("struct", 11) and not (len(i[2]) == 1 and part[0] == "single" and c == "zero")
            place = (place if j is None else j) + 1
        j = WAITS
        if settled:
            j = SILENT if due is None else FAILS("UnknownName") if unknown else FAILS("LeftOut") if left_out else FAILS("KindMismatch") if wrong or due[0] not in ("arr", "struct") else SILENT
        self.close(at, j)
        return None, True, None, fixed

    # ---- declarations

    def decl(self, d):
        _, first, storage, specs, names = d
        at = self.node(first)
        if not names and len(specs) == 1 and specs[0][0] == "struct_tag":
            t = self.tags[-1].get(specs[0][1])
            if t and t[0] == "struct":
                self.structures[t[1]]["declared"] = True
            elif not t:
                self.new_structure(specs[0][1], True)
            self.close(at, FAILS("DeclaredTwice") if t and t[0] == "enum" else SILENT)
            return
        base, faults, settled, unknown = self.specifiers(specs)
        for declarator, init in names:
            settled &= self.declared(storage, base, unknown, declarator, init)
        self.close(at, WAITS if not settled else FAILS("DeclaredTwice") if "repeated" in faults else SILENT)

    def clash(self, n, linkage, is_function):
        if self.inside is None and n in self.implementation:
            return True
        e = self.here(n)
        return bool(e) and not (linkage and (e[0] == "function" if is_function else e[0] == "variable" and e[1]["linked"]))

    def differs(self, n, k):
        return n in self.linked and not agrees(self.linked[n][1]["kind"], k)

    def declare(self, storage, n, t):
        if storage == "typedef":
            self.names[-1][n] = ("type", t)
            return
        file = self.inside is None
        if t["fn"]:
            e = self.linked.setdefault(n, ("function", t))
        elif file or storage == "extern":
            e = self.linked.setdefault(n, ("variable", dict(t, linked=True, lasting=True)))
        else:
            e = ("variable", dict(t, linked=False, lasting=storage == "static"))
        self.names[-1][n] = e

    def declared(self, storage, base, unknown, d, init):
        at = self.node(d[1])
        n = d[3 if d[0] != "pointer" else 4]
        t, faults, ok, constant = self.declarator(base, d)
        file = self.inside is None
        linkage = storage != "typedef" and (t["fn"] or file or storage == "extern")
        if storage != "typedef" and d[0] != "function":
            if d[0] in ("plain", "array") and not d[2] and unknown:
                faults = faults | {"unknown"}
            if self.incomplete(t):
                faults = faults | {"incomplete"}
        twice = self.clash(n, linkage, t["fn"]) or init is not None and linkage and n in self.initialised
        differs = linkage and self.differs(n, t["kind"])
        self.declare(storage, n, t)
        if init is not None and linkage:
            self.initialised.add(n)
        m, ok2, _, fixed = self.initializer(t["kind"], init) if init else (None, True, None, True)
        not_static = (file or storage in ("static", "extern")) and not fixed
        complete = not t["is_open"] or init is not None or storage in ("extern", "typedef")
        j = WAITS
        if ok and ok2:
            j = FITS(t["kind"])
            for holds, kind in (("unknown" in faults, "UnknownName"), (twice, "DeclaredTwice"), (differs, "KindMismatch"), ("repeated" in faults, "DeclaredTwice"), ("passed" in faults, "LeftOut"), (not constant or not_static, "NotConstant"), (m is not None, "KindMismatch"), ("incomplete" in faults or not complete, "KindMismatch")):
                if holds:
                    j = FAILS(kind)
                    break
        return self.close(at, j)

    # ---- statements

    def condition(self, x, test):
        o = self.operand(x)
        if not is_settled(o[0]):
            return WAITS
        k = kind_of(o[0])
        return SILENT if k is None or test(k) else FAILS("KindMismatch")

    def statement(self, s, cases=None):
        w = s[0]
        if w == "decl":
            return self.decl(s)
        at, j = self.node(s[1]), SILENT
        if w == "block":
            self.enter()
            self.statements(s[2], cases)
            self.leave()
        elif w == "expression":
            if s[2] is not None and not self.said(s[2]):
                j = WAITS
        elif w in ("if", "while"):
            self.enter()
            j = self.condition(s[2], is_condition)
            for part in s[3:]:
                if part:
                    self.part(part)
            self.leave()
        elif w == "do":
            self.enter()
            self.part(s[2])
            j = self.condition(s[3], is_condition)
            self.leave()
        elif w == "for":
            self.enter()
            ok = True
            if s[2][0] == "start":
                ok = s[2][1] is None or self.said(s[2][1])
            else:
                self.decl(s[2])
            j = self.condition(s[3], is_condition) if s[3] else SILENT
            if s[4]:
                ok &= self.said(s[4])
            j = j if ok else WAITS
            self.part(s[5])
            self.leave()
        elif w == "switch":
            self.enter()
            o = self.operand(s[2])
            k = kind_of(o[0])
            j = WAITS if not is_settled(o[0]) else SILENT if k is None or k[0] == "int" else FAILS("KindMismatch")
            self.enter()
            self.statement(s[3], dict(of=promoted(k) if k and k[0] == "int" else None, values=set(), default=False))
            self.leave()
            self.leave()
        elif w == "case":
            ok, v = self.said(s[2]), self.constant(s[2])
            t = cases["of"]
            v = v if t and v is not None and (-(2 ** (t[1] - 1)) <= v < 2 ** (t[1] - 1) if t[2] else 0 <= v < 2 ** t[1]) else None
            j = WAITS if not ok else FAILS("DeclaredTwice") if v is not None and v in cases["values"] else FAILS("NotConstant") if t and v is None else SILENT
            cases["values"].add(v)
        elif w == "default":
            j = FAILS("DeclaredTwice") if cases["default"] else SILENT
            cases["default"] = True
        elif w == "label":
            j = FAILS("DeclaredTwice") if s[2] in self.labels else SILENT
            self.labels.add(s[2])
        elif w == "goto":
            j = SILENT if s[2] in self.body_labels else FAILS("UnknownName")
        elif w == "return":
            r = self.result
            if s[2] is None:
                j = SILENT if r == VOID else FAILS("KindMismatch")
            else:
                o = self.operand(s[2])
                j = WAITS if not is_settled(o[0]) else FAILS("KindMismatch") if r == VOID or not is_accepted(r, o[1], kind_of(o[0])) else SILENT
        self.close(at, j)

    def part(self, s):
        self.enter()
        self.statement(s)
        self.leave()

    def statements(self, ss, cases=None):
        for s in ss:
            self.statement(s, cases)

    # ---- items

    def function(self, f):
        _, first, storage, specs, stars, n, ps, body = f
        at = self.node(first)
        base, faults, ok, _ = self.specifiers(specs)
        t = self.pointed(stars, base)
        if t["kind"][0] in ("struct", "set"):
            faults = faults | {"passed"}
        taken = self.clash(n, True, True) or n in self.initialised
        self.inside, self.labels = n, set()
        self.enter()
        kinds, inner, ok2 = self.parameters(True, ps)
        faults = faults | inner
        k = fn(kinds, t["kind"])
        differs = self.differs(n, k)
        e = self.linked.setdefault(n, ("function", dict(kind=k, fn=True, const=False)))
        self.names[-2][n] = e
        self.initialised.add(n)
        j = WAITS
        if ok and ok2:
            j = FITS(k)
            for holds, kind in (("unknown" in faults, "UnknownName"), (taken, "DeclaredTwice"), (differs, "KindMismatch"), ("repeated" in faults, "DeclaredTwice"), ("passed" in faults, "LeftOut"), ("incomplete" in faults, "KindMismatch")):
                if holds:
                    j = FAILS(kind)
                    break
        self.result, self.body_labels = t["kind"], set(labels(body))
        block = self.node(body[1])
        self.statements(body[2])
        self.close(block, SILENT)
        self.leave()
        self.inside = None
        self.close(at, j)

    def program(self, items):
        for item in items:
            self.function(item) if item[0] == "function" else self.decl(item)
        for first, j in self.all:
            if j[0] == "fails":
                return first, j[1]
        e = self.linked.get("main")
        k = e[1]["kind"] if e and "main" in self.functions else None
        ok = k and k[0] == "fn" and k[2] == INT and (not k[1] or len(k[1]) in (2, 3) and k[1][0] == INT and all(p[0] == "ptr" for p in k[1][1:]))
        return None if ok else (None, "NoMain")


def labels(s):
    if isinstance(s, tuple):
        if len(s) == 3 and s[0] == "label":
            yield s[2]
        for part in s:
            yield from labels(part)
    elif isinstance(s, list):
        for part in s:
            yield from labels(part)


def part_of(d):
    return "const" if d == "const" else "object"


def element_of(k, d):
    return part_of(d) if k and k[0] == "arr" else "object"


def literal(text):
    body = text.rstrip("uUlL")
    suffix = text[len(body):].lower()
    base = 16 if body.lower().startswith("0x") else 8 if body.startswith("0") else 10
    n = int(body[2:] if base == 16 else body, base)
    for width in (32, 64):
        if width == 32 and "l" in suffix:
            continue
        if "u" not in suffix and n < 2 ** (width - 1):
            return ("int", width, True), n
        if ("u" in suffix or base != 10) and n < 2**width:
            return ("int", width, False), n
    return ("int", 64, False), n


def character(text):
    inner = text[1:-1]
    if inner[0] != "\\":
        n = ord(inner.encode("latin-1", "replace"))
    elif inner[1] in "01234567":
        n = int(inner[1:], 8)
    elif inner[1] == "x":
        n = int(inner[2:], 16)
    else:
        n = {"n": 10, "t": 9, "r": 13, "a": 7, "b": 8, "f": 12, "v": 11}.get(inner[1], ord(inner[1]))
    return n - 256 if n > 127 else n


def answer(text):
    found = grammar.tokens_of(text)
    parser = Tree([token for token, _ in found])
    items = parser.program()
    misfit = Misfits(items).program(items)
    if misfit is None:
        return "fits"
    at = len(text) if misfit[0] is None else found[misfit[0]][1]
    return f"3\na.c:{text.count(chr(10), 0, at) + 1}:{at - text.rfind(chr(10), 0, at)}: not in the subset: {misfit[1]}"


if __name__ == "__main__":
    for name in sys.argv[1:]:
        print(f"{name}: {answer(pathlib.Path(name).read_text())}")
