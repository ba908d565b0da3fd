#!/usr/bin/env python3
"""An oracle for the limits: the least program that begins with these tokens.

`beginnings(kinds)` tells of each beginning of a list of kinds of tokens, the empty one first, the least number of nodes and the
least depth of the programs that begin so, or None where none does, and what they go on with. It is a chart parser (Earley's) over the grammar of
docs/SPECIFICATION.md as plain data: a rule with => makes a node, nodes add up, and a tree is as deep as its deepest part. Behind
the last token of a beginning every token is free. One program reaches both least values, which is asserted.

`kinds_of(text)` has the kinds of a text's tokens: NAME, TYPE, INTEGER, CHARACTER, TEXT, or the token itself. Run as a program,
it compares itself with values that were worked out by hand and with the programs of tests/programs.
"""
import pathlib
import sys

sys.dont_write_bytecode = True
sys.path.insert(0, str(pathlib.Path(__file__).resolve().parent))
import grammar

RULES = """
program => items
items ->
items -> items item
item -> decl
item => linkage specs stars NAME ( params ) block
item => typedef tagged ;
item => typedef specs types ;
types -> type
types -> types , type
type => variable
type => called

decl => linkage tagged ;
decl => linkage specs names ;
linkage ->
linkage -> LINKAGE
names -> named
names -> names , named
named => called
named => variable
named => variable = init
called -> stars NAME ( params )
variable -> stars NAME
variable -> stars NAME sizes
variable -> stars ( * quals NAME ) ( params )
variable -> stars ( * quals NAME size ) ( params )
sizes -> size
sizes -> sizes size
size -> [ ]
size -> [ e3 ]
stars ->
stars -> stars * quals
quals ->
quals -> quals QUALIFIER
params ->
params -> void
params -> listed
listed -> param
listed -> listed , param
param => specs variable
param -> specs bare
bare -> stars
bare -> stars ( * quals ) ( params )
typename -> specs bare

tag -> struct TAG
tag -> struct TAG { members }
tag -> struct { members }
tag -> enum TAG
tag -> enum TAG { enumerators }
tag -> enum TAG { enumerators , }
tag -> enum { enumerators }
tag -> enum { enumerators , }
members -> member
members -> members member
member -> specs fields ;
fields -> field
fields -> fields , field
field => variable
enumerators -> enumerator
enumerators -> enumerators , enumerator
enumerator => NAME
enumerator => NAME = e3

init -> e2
init => { parts }
init => { parts , }
parts -> part
parts -> parts , part
part -> init
part -> . NAME = init

e1 => e1 , e2
e2 => e15 ASSIGN e2
e3 => e4 ? e1 : e3
e14 => ( typename ) e14
e15 => UNARY e14
e15 => STEP e15
e15 => sizeof e15
e15 => sizeof ( typename )
e16 => e16 [ e1 ]
e16 => e16 ( )
e16 => e16 ( arguments )
e16 => e16 . NAME
e16 => e16 -> NAME
e16 => e16 STEP
e17 => NAME
e17 => INTEGER
e17 => CHARACTER
e17 => texts
e17 => ( e1 )
arguments -> e2
arguments -> arguments , e2
texts -> TEXT
texts -> texts TEXT
optional ->
optional -> e1
start -> decl
start -> optional ;
label => NAME :
mark => case e3 :
mark => default :
"""

# P is the place: whether it lies in a loop (l) and in a switch (s), so that L is P in a loop, and S is P in a switch. A shut
# statement is one that no else can go on.
STATEMENTS = """
blockP => { withinP }
withinP ->
withinP -> withinP statementP
withinP -> withinP decl
withinP -> withinP label
casesP -> withinP
casesP -> casesP mark withinP
switchedP => { casesP }
plainP -> blockP
plainP => optional ;
plainP => do statementL while ( e1 ) ;
plainP => switch ( e1 ) switchedS
plainP => return optional ;
plainP => goto NAME ;
shutP -> plainP
shutP => if ( e1 ) shutP else shutP
shutP => while ( e1 ) shutL
shutP => for ( start optional ; optional ) shutL
statementP -> plainP
statementP => if ( e1 ) statementP
statementP => if ( e1 ) shutP else statementP
statementP => while ( e1 ) statementL
statementP => for ( start optional ; optional ) statementL
"""

# sets of kinds that one word of the rules stands for
CLASSES = {
    "LINKAGE": {"static", "extern"},
    "QUALIFIER": {"const", "volatile"},
    "TAG": {"NAME", "TYPE"},
    "ASSIGN": grammar.ASSIGN,
    "UNARY": set("&*+-~!"),
    "STEP": {"++", "--"},
}


def written():
    """The rules as they are written above, and those that a loop writes."""
    yield from RULES.splitlines()
    for place in ("", "l", "s", "ls"):
        loop, switch = "l" + place.strip("l"), place.strip("s") + "s"
        for row in STATEMENTS.splitlines():
            for letter, to in ("P", place), ("L", loop), ("S", switch):
                row = " ".join(word[:-1] + to if word[0].islower() and word[-1] == letter else word for word in row.split())
            yield row
        if place:
            yield f"plain{place} => break ;"
        if "l" in place:
            yield f"plain{place} => continue ;"
    for level in range(1, 17):
        yield f"e{level} -> e{level + 1}"
    for level in range(4, 14):
        CLASSES[f"OP{level}"] = {op for op, own in grammar.BINARY.items() if own == level}
        yield f"e{level} => e{level} OP{level} e{level + 1}"
    # the words of specifiers, behind these ones, of which none, or one, has been a tag
    yield "specs -> specs_"
    yield "tagged -> tagged_"
    seen, new = set(), [()]
    while new:
        words = new.pop()
        if words in seen:
            continue
        seen.add(words)
        own = "_".join(("specs",) + words) if words else "specs_"
        yield f"{own} -> QUALIFIER {own}"
        if words:
            yield f"{own} ->"
        for word in grammar.WORDS:
            # the order tells where char stands alone
            more = words + (word,) if word == "char" or not words else tuple(sorted(words + (word,)))
            if grammar.is_type(list(words + (word,))):
                new.append(more)
                yield f"{own} -> {word} {'_'.join(('specs',) + more)}"
    yield "specs_ -> TYPE quals"
    yield "specs_ -> tag quals"
    yield "tagged_ -> QUALIFIER tagged_"
    yield "tagged_ -> tag quals"


# ---- pairs of nodes and depth, of which the least are kept


def least_of(pairs):
    return tuple(pair for pair in sorted(set(pairs)) if not any(other != pair and other[0] <= pair[0] and other[1] <= pair[1] for other in pairs))


def both(ones, others):
    if len(ones) == len(others) == 1:
        return ((ones[0][0] + others[0][0], max(ones[0][1], others[0][1])),)
    return least_of([(a + c, max(b, d)) for a, b in ones for c, d in others])


def above(own, pairs):
    return tuple((nodes + own, depth + own) for nodes, depth in pairs)


# each rule: its head, whether it makes a node, and its words
GRAMMAR = [(words[0], int(words[1] == "=>"), words[2:]) for row in written() if (words := row.split())]
OF_HEAD = {}
for number, (head, _, _) in enumerate(GRAMMAR):
    OF_HEAD.setdefault(head, []).append(number)


def matches(word, kind):
    return kind in CLASSES[word] if word in CLASSES else kind == word


def of_free(words, free):
    """The least pairs of these words where every token is free, or none."""
    pairs = ((0, 0),)
    for word in words:
        if word in OF_HEAD:
            pairs = both(pairs, free[word])
    return pairs


def free_pairs():
    free = dict.fromkeys(OF_HEAD, ())
    while True:
        new = {head: least_of([pair for rule in rules for pair in above(GRAMMAR[rule][1], of_free(GRAMMAR[rule][2], free))]) for head, rules in OF_HEAD.items()}
        if new == free:
            return free
        free = new


FREE = free_pairs()
# of each rule and each place in it, the pairs of the words behind the place
BEHIND = [[of_free(words[at:], FREE) for at in range(len(words) + 1)] for _, _, words in GRAMMAR]


def end_at(scanned, waiting):
    """The pairs of the programs in which every token behind the place is free. The items were just taken over a token."""
    ended, work = {}, list(scanned.items())
    while work:
        (rule, at, begin), pairs = work.pop()
        head, own, _ = GRAMMAR[rule]
        known = ended.get((head, begin), ())
        new = least_of(known + above(own, both(pairs, BEHIND[rule][at])))
        if new != known:
            ended[head, begin] = new
            work += [((r, a + 1, b), both(p, new)) for (r, a, b), p in waiting[begin].get(head, {}).items()]
    return ended.get(("program", 0), ())


def close(scanned, place):
    """From the items that were taken over the token before a place: the items that wait there, by the word that they wait for,
    and the pairs of what ends there, by its head and its begin."""
    items, waiting, found, work = {}, {}, {}, list(scanned.items())
    while work:
        item, pairs = work.pop()
        known = items.get(item, ())
        new = least_of(known + pairs)
        if new == known and item in items:
            continue
        items[item] = new
        rule, at, begin = item
        head, own, words = GRAMMAR[rule]
        if at == len(words):
            whole = least_of(found.get((head, begin), ()) + above(own, new))
            if whole != found.get((head, begin)):
                found[head, begin] = whole
                waits = waiting if begin == place else WAITING[begin]
                work += [((r, a + 1, b), both(p, whole)) for (r, a, b), p in waits.get(head, {}).items()]
            continue
        first = words[at] not in waiting
        waiting.setdefault(words[at], {})[item] = new
        if words[at] in OF_HEAD:
            if first:
                work += [((r, 0, place), ((0, 0),)) for r in OF_HEAD[words[at]]]
            if (words[at], place) in found:
                work.append(((rule, at + 1, begin), both(new, found[words[at], place])))
    return waiting, found


WAITING = []


def beginnings(kinds):
    """Of each beginning of these kinds, the empty one first: the least nodes and depth, or None where no program begins so, and
    the kinds of the tokens that a program has behind it. The least values of a whole program are its own."""
    del WAITING[:]
    scanned = {(rule, 0, 0): ((0, 0),) for rule in OF_HEAD["program"]}
    pairs = FREE["program"]
    for place in range(len(kinds) + 1):
        assert len(pairs) < 2, f"no program has both least values: {pairs}"
        waiting, ended = close(scanned, place)
        assert ended.get(("program", 0), pairs) == pairs, "a longer program has less nodes or less depth"
        WAITING.append(waiting)
        words = [word for word in WAITING[place] if word not in OF_HEAD]
        yield pairs[0] if pairs else None, set().union(*(CLASSES.get(word, {word}) for word in words))
        if place < len(kinds):
            scanned = {(r, a + 1, b): p for word in words if matches(word, kinds[place]) for (r, a, b), p in WAITING[place][word].items()}
            pairs = end_at(scanned, WAITING)


def leasts(kinds):
    return [pair for pair, _ in beginnings(kinds)]


class Recorder(grammar.Parser):
    """Keeps the kinds of the tokens as they are taken."""

    def __init__(self, tokens):
        super().__init__(tokens)
        self.kinds = {}

    def take(self, *kinds):
        self.kinds[self.at] = self.kind()
        return super().take(*kinds)

    def skip(self, *kinds):
        self.kinds[self.at] = self.kind()
        return super().skip(*kinds)


def kinds_of(text):
    """The kinds of a text's tokens. A name behind the first token that is refused is a type where a built-in name is."""
    tokens = [token for token, _ in grammar.tokens_of(text)]
    parser = Recorder(tokens)
    try:
        parser.program()
    except grammar.Refused:
        pass
    at = parser.at
    kinds = []
    for number, token in enumerate(tokens):
        parser.at = number
        kind = parser.kinds.get(number) if number < at else parser.kind()
        kinds.append({"string": "TEXT"}.get(kind, kind.upper() if kind in ("name", "type", "integer", "character") else kind))
    return kinds


def least(text):
    return leasts(kinds_of(text))[-1]


# beginnings of programs that cover every construct: of items, and of what stands in a function
ITEMS = """
struct s ; static enum e { A , B = 1 , C } const ; enum { D , } ;
static const unsigned long int volatile a , * const b [ 2 ] [ ] = { 1 , { . m = 2 , } } , ( * c [ 3 ] ) ( void ) = x , d ( ) ;
extern size_t f ( int , char * a , size_t b [ 1 ] , int ( * ) ( int ) , int ( * const c [ ] ) ( void ) , struct { int m [ 1 ] ; } * ) { } signed char g ;
typedef int T [ sizeof T ] , * U , F ( T , T t ) , ( * P [ 1 ] ) ( int p ) ; typedef struct s ; T t = 1 ;
volatile struct { const int a , * b [ 1 ] ; struct s c ; int ( * d [ 2 ] ) ( int e ) ; } v , w ( void ) , u = 1 ;
int f ( int a [ 2 ] ) , x ; int * g ( struct t { int m ; } p ) { } int * ( * h ) ( int q ) ; int k [ ] [ 1 ] ; enum e n ( ) ;
""".strip().splitlines()
INSIDE = """
; { } x : y : y ; x + 1 ; x ( ) ; x [ 1 ] ; { x ; }
if ( a ) ; else if ( b ) x ; else { } if ( 1 ) while ( a ) do x ; while ( b ) ; y
for ( ; ; ) for ( a ; b ; c ) for ( int i = 0 , j ; i ; ) for ( extern struct s ; ; ) { break ; continue ; int k ; }
switch ( a ) { case 1 : default : ; l : case A ? 1 : 2 : break ; }
return ; return x ; goto l ; 1 ; "a" "b" ; 'c' ;
static int a = 1 , b [ 2 ] = { 0 , . m = { 1 } } ; extern size_t h ( int ) , k ; struct s { int m ; } ; const struct s * p = & q , r [ 1 ] ; enum { E } e ;
a = b , c ? d , x : e || f && g | h ^ i & j == k < l << m + n * o - 1 ;
( size_t ) a ; ( const struct { int m [ 1 ] ; } * ) ( void ) 0 ; ( ( a ) + 1 ) ;
sizeof a ; sizeof ( int ) ; sizeof ( a ) [ 1 ] ; sizeof ( int ( * ) ( int b ) ) * 2 ; sizeof ( ( a ) ) + sizeof sizeof - 1 ;
- ++ a -- [ b ] ( c , 'd' , "e" "f" ) . g -> h ++ ; ! ~ & * + a ;
""".strip().splitlines()

F = "int f(void) { "
# beginnings, and their least nodes and depth, worked out by hand
BY_HAND = [
    ("", (1, 1)),
    ("const", (2, 2)),
    ("static", (2, 2)),
    ("struct", (2, 2)),
    ("enum", (2, 2)),
    ("int", (3, 3)),
    ("typedef", (2, 2)),
    ("typedef int", (3, 3)),
    ("size_t const", (3, 3)),
    ("struct s {", (3, 3)),
    ("struct s { int a, ", (4, 3)),
    ("struct s { int", (3, 3)),
    ("struct s { int a; int", (4, 3)),
    ("struct s { int a[", (3, 3)),
    ("struct s { int a[1", (4, 4)),
    ("struct s { } ", None),
    ("enum {", (3, 3)),
    ("enum { A =", (4, 4)),
    ("enum { A ,", (3, 3)),
    ("int a", (3, 3)),
    ("int a,", (4, 3)),
    ("int a =", (4, 4)),
    ("int a = {", (5, 5)),
    ("int a = { .", (5, 5)),
    ("int a = { 1,", (5, 5)),
    ("int a = { 1, .", (6, 5)),
    ("int a[", (3, 3)),
    ("int a[1", (4, 4)),
    ("int (", (3, 3)),
    ("int f(int", (3, 3)),
    ("int f(int a", (4, 3)),
    ("int f(int a)", (4, 3)),
    ("int f(int a) {", (4, 3)),
    ("int f(int a) ;", (4, 4)),
    ("int f(int a) =", None),
    ("int f(int a[2", (5, 4)),
    ("int f(int a[2]),", (6, 5)),
    ("int (*f)(int a", (4, 4)),
    ("int f(struct { int a", (4, 3)),
    ("int f(struct { int a; } b", (5, 4)),
    (F, (3, 3)),
    (F + "x", (4, 4)),
    (F + "x :", (4, 4)),
    (F + "x ;", (5, 5)),
    (F + "x (", (6, 6)),
    (F + "x +", (7, 6)),
    (F + "x + x *", (9, 7)),
    (F + "x x", None),
    (F + "int", (5, 5)),
    (F + "if", (6, 5)),
    (F + "if (1) if (1) ; else", (9, 6)),
    (F + "do", (6, 5)),
    (F + "for", (5, 5)),
    (F + "for ( ; ; x", (6, 5)),
    (F + "for ( struct s", (6, 5)),
    (F + "for ( int", (7, 6)),
    (F + "switch (1) { case", (8, 7)),
    (F + "case", None),
    (F + "while (1) { continue", (7, 6)),
    (F + "continue", None),
    (F + "return sizeof", (5, 5)),
    (F + "return sizeof (", (5, 5)),
    (F + "return sizeof ( x", (7, 7)),
    (F + "return sizeof ( x ) [", (9, 8)),
    (F + "return (", (6, 6)),
    (F + "return ( int", (6, 6)),
    (F + "return ( struct { int a", (7, 6)),
    (F + "return ( struct { int a[2", (8, 7)),
    (F + "return x ?", (8, 6)),
    (F + "return !", (6, 6)),
]


def self_test():
    for text, wanted in BY_HAND:
        assert least(text) == wanted, f"{text!r}: {least(text)}, by hand {wanted}"


if __name__ == "__main__":
    self_test()
    for path in sorted((pathlib.Path(__file__).resolve().parent / "programs").glob("*.c")):
        print(path.name, least(path.read_text()))
