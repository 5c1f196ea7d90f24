"""Writes this program's cases, `data/cases`, and what it must write, `stdout`:

    python3 make.py VECTORS

The model, document 01 as a program, reads every text; VECTORS is a file of lines
`name text work-words ..`, of which the short texts are taken.
"""
import os, struct, sys

if len(sys.argv) != 2 or sys.argv[1] in ("--help", "-h"):
    sys.exit(__doc__)
sys.dont_write_bytecode = True
sys.path.insert(0, os.path.join(os.path.dirname(os.path.abspath(__file__)), "../../tools"))
from modelled import load

model = load()
Refusal, first_bad_byte, read, tokens, visible = model.Refusal, model.first_bad_byte, model.read, model.tokens, model.visible
line_of = model.line_of

KINDS = [b"$c", b"$v", b"$d", b"$f", b"$e", b"$a", b"$p"]
MOST = 65536
cases = []


def need(text):
    return 16 * (len(tokens(text)) + 1)


def add(text, words=None):
    cases.append((text, need(text) if words is None else words))


def words_of(text, statements):
    """The words of the work area that are not 0."""
    n, maths, shown = len(tokens(text)) + 1, 0, visible(tokens(text))[0]
    for row, s in enumerate(statements):
        first = [t.offset for t in shown].index(s.offset)
        keyword = shown[first + (s.label is not None)]
        last = s.math[-1]
        yield from zip(range(12 * row, 12 * row + 8),
                       (KINDS.index(s.kind) + 1, s.offset, len(s.label or b""), keyword.offset + 2,
                        last.offset + len(last.text), maths, len(s.math), s.end))
        yield from ((15 * n + maths + i, t.offset) for i, t in enumerate(s.math))
        maths += len(s.math)


def refused(text, number, place):
    return "%d %d %d" % (number, place, line_of(text, number, place))


def answer(text, words):
    needed, bad = need(text), first_bad_byte(text)
    if words < needed:
        return refused(text, 2, needed)
    if bad is not None:
        return refused(text, 3, bad)
    got = read(tokens(text), len(text))
    if isinstance(got, Refusal):
        return refused(text, *got)
    got = [s for s in got if s.kind in KINDS]
    left = sorted((c, w) for c, w in words_of(text, got) if w)
    return "read %d %d" % (len(got), sum(len(s.math) for s in got)) + "".join(" %d:%d" % x for x in left)


WHOLE = b"$c ( ) wff $. $v x $. wx $f wff x $. ax $a wff ( x ) $."
for text in (b"", b" ", b" \t\n\f\r ", b"$( a $)", b"$( a", b"$(", b"a $(", b"$( x$) $)", b"$( $)x $)", b"$( x$)", b"$( $( $)", b"$)", b"$}",
             b"${", b"${ $}", b"${ $} $}", b"${ ${ $}", b"a", b"a b", b"$c a $. a", b"$c $.", b"$c a", b"$c a $c", b"$v $.", b"$v x $.", b"$d x $.",
             b"$d x y $.", b"$d $.", b"a $f x $.", b"a $f x y $.", b"a $f x y z $.", b"$f x y $.", b"a $e $.", b"a $e x $.", b"$e x $.", b"a $a $.",
             b"a $a x $.", b"a $p x $.", b"a $p $= x $.", b"a $p x $= $.", b"a $p x $= y $.", b"a $p x $= y", b"a $p x $= $( y $) $.",
             b"a $p x $= y $= z $.", b"a $p x $= y $( $. $) z $( $) $.", b"a $p x $= y zz\t$.", b"a $p x $= y zz", b"a $p x $= y zz ", b"a $p x $= y z$ $.",
             b"a $p x $= yy$.", b"a $p x $= y zz$( c $) $.", b"a $p x $= y z $( c", b"a $p x $= y $( c $) z", b"a $p x $= y $( c $) z$. $.", b"a $p x $= y $",
             b"a $p x $= y z $c $.", b"a $p x $= y$z w", b"a $c x $.", b"a# $a x $.", b"a.-_Z9 $a x $.", b"$a", b"$", b"$$", b"$x", b"x$", b"$c a$b $.",
             b"$c $( c $) a $( d $) b $( e $) $.", b"$c a $( $.", b"a $( c $) $a $( d $) x $( e $) $.", b"${ $v x $. ${ $v y $. $} $v z $. $} $v w $.",
             b"$( $) $c a $. $)", b"$.", b"$=", b"$c\fa\r$.", WHOLE, b"\n\r\n$}", b"a\n\n$(", b"a\n\x80", b"$(\n$) $}", b"$(\n\nx$) $)",
             b"a $p x $=\ny\n$( \n $)\n z\n$. $}", b"\n${", b"$c\na\n$(\n$)\nb\n$.\na\n$b"):
    add(text)
for byte in (0, 8, 11, 127, 128, 255):
    add(b"$c a" + bytes([byte]) + b" $.")
    add(b"$( a " + bytes([byte]))
    add(bytes([byte]) + b"$c $.")
for short in (0, 1, 15, 16, need(WHOLE) - 1, need(WHOLE), need(WHOLE) + 1, 16 * len(tokens(WHOLE))):
    add(WHOLE, short)
add(b"\x01 x", 16)
add(b"$c a b", 64 - 1)
add(b"${ " * 300 + b"$v x $. " + b"$} " * 300)
add(b"${ $v x $. " * 300 + b"$} " * 299)
for line in open(sys.argv[1]):
    word = line.split()
    if word[0] != "#" and word[1] != "-" and len(word[1]) <= 400:
        add(bytes.fromhex(word[1]), min(int(word[2]), MOST - 1))

here = os.path.dirname(os.path.abspath(__file__))
with open(os.path.join(here, "data", "cases"), "wb") as f:
    for text, words in cases:
        f.write(struct.pack("<HH", len(text), words) + text)
with open(os.path.join(here, "stdout"), "w") as f:
    for text, words in cases:
        f.write(answer(text, words) + "\n")
size = sum(4 + len(t) for t, _ in cases)
assert size < MOST and all(w < MOST for _, w in cases)
print(len(cases), "cases,", size, "bytes")
