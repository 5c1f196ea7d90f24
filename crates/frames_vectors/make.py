#!/usr/bin/env python3
"""make.py VECTORS..: writes `stdin` and `stdout` of this crate from hand-made texts and all the vectors' texts that are read.

The streams are those of the model (its `check`, with full frames), a program that was written from document 01 by itself.
"""
import os
import struct
import sys

HERE = os.path.dirname(os.path.abspath(__file__))
sys.dont_write_bytecode = True
sys.path.insert(0, os.path.join(HERE, "../../tools"))
from modelled import load, texts  # noqa: E402

WFF = b"$c ( ) wff |- $. $v x y z $. wx $f wff x $. wy $f wff y $. wz $f wff z $. "
# each part of a frame in each of its cases
HAND = [
    # no frame at all; not read; stub frames at both levels, of variables of one byte and of more
    b"", b"$(", b"${ $c x $. $}", b"$c c $. ${ $v xyz $. f $f c xyz $. $} ${ $v x $. g $f c x $. $}",
    # `$a` and `$p`; no variable; a variable twice; variables in the order of sight and not of their `$f`
    b"$c c d $. a $a c $. b $p d c $= ? $.", WFF + b"a $a wff ( x ) $. b $p |- x x $= wx wx $. c $a |- z ( y x ) $.",
    # constants of several bytes, raised at the last; a rump, none, fragments one after the other
    b"$c wff (( => ~ $. $v x yy $. f $f wff x $. g $f wff yy $. a $a wff (( x => => yy ~ ~ $. b $a wff => x yy $. c $a wff ~ $.",
    # `$f` and `$e` in text order, and the pool over all of them
    b"$c c ( ) $. $v x y $. e1 $e c ( $. f $f c x $. ${ e2 $e c x ) $. g $f c y $. e3 $e c y ( x $. a $p c ( y $= e1 $. $} b $a c ) $.",
    # the variables of a `$e` alone, and of one of a closed group
    WFF + b"${ e $e |- x $. a $a |- y $. $} b $a |- y $.",
    # `$d`: mandatory, one optional, both optional; in both orders; twice; in one and in two `$d`
    WFF + b"$d x y $. a $a wff x y $. b $a wff y x $. c $a wff x $. d $a wff $.",
    WFF + b"$d x y z $. $d z x $. $d y x $. a $a wff z y x $. b $a wff y $. c $a wff x z $.",
    # nested `$d`; of a closed group; after the assertion; one with no variable of the assertion
    WFF + b"$d x y $. ${ $d y z $. ${ $d z x $. a $a wff x y z $. $} b $a wff x y z $. $} c $a wff x y z $. $d x z $. d $a wff x y z $.",
    b"$c c $. $v x $. f $f c x $. ${ $v y z $. g $f c y $. $d y z $. $d x z $. a $a c x $. b $a c y $. $} d $a c x $.",
    # what is rejected: `$d`, `$f`, `$e`, `$a`, and a second bearer of a label
    WFF + b"$d x x $. $d x q $. e $e wff q $. wx $f wff x $. v $f wff x $. a $a wff x y $. b $a wff q $. a $a wff y $.",
    # a name that is a variable in one group and in another; a `$f` of a closed group
    b"$c c d $. ${ $v x $. f $f c x $. a $a c x $. $} ${ $v x $. g $f d x $. b $a d x $. $}",
    # over eight variables: rows of two bytes
    b"$c c $. $v a b c1 d e f g h i j $. $d a b c1 d e f g h i j $. $d j a $. s $a c $.",
]


def main(argv):
    if not argv or argv[0] in ("--help", "-h"):
        sys.exit(__doc__)
    model = load()
    given_texts = HAND + texts(argv)
    given, right = b"", b""
    for i, text in enumerate(given_texts):
        number, _, frames, _ = model.check(text, 524288, 2621440, 1 << 40, model.FULL)
        if number and i >= len(HAND):
            continue
        given += struct.pack("<I", len(text)) + text
        right += struct.pack("<I", 4294967295) if number else struct.pack("<I", len(frames)) + frames
    if len(given) > 262144:
        sys.exit("the program reads 262,144 bytes")
    with open(os.path.join(HERE, "stdin"), "wb") as f:
        f.write(given)
    with open(os.path.join(HERE, "stdout"), "wb") as f:
        f.write(right)


main(sys.argv[1:])
