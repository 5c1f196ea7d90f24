#!/usr/bin/env python3
"""make.py VECTORS..: writes `stdin` and `stdout` of this crate from the vectors' texts and hand-made ones.

The streams are those of the model (its `check`), a program that was written from document 01 by itself.
"""
import os
import struct
import sys

HERE = os.path.dirname(os.path.abspath(__file__))
sys.dont_write_bytecode = True
sys.path.insert(0, os.path.join(HERE, "../../tools"))
from modelled import load, texts  # noqa: E402

# one text at least for each kind in each of its cases
HAND = [
    b"$c x $. $v x $.", b"${ $v x x $. $}", b"${ $v x $. ${ $v x $. $} $}", b"$v x $. ${ $v x $. $}",
    b"${ $v x $. $} $c x $.", b"${ $v x $. $} $v x $.", b"${ $c x y $. $}", b"$c x $. x $a y $.", b"x $a y $. $c x $.",
    b"${ $v x $. x $e y $. $d x x $. $}", b"a $e b $. a $e b $.", b"$d x y $. $v x y $. $d x y $.",
    b"${ $v x y $. $d x y $. $} $d x y $.", b"$c c $. $d c c $.", b"$v x y $. $d x y x y x $.",
    b"$c c $. $v x $. f $f x c $.", b"$c c $. $v x $. f $f c x $. g $f c x $. h $f c x $.",
    b"$c c $. $v x $. f $f d x $. g $f c x $.", b"$c c $. $v x $. ${ f $f c x $. g $f c x $. $} h $f c x $.",
    b"$c c $. $v x $. f $f c x $. ${ g $f c x $. $}", b"$c c $. $v x $. a $a x c $. b $a c x $. e $e d c x x $.",
    b"$c c $. $v x $. ${ f $f c x $. a $a c x $. $} b $a c x $.", b"00417 $e c $. 417 $e c $. 417 $e d $.",
    b"${ $v x y $. ${ $v x $. $} $d x y $. $}", b"$(", b"$c $.", b"", b"\x80",
]


def main(argv):
    if not argv or argv[0] in ("--help", "-h"):
        sys.exit(__doc__)
    model = load()
    given_texts = HAND + [text for text in texts(argv) if len(text) <= 400]
    given, right = b"", b""
    for text in given_texts:
        if len(given) + 2 + len(text) > 65000:
            break
        number, _, _, diags = model.check(text, 65536, 1 << 40, 16384)
        given += struct.pack("<H", len(text)) + text
        right += struct.pack("<H", 65535) if number else struct.pack("<H", len(diags)) + diags
    with open(os.path.join(HERE, "stdin"), "wb") as f:
        f.write(given)
    with open(os.path.join(HERE, "stdout"), "wb") as f:
        f.write(right)


main(sys.argv[1:])
