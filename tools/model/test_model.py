#!/usr/bin/env python3
"""The bench texts of document 01, the texts of docs/DECISIONS.md in the reading
taken there, and the two properties of demand 3 on random texts."""

import os
import random
import subprocess
import sys
import tempfile
import unittest

import model
from model import check, lookup

MAX = 2 ** 64


def run(text, work=MAX, frames=MAX, diags=MAX):
    if isinstance(text, str):
        text = text.encode("latin-1")
    return check(text, work, frames, diags)


def refused(text, **lent):
    number, place, frames, diags = run(text, **lent)
    assert (frames, diags) == (b"", b"")
    return number, place


def diags_of(text):
    """(kind, statement, token index, other) of each record."""
    number, place, _, diags = run(text)
    assert (number, place) == (0, 0), (number, place)
    assert len(diags) % 18 == 0
    out = []
    for i in range(0, len(diags), 18):
        r = diags[i:i + 18]
        assert r[:4] == b"\x0e\0\0\0"
        out.append((int.from_bytes(r[4:6], "little"),
                    *(int.from_bytes(r[j:j + 4], "little") for j in (6, 10, 14))))
    return out


def records(frames):
    at = 0
    while at < len(frames):
        after = at + 4 + int.from_bytes(frames[at:at + 4], "little")
        yield at, frames[at:after]
        at = after
    assert at == len(frames)


def labels_of(text):
    return [model.label_of(run(text)[2], at)[0].decode() for at, _ in records(run(text)[2])]


def frame(text, label):
    """The frame of a label, as the definitions have it."""
    toks = model.tokens(text.encode())
    for a in model.answers(model.read(toks, len(text))):
        if a.frame is not None and a.frame.label == label.encode():
            return a.frame
    return None


WHOLE = "$c ( ) wff $. $v x $. wx $f wff x $. ax $a wff ( x ) $."
WHOLE_FRAMES = bytes.fromhex(
    "1C000000 0100 16000000 FFFFFFFF 02000000 7778 03000000 776666 01000000 F8"
    "50000000 0200 25000000 02000000 6178 0100 0100 01000000 78 02000000 A8A9"
    "01000000 0100 16000000 0000 03000000 776666 03000000 776666 01000000"
    "00000000 01000000 0000 01000000 02000000 00000000 00")


class Bench(unittest.TestCase):

    def test_whole_case(self):
        self.assertEqual(len(WHOLE), 55)
        self.assertEqual(len(model.tokens(WHOLE.encode())), 20)
        self.assertEqual(len(WHOLE_FRAMES), 116)
        self.assertEqual(run(WHOLE, 336, 116, 0), (0, 0, WHOLE_FRAMES, b""))

    def test_starred(self):
        self.assertEqual(run(""), (0, 0, b"", b""))
        self.assertEqual(run("$c x $. $v x $."),
                         (0, 0, b"", bytes.fromhex("0E000000 0600 08000000 00000000 03000000")))
        self.assertEqual(refused("$}"), (5, 0))
        self.assertEqual(refused("${"), (6, 2))
        self.assertEqual(refused("$("), (4, 0))
        self.assertEqual(refused(b"\x80"), (3, 0))
        self.assertEqual(refused("$c $."), (5, 3))
        self.assertEqual(diags_of("${ $v x $. $} $d x x $."), [(2, 14, 0, 0), (2, 14, 1, 0)])
        self.assertEqual(refused(WHOLE, work=335), (2, 336))
        self.assertEqual(refused(WHOLE, frames=115), (8, 116))

    def test_run_only_variables(self):
        for n in (4095, 4096):
            names = " ".join(f"v{i}" for i in range(n))
            text = f"$c c $. $v {names} $. a $a c $. $d {names} $. b $a c $. d $a c $."
            number, place, frames, diags = run(text)
            if n == 4096:
                self.assertEqual((number, place), (7, text.index("b $a")))
            else:
                self.assertEqual((number, place, diags), (0, 0, b""))
                f = frame(text, "b")
                self.assertEqual((len(f.variables), f.mandatory, f.pairs), (4095, 0, ()))
                got = list(records(frames))[1][1]
                self.assertEqual(got[-1:], b"\x3f")     # last row, its own bit and spare 0
        names = [f"v{i}" for i in range(4096)]
        floats = " ".join(f"f{v} $f c {v} $." for v in names)
        head = f"$c c $. $v {' '.join(names)} $. {floats} "
        self.assertEqual(run(head + f"a $a c {' '.join(names[1:])} $.")[0], 0)
        text = head + f"a $a c {' '.join(names)} $."
        self.assertEqual(refused(text), (7, text.index("a $a")))
        # a rejected assertion has no frame
        self.assertEqual(run(head + f"a $a c {' '.join(names)} zz $.")[0], 0)

    def test_run_only_labels(self):
        text = "$c c $. 417 $a c $. 0417 $a c c $."
        self.assertEqual(diags_of(text), [])
        frames = run(text)[2]
        first, second_ = [at for at, _ in records(frames)]
        self.assertEqual(lookup(frames, b"417"), (0, first))
        self.assertEqual(lookup(frames, b"0417"), (0, second_))
        self.assertEqual(lookup(frames, b"00417"), (11, 0))

    def test_run_only_lengths(self):
        self.assertEqual(run(b" " * 16_777_216, 16), (0, 0, b"", b""))
        self.assertEqual(refused(b" " * 16_777_217, work=0), (1, 0))
        tail = b" " * (16_777_216 - 55) + WHOLE.encode()
        self.assertEqual(run(tail, 336)[:2], (0, 0))
        self.assertEqual(refused(tail + b" "), (1, 0))

    def test_command_line(self):
        here = os.path.dirname(os.path.abspath(model.__file__))
        program = [sys.executable, os.path.join(here, "model.py")]
        with tempfile.TemporaryDirectory() as d:
            t, f, g = (os.path.join(d, n) for n in "tfg")
            with open(t, "wb") as out:
                out.write(WHOLE.encode())

            def call(*args):
                return subprocess.run(program + list(args), check=True,
                                      capture_output=True, text=True).stdout
            self.assertEqual(call("check", t, "336", "max", "max", f, g), "0 0 116 0\n")
            with open(f, "rb") as got:
                self.assertEqual(got.read(), WHOLE_FRAMES)
            self.assertEqual(call("lookup", f, "ax"), "0 32\n")
            self.assertEqual(call("lookup", f, "zz"), "11 0\n")
            self.assertIn("$a 37 ax V 1 M 1 x", call("dump", f, g))


class Order(unittest.TestCase):

    def test_order_of_numbers(self):
        self.assertEqual(refused(b"\x80 $}", work=47), (2, 48))
        self.assertEqual(refused(b"$} \x80"), (3, 3))
        self.assertEqual(refused("$} $("), (5, 0))
        self.assertEqual(refused("$( $}"), (4, 0))
        self.assertEqual(refused("$c $("), (4, 3))
        self.assertEqual(refused("$c x $( $."), (4, 5))
        self.assertEqual(refused(b"$( \x7f $)"), (3, 3))
        self.assertEqual(refused(b"$c\x0bx $."), (3, 2))
        text = "$c c $. a $a c $. a $a c $."
        n, _, frames, diags = run(text)
        self.assertEqual((n, len(diags)), (0, 18))
        self.assertEqual(refused(text, frames=len(frames) - 1, diags=0), (8, len(frames)))
        self.assertEqual(refused(text, frames=len(frames), diags=17), (9, 18))
        self.assertEqual(run(text, 16 * 15, len(frames), 18)[0], 0)

    def test_grammar(self):
        for text, want in [
            ("a", (6, 1)), ("a $( $)", (6, 7)), ("a+b", (5, 0)), ("a b", (5, 2)),
            ("a $c x $.", (5, 2)), ("a ${ $}", (5, 2)), ("$f x y $.", (5, 0)),
            ("$d x $.", (5, 5)), ("a $f x $.", (5, 7)), ("a $f x y z $.", (5, 9)),
            ("a $f x y", (6, 8)), ("a $f x", (6, 6)), ("a $a $.", (5, 5)),
            ("a $p $= x $.", (5, 5)), ("a $p x $.", (5, 7)), ("a $p x $= $.", (5, 10)),
            ("a $p x $= y", (6, 11)), ("a $p x $= y $= $.", (5, 12)), ("a $a x $= y $.", (5, 7)),
            ("$c x$ $.", (5, 3)), ("$)", (5, 0)), ("$.", (5, 0)), ("$( $( $) $)", (5, 9)),
            ("${ $c x $}", (5, 8)), ("${ $} $}", (5, 6)), ("${ ${ $}", (6, 8)),
            ("$[ x $]", (5, 0)), ("$( x$)", (4, 0)), ("$c x $.$v", (5, 5)),
            ("$C x $.", (5, 0)), ("${ a", (6, 4)), ("$c", (6, 2)), ("$c x", (6, 4)),
        ]:
            self.assertEqual(refused(text), want, text)
        for text in ("$( a $) $c $( b $) x $( c $) $. $( d $)",
                     "$c x $. a $( $) $p $( $) x $( $) $= $( $) ? $( $) $.",
                     "${ $}", "${ ${ $} ${ $} $}", "\t\n\x0c\r ", "$( $( $)"):
            self.assertEqual(run(text)[0], 0, text)


class Rules(unittest.TestCase):

    def test_labels(self):
        text = "$c c $. a $a d $. a $a c $. a $f d d $."
        self.assertEqual(diags_of(text), [(2, 8, 1 - 1, 0), (1, 18, 0, 8), (1, 28, 0, 8)])
        self.assertEqual(labels_of(text), [])

    def test_symbols(self):
        D = diags_of
        self.assertEqual(D("$c x x $."), [(6, 0, 1, 3)])
        self.assertEqual(D("$c x $. x $a x $."), [(5, 0, 0, 8)])
        self.assertEqual(labels_of("$c x $. x $a x $."), ["x"])
        self.assertEqual(D("${ $c x y $. $}"), [(13, 3, 0, 0)])
        self.assertEqual(D("$c x $. ${ $c x $. $} x $a x $."), [(5, 0, 0, 22), (13, 11, 0, 0)])
        self.assertEqual(D("${ $v x x $. $}"), [(6, 3, 1, 6)])
        self.assertEqual(D("${ $v x $. ${ $v x $. $} $}"), [(6, 14, 0, 6)])
        self.assertEqual(D("${ ${ $v x $. $} $v x $. $}"), [])
        self.assertEqual(D("$v x $. ${ $v x $. $}"), [(6, 11, 0, 3)])
        self.assertEqual(D("${ $v x $. $} $c x $."), [(12, 3, 0, 17)])
        self.assertEqual(D("${ $v x x $. $} $c x $."), [(12, 3, 0, 19), (12, 3, 1, 19)])
        self.assertEqual(D("${ $v x $. $} $v x $. $c x $."), [(6, 22, 0, 17)])
        self.assertEqual(D("${ $v x $. $} $v x $."), [])
        # recorded although the label clashes
        self.assertEqual(D("$c c $. ${ $v x $. x $f c x $. $}"), [(5, 11, 0, 19)])

    def test_float(self):
        D = diags_of
        head = "$c c $. $v x y $. "                       # 18 bytes
        self.assertEqual(D(head + "f $f x c $."), [(9, 18, 0, 0), (10, 18, 1, 0)])
        self.assertEqual(D(head + "f $f z z $."), [(2, 18, 0, 0), (2, 18, 1, 0)])
        self.assertEqual(D(head + "f $f c x $. g $f c x $. h $f c x $."),
                         [(11, 30, 0, 18), (11, 42, 0, 18)])
        self.assertEqual(D(head + "${ f $f c x $. $} g $f c x $."), [])
        self.assertEqual(D(head + "f $f c x $. g $f c x $. a $a c x $."), [(11, 30, 0, 18)])

    def test_expression(self):
        D = diags_of
        head = "$c c $. $v x $. "                         # 16 bytes
        self.assertEqual(D(head + "a $a x z x c $."),
                         [(3, 16, 0, 0), (2, 16, 1, 0), (4, 16, 2, 0)])
        self.assertEqual(D(head + "a $p c c $= x $."), [])
        self.assertEqual(labels_of("$c c $. e $e c $."), [])

    def test_disjoint(self):
        D = diags_of
        head = "$c c $. $v x y $. "                       # 18 bytes
        self.assertEqual(D(head + "$d x x x $."), [(8, 18, 1, 0), (8, 18, 2, 0)])
        self.assertEqual(D(head + "$d c x z x c $."),
                         [(7, 18, 0, 0), (2, 18, 2, 0), (8, 18, 3, 1), (7, 18, 4, 0)])

    def test_frames(self):
        head = ("$c c ( ) $. $v x y z u w $. fx $f c x $. fy $f c y $. fz $f c z $. ")
        text = head + ("$d u x $. ${ e $e c ( y ( $. $d z y x $. fu $f c u $. "
                       "$d x y $. a $a c x ) z $. $d w x $. $}")
        self.assertEqual(diags_of(text), [])
        f = frame(text, "a")
        self.assertEqual(f.variables, (b"y", b"x", b"z", b"u"))
        self.assertEqual(f.mandatory, 3)
        self.assertEqual(f.pool, bytes([0xa8, 0xa8, 0xa9]))
        self.assertEqual(f.pairs, ((2, 0), (2, 1), (0, 1)))
        self.assertEqual([h.offset for h in f.hyps],
                         [text.index(s) for s in ("fx", "fy", "fz", "e $e")])
        self.assertEqual(f.hyps[3].expression, (b"c", ((0, 1, 0),), 1, 2))
        self.assertEqual(f.target, (b"c", ((2, 2, 1), (2, 3, 2)), 3, 3))
        self.assertEqual(model.rows(f), [0b0110, 0b1101, 0b0011, 0b0010])
        # the float after the essential
        text = "$c c $. $v x $. ${ e $e c $. f $f c x $. a $a c x $. $} b $a c $."
        f = frame(text, "a")
        self.assertEqual([type(h).__name__ for h in f.hyps], ["EssentialHyp", "FloatHyp"])
        self.assertEqual(frame(text, "b").hyps, ())
        # rejected $d, $e, $f do not enter frames
        text = "$c c $. $v x y $. $d x x y $. e $e c q $. a $a c $."
        self.assertEqual(frame(text, "a")[3:7], ((), 0, b"", ()))

    def test_lookup(self):
        frames = WHOLE_FRAMES
        self.assertEqual(lookup(frames, b"wx"), (0, 0))
        self.assertEqual(lookup(frames, b"ax"), (0, 32))
        self.assertEqual(lookup(frames, b""), (11, 0))
        self.assertEqual(lookup(b"", b""), (11, 0))
        for cut in range(1, 116):
            self.assertEqual(lookup(frames[:cut], b"wx"),
                             (0, 0) if cut == 32 else (10, 0 if cut < 32 else 32))
        rec = lambda *p: model.record(*p)
        self.assertEqual(lookup(rec(4, bytes(20)), b""), (10, 0))
        self.assertEqual(lookup(b"\1\0\0\0\1\0", b""), (10, 0))
        self.assertEqual(lookup(rec(2, bytes(8)), b""), (0, 0))
        self.assertEqual(lookup(rec(2, bytes(7)), b""), (10, 0))
        self.assertEqual(lookup(rec(1, bytes(12)), b""), (0, 0))
        self.assertEqual(lookup(rec(1, bytes(11)), b""), (10, 0))
        self.assertEqual(lookup(rec(3, bytes(4) + b"\2\0\0\0ab"), b"ab"), (0, 0))
        self.assertEqual(lookup(rec(3, bytes(4) + b"\3\0\0\0ab"), b"ab"), (10, 0))
        self.assertEqual(lookup(rec(2, bytes(8)) * 2 + b"\0", b""), (10, 28))
        self.assertEqual(lookup(rec(2, bytes(8)) * 2, b""), (0, 0))


# --------------------------------------------------------------------------
# Random texts for the two properties

NAMES = ["a", "b", "x", "y", "c", "d"]


def random_text(rng, budget):
    """Statements over few names, so that clashes are common; no refusal."""
    out, depth = [], 0
    for _ in range(budget):
        name = lambda: rng.choice(NAMES)
        names = lambda least: " ".join(name() for _ in range(least + rng.randrange(3)))
        label = lambda: rng.choice(NAMES + [f"l{i}" for i in range(12)])
        kind = rng.choice("c v v v d d f f f f e e a a p { { } (".split())
        if kind in "cv":
            out.append(f"${kind} {names(1)} $.")
        elif kind == "d":
            out.append(f"$d {names(2)} $.")
        elif kind == "f":
            out.append(f"{label()} $f {name()} {name()} $.")
        elif kind in "ea":
            out.append(f"{label()} ${kind} {names(1)} $.")
        elif kind == "p":
            out.append(f"{label()} $p {names(1)} $= ? $.")
        elif kind == "{":
            out.append("${")
            depth += 1
        elif kind == "}" and depth:
            out.append("$}")
            depth -= 1
        elif kind == "(":
            out.append(rng.choice(["$( ${ $)", "$( $} a $a $)", "$( $)"]))
    return " ".join(out + ["$}"] * depth)


def friendly_text(rng, budget):
    """The same, after a head that makes many statements pass."""
    head = "$c c d $. " + rng.choice(["$v x y $. ", "$v x $. ", "", "${ $v x $. $} "])
    return head + random_text(rng, budget)


def groups(statements):
    """Each group as its two indices."""
    open_, out = [], []
    for i, s in enumerate(statements):
        if s.kind == b"${":
            open_.append(i)
        elif s.kind == b"$}":
            out.append((open_.pop(), i))
    return out


def statements_of(text):
    return model.read(model.tokens(text), len(text))


def streams_by_statement(text):
    return [(a.statement.offset,
             b"" if a.frame is None else model.put_frame(a.frame),
             b"".join(map(model.put_diag, a.diags)))
            for a in model.answers(statements_of(text))]


class Properties(unittest.TestCase):
    ROUNDS = int(os.environ.get("ROUNDS", "1500"))

    def test_demand_3(self):
        rng = random.Random(3)
        held = frames_seen = frames_after = 0
        for _ in range(self.ROUNDS):
            text = friendly_text(rng, rng.randrange(4, 24)).encode()
            number, _, frames, diags = run(text)
            self.assertEqual(number, 0)
            per = streams_by_statement(text)
            self.assertEqual(frames, b"".join(f for _, f, _ in per))
            self.assertEqual(diags, b"".join(d for _, _, d in per))
            ss = statements_of(text)
            for i, j in groups(ss):
                inside, outside = ss[i:j + 1], ss[:i] + ss[j + 1:]
                borne = {s.label for s in inside} - {None}
                if borne & {s.label for s in outside}:
                    continue
                if borne & {t.text for s in outside if s.kind in (b"$c", b"$v")
                            for t in s.math}:
                    continue
                held += 1
                low, high = ss[i].offset, ss[j].offset + 2
                blank = text[:low] + b" " * (high - low) + text[high:]
                want = [p for p in per if not low <= p[0] < high]
                self.assertEqual(
                    check(blank, 16 * (1 + len(model.tokens(text))), len(frames), len(diags)),
                    (0, 0, b"".join(f for _, f, _ in want), b"".join(d for _, _, d in want)))
                frames_seen += any(f for _, f, _ in want)
                frames_after += any(f for o, f, _ in want if o > high)
        self.assertGreater(min(held, frames_seen, frames_after), self.ROUNDS // 20)

    def test_a13(self):
        rng = random.Random(13)
        held = 0
        for _ in range(self.ROUNDS):
            one = friendly_text(rng, rng.randrange(2, 16)).encode()
            two = random_text(rng, rng.randrange(1, 8)).encode()
            both = one + rng.choice([b" ", b"\n", b"\t \r\x0c"]) + two
            ss = statements_of(one)
            named = {t.text for s in ss if s.kind == b"$v" and s.end != model.NONE
                     for t in s.math}
            added = {t.text for s in statements_of(both)
                     if s.kind == b"$c" and s.end == model.NONE and s.offset > len(one)
                     for t in s.math}
            if named & added:
                continue
            held += 1
            self.assertTrue(run(both)[2].startswith(run(one)[2]), both)
        self.assertGreater(held, self.ROUNDS // 10)
        # the premise is not idle
        one = "$c c $. ${ $v x $. f $f c x $. $}"
        self.assertEqual(labels_of(one), ["f"])
        self.assertEqual(labels_of(one + " $v x $."), ["f"])
        self.assertEqual(labels_of(one + " $c x $."), [])
        # neither do diagnostics keep: a later label clashes with an earlier symbol
        self.assertEqual(diags_of(one), [])
        self.assertEqual(diags_of(one + " x $a c $."), [(5, 11, 0, 34)])
        self.assertEqual(labels_of(one + " x $a c $."), ["f", "x"])

    def test_corners(self):
        """Without the premises of demand 3."""
        D = diags_of
        text = "${ a $e b $. $} a $e b $."
        self.assertEqual(D(text), [(2, 3, 0, 0), (1, 16, 0, 3)])
        self.assertEqual(D(" " * 15 + text[15:]), [(2, 16, 0, 0)])
        text = "$c a $. ${ a $e a $. $}"
        self.assertEqual(D(text), [(5, 0, 0, 11)])
        self.assertEqual(D(text[:8]), [])
        self.assertEqual(D("${ $v x y $. ${ $v x $. $} $d x y $. $}"), [(6, 16, 0, 6)])
        text = "$( ${ $) $c c $. $( $} $) a $a c $."
        self.assertEqual((D(text), labels_of(text)), ([], ["a"]))
        self.assertEqual(D(text[:3] + " " * 19 + text[22:]), [(2, 26, 0, 0)])
        self.assertEqual(D("${ $c x $. $} ${ $c y $. $}"), [(13, 3, 0, 0), (13, 17, 0, 0)])
        self.assertEqual(D("$c c $. $v x $. f $f c x $. ${ g $f c x $. $} h $f c x $."),
                         [(11, 31, 0, 16), (11, 46, 0, 16)])
        self.assertEqual(D("$c x $."), [])
        self.assertEqual(D("$c x $. x $e x $."), [(5, 0, 0, 8)])
        one = "$c c $. a $a c $. $( b $)"
        for two in ("x $a c $. $( $)", "$. $a $( $) d $a c $."):
            self.assertEqual(run(one + two)[0], 0)
            self.assertTrue(run(one + two)[2].startswith(run(one)[2]))


class Coincidences(unittest.TestCase):
    """Readings that cannot be told apart."""

    def test_on_random_texts(self):
        rng = random.Random(7)
        seen = [0]

        def latest(log, name, s):
            """The latest recorded one, which counts while active."""
            things = log.by.get(name, ())
            return things[-1] if things and model.is_active(things[-1], s.offset) else None

        def looked_up(of, log):
            def both(state, name, s):
                one = of(state, name, s)
                self.assertEqual(one, latest(log(state), name, s))
                active = [x for x in log(state).by.get(name, ())
                          if model.is_active(x, s.offset)]
                self.assertLessEqual(len(active), 1)
                return one
            return both

        def framed(of):
            def both(w, state, s):
                active = lambda log: [x for x in log.all if model.is_active(x, s.offset)]
                ds = active(state.disjoints)
                self.assertEqual(ds, [d for d in ds if model.is_outermost(d)]
                                 + [d for d in ds if not model.is_outermost(d)])
                for e in active(state.essentials):
                    for c in e.math:
                        at_s = model.symbol(w, state, model.Token(s.offset, c.text), s)
                        self.assertEqual(at_s, b"$v" if c.is_variable else b"$c")
                        seen[0] += 1
                for d in ds:
                    for n in d.names:
                        at_s = model.symbol(w, state, model.Token(s.offset, n), s)
                        self.assertEqual(at_s, b"$v")
                return of(w, state, s)
            return both

        kept = model.nested_of, model.float_of, model.frame_of
        model.nested_of = looked_up(kept[0], lambda state: state.nested)
        model.float_of = looked_up(kept[1], lambda state: state.floats)
        model.frame_of = framed(kept[2])
        try:
            for _ in range(Properties.ROUNDS):
                run(friendly_text(rng, rng.randrange(4, 24)))
        finally:
            model.nested_of, model.float_of, model.frame_of = kept
        self.assertGreater(seen[0], 100)


class Ambiguities(unittest.TestCase):
    """Readings that were asked about, in the reading taken."""

    def test_reader(self):
        self.assertEqual(refused("$( $)", work=47), (2, 48))                     # Q1
        self.assertEqual(refused(b"\x80", work=31), (2, 32))                     # Q2
        self.assertEqual(refused("a"), (6, 1))                                   # Q3
        self.assertEqual(refused("("), (5, 0))                                   # Q4
        self.assertEqual(refused("a $c"), (5, 2))                                # Q5
        self.assertEqual(refused("a $f b c d"), (5, 9))                          # Q6
        self.assertEqual(run("$( $( $)")[:2], (0, 0))                            # Q7
        self.assertEqual(refused("$( $( $) $)"), (5, 9))
        self.assertEqual(refused("$c $("), (4, 3))                               # Q8
        self.assertEqual(refused("a "), (6, 2))                                  # Q9

    def test_scope(self):
        D = diags_of
        self.assertEqual(D("${ $v x y $. $d x y $. $} $v x $."), [])             # Q10
        self.assertEqual(D("${ $v x $. $} $c x $."), [(12, 3, 0, 17)])           # Q11
        self.assertEqual(D("${ $v x $. $} $v x $. $c x $."), [(6, 22, 0, 17)])   # Q12
        self.assertEqual(D("${ $c x y $. $}"), [(13, 3, 0, 0)])                  # Q13
        self.assertEqual(D("${ $c x $. $c y $. $}"), [(13, 3, 0, 0), (13, 11, 0, 0)])
        self.assertEqual(D("$c c $. $d c c $."), [(7, 8, 0, 0), (7, 8, 1, 0)])   # Q14
        self.assertEqual(D("$c c $. $v x $. f $f d x $. g $f c x $."),           # Q15
                         [(2, 16, 0, 0)])
        self.assertEqual(D("$c c $. $v x $. f $f c x $. g $f c x $. h $f c x $."),
                         [(11, 28, 0, 16), (11, 40, 0, 16)])                     # Q16
        self.assertEqual(D("$c x $. x $a y $."), [(5, 0, 0, 8), (2, 8, 0, 0)])   # Q17
        self.assertEqual(D("${ $c y $. $} y $e y $."),                           # Q18
                         [(13, 3, 0, 0), (2, 14, 0, 0)])
        self.assertEqual(D("${ $v x $. x $e y $. $d x x $. $}"),                 # Q19
                         [(5, 3, 0, 11), (2, 11, 0, 0), (8, 21, 1, 0)])

    def test_frames_and_look_up(self):
        f = frame("$c a b $. e $e a a $. c $a a b $.", "c")                      # Q20
        self.assertEqual(f.pool, bytes([0x61 + 128, 0x62 + 128]))
        f = frame("$c c $. $v x $. f $f c x $. a $a c c x x $.", "a")            # Q21
        self.assertEqual(f.target, (b"c", ((0, 1, 0), (1, 1, 0)), 1, 1))
        f = frame("$c c $. $v x y $. $d x y $. a $a c $.", "a")                  # Q22
        self.assertEqual((f.variables, f.mandatory), ((b"x", b"y"), 0))
        names = " ".join(f"v{i}" for i in range(4096))                           # Q23
        text = f"$c c $. $v {names} $. $d {names} $. a $a c $."
        self.assertEqual(refused(text), (7, len(text) - 9))
        frames = run("$c c $. a $a c $.")[2]                                     # Q24
        self.assertEqual(lookup(frames, b"a"), (0, 0))
        self.assertEqual(lookup(frames + b"\0", b"a"), (10, len(frames)))
        self.assertEqual(lookup(model.record(2, bytes(8)), b""), (0, 0))        # Q25
        self.assertEqual(diags_of("a $f b c $."), [(2, 0, 0, 0), (2, 0, 1, 0)])  # Q26
        f = frame("$c c $. e $e c $. a $a c $.", "a")                            # Q27
        self.assertEqual([h.offset for h in f.hyps], [8])
        self.assertEqual(diags_of("$c c $. f $f c c $. f $e c $."),              # Q28
                         [(10, 8, 1, 0), (1, 20, 0, 8)])


if __name__ == "__main__":
    unittest.main()
