#!/usr/bin/env python3
"""A1, A9, A8, A11 and A13: the smallest text of each place of document 02 that
can be read in two ways, in the reading taken, and properties on random texts.

Each test carries the number of its reading in the list of readings: V (A1), P (A9),
S (A8), Z (A11), H (A13).  A verdict is written (verdict, step): 1 right, 2 wrong,
3 incomplete.
"""

import os
import random
import sys
import unittest

HERE = os.path.dirname(os.path.abspath(__file__))
sys.path[:0] = [HERE, os.path.join(HERE, "..")]
import a1_proofs
import a8_short_frames
import a9_compressed
import a11_mender
import a13_later_stock
import model

MAX = 2 ** 64

PRE = ("$c ( ) -> wff |- $. $v P Q $. wp $f wff P $. wq $f wff Q $. "
       "wi $a wff ( P -> Q ) $. ax $a |- ( P -> P ) $. "
       "${ m1 $e |- P $. m2 $e |- ( P -> Q ) $. mp $a |- Q $. $} ")


def theorem(proof):
    """wp is its one mandatory hypothesis, A in a compressed proof."""
    return PRE + f"t $p |- ( P -> P ) $= {proof} $."


def a1(text, work=MAX, frames=MAX, diags=MAX, stack=MAX, verdicts=MAX):
    return a1_proofs.check(text.encode(), work, frames, diags, stack, verdicts)


def a9(text, work=MAX, frames=MAX, diags=MAX, stack=MAX, marks=MAX, verdicts=MAX):
    return a9_compressed.check(text.encode(), work, frames, diags, stack, marks, verdicts)


def split(verdicts):
    """(verdict, step) of each record, by the statement's offset."""
    out = {}
    for i in range(0, len(verdicts), 14):
        assert model.number_at(verdicts, i, 4) == 10
        out[model.number_at(verdicts, i + 6, 4)] = (
            model.number_at(verdicts, i + 4, 2), model.number_at(verdicts, i + 10, 4))
    return out


def verdicts_of(text, request=a1):
    """By label."""
    number, place, _, _, verdicts = request(text)
    assert (number, place) == (0, 0), (number, place)
    return {text[at:].split()[0]: v for at, v in split(verdicts).items()}


def judged(proof, request=a1):
    return verdicts_of(theorem(proof), request)["t"]


class Proofs(unittest.TestCase):                            # A1

    def test_bytes(self):
        text = theorem("wp ax")
        number, place, frames, diags, verdicts = a1(text)
        self.assertEqual((number, place), (0, 0))
        self.assertEqual((0, 0, frames, diags), model.check(text.encode(), MAX, MAX, MAX))
        self.assertEqual(verdicts, bytes.fromhex("0A000000 0100")
                         + model.u32(text.index("t $p")) + model.u32(0))

    def test_v1_steps(self):
        self.assertEqual(judged("wp ax"), (1, 0))
        self.assertEqual(judged("wp $( ? $) ax"), (1, 0))
        self.assertEqual(judged("wp $( ? $) nosuch"), (2, 2))
        self.assertEqual(judged("wp ?"), (3, 2))
        self.assertEqual(judged("wp ??"), (2, 2))
        self.assertEqual(judged("?"), (3, 1))

    def test_v2_first_bearer(self):
        text = PRE + "${ x $e q $. $} x $a |- ( P -> P ) $. t $p |- ( P -> P ) $= x $."
        self.assertEqual(verdicts_of(text), {"t": (2, 1)})
        text = PRE + "ax $a |- P $. t $p |- ( P -> P ) $= wp ax $."
        self.assertEqual(verdicts_of(text), {"t": (1, 0)})
        text = PRE + "s $p |- ( P -> P ) $= ? $. t $p |- ( P -> P ) $= wp s $."
        self.assertEqual(verdicts_of(text), {"s": (3, 1), "t": (1, 0)})
        self.assertEqual(judged("wp t"), (2, 2))                                # itself
        text = theorem("wp bx") + " bx $a |- ( P -> P ) $."                     # later
        self.assertEqual(verdicts_of(text), {"t": (2, 2)})
        self.assertEqual(judged("wp m1"), (2, 2))                               # inactive

    def test_v3_held_and_pushed(self):
        text = theorem("wp ax")
        self.assertEqual(a1(text, stack=8)[0], 0)
        self.assertEqual(a1(text, stack=7), (12, text.index("t $p"), b"", b"", b""))

    def test_v4_wrong_pushes_nothing(self):
        number, _, _, _, verdicts = a1(theorem("nosuch wp"), stack=0)
        self.assertEqual((number, list(split(verdicts).values())), (0, [(2, 1)]))
        text = PRE + "${ h $e |- P $. t $p |- Q $= wp wq h h mp $. $}"
        number, _, _, _, verdicts = a1(text, stack=8)
        self.assertEqual((number, list(split(verdicts).values())), (0, [(2, 5)]))
        self.assertEqual(a1(text, stack=7)[:2], (12, text.index("t $p")))
        self.assertEqual(a1(theorem("?"), stack=0)[0], 0)

    def test_v5_twelve_before_verdicts(self):
        text = theorem("wp nosuch")
        self.assertEqual(a1(text, stack=1)[:2], (12, text.index("t $p")))
        text = PRE + ("r $p wff P $= wp $. s $p |- ( P -> P ) $= wp ax $. "
                      "t $p |- ( P -> P ) $= wp ax $.")
        self.assertEqual(a1(text, stack=8)[0], 0)
        self.assertEqual(a1(text, stack=7)[:2], (12, text.index("s $p")))
        self.assertEqual(a1(text, stack=1)[:2], (12, text.index("r $p")))

    def test_v6_end(self):
        self.assertEqual(judged("wp"), (2, 2))
        self.assertEqual(judged("wp wp ax"), (2, 4))
        self.assertEqual(judged("wp wq wi"), (2, 4))

    def test_v7_disjoint(self):
        head = ("$c w |- A $. $v x y z u $. fx $f w x $. fy $f w y $. fz $f w z $. fu $f w u $. "
                "pair $a w x y $. ${ $d x y $. d $a |- x y $. $} ")
        for d, proof, want in [
                ("", "fx fy d", (2, 3)), ("$d x y $.", "fx fy d", (1, 0)),
                ("$d x z $.", "fx fy d", (2, 3)), ("$d x y $.", "fx fx d", (2, 3))]:
            text = head + "${ " + d + " t $p |- x y $= " + proof + " $. $}"
            self.assertEqual(verdicts_of(text), {"t": want}, text)
        # each cross pair, optional variables too
        proof = "fx fz pair fy fu pair d"
        target = "t $p |- x z y u $= " + proof + " $. $}"
        four = "$d x y $. $d x u $. $d z y $. $d z u $. "
        self.assertEqual(verdicts_of(head + "${ " + four + target), {"t": (1, 0)})
        for one in ("$d x y $. ", "$d x u $. ", "$d z y $. ", "$d z u $. "):
            text = head + "${ " + four.replace(one, "") + target
            self.assertEqual(verdicts_of(text), {"t": (2, 7)}, text)
        optional = head + "forget $a |- A $. ${ $d z u $. e $e |- A $. "
        text = optional + "t $p |- A $= fz fu d $. $}"
        self.assertEqual(verdicts_of(text), {"t": (2, 4)})              # step 3 is fine
        # after the `$p`, rejected, in a closed group
        for d in ("t $p |- x y $= fx fy d $. $d x y $.",
                  "$d x y y $. t $p |- x y $= fx fy d $.",
                  "${ $d x y $. $} t $p |- x y $= fx fy d $."):
            self.assertEqual(verdicts_of(head + d), {"t": (2, 3)}, d)

    def test_v8_empty_substitution(self):
        text = ("$c w |- $. $v x y $. f $f w x $. g $f w y $. e $a w $. a $a |- x y $. "
                "t $p |- y $= e g a $.")
        self.assertEqual(verdicts_of(text), {"t": (1, 0)})

    def test_v9_rejected(self):
        self.assertEqual(a1("a $p w $= ? $.")[4], b"")
        self.assertEqual(a1("a $p w $= ? $.", stack=0, verdicts=0)[0], 0)

    def test_v10_brackets_are_steps(self):
        self.assertEqual(judged("( ax ) AB"), (2, 1))
        self.assertEqual(judged("( ax ) AB", a9), (1, 0))

    def test_v11_seventeen(self):
        text = theorem("wp ax")
        self.assertEqual(a1(text, verdicts=13), (17, 14, b"", b"", b""))
        self.assertEqual(a1(text, verdicts=14)[0], 0)
        self.assertEqual(a1(text, stack=7, verdicts=13)[0], 12)
        frames, diags = map(len, model.check(text.encode(), MAX, MAX, MAX)[2:])
        self.assertEqual(a1(text, frames=frames - 1, stack=0, verdicts=0)[:2], (8, frames))
        bad = text + " a $a q $."
        self.assertEqual(a1(bad, diags=17, stack=0, verdicts=0)[:2], (9, 18))

    def test_v12_premise_of_demand_3(self):
        text = "$c w $. ${ a $a w $. $} t $p w $= a $."
        self.assertEqual(verdicts_of(text), {"t": (1, 0)})
        self.assertEqual(verdicts_of(text.replace("${ a $a w $. $}", " " * 15)), {"t": (2, 1)})

    def test_v13_words(self):
        self.assertEqual(a1(theorem("wp"), stack=2)[0], 0)
        self.assertEqual(a1(theorem("wp"), stack=1)[0], 12)

    def test_twelve_is_soon_found(self):
        """Each wd doubles the entry: 2 to the 1,000 symbols are not built."""
        text = "$c w $. $v x $. fx $f w x $. wd $a w x x $. t $p w x $= fx " + "wd " * 1000 + "$."
        self.assertEqual(a1(text, stack=5000)[:2], (12, text.index("t $p")))
        self.assertEqual(a9(text, stack=5000)[:2], (12, text.index("t $p")))

    def test_typecodes(self):
        text = PRE + "t $p |- ( P -> P ) $= wp ax ax $."        # |- where wff is asked
        self.assertEqual(verdicts_of(text), {"t": (2, 3)})
        self.assertEqual(judged("ax"), (2, 1))                  # no entry to take


class Compressed(unittest.TestCase):                        # A9

    def test_p1_form_first(self):
        self.assertEqual(judged("( ax ) BAa", a9), (2, 2))
        self.assertEqual(judged("( ax ) ?a", a9), (2, 1))
        self.assertEqual(a9(theorem("( ax ) ABa"), stack=0)[0], 0)

    def test_p2_brackets(self):
        self.assertEqual(judged("(ax ) AB", a9), (2, 1))
        self.assertEqual(judged("wp ( ax )", a9), (2, 2))
        self.assertEqual(judged("( ax )AB", a9), (2, 0))
        self.assertEqual(judged("( ax AB", a9), (2, 0))
        self.assertEqual(judged("( ax wp ) AB", a9), (2, 0))
        self.assertEqual(judged("( ax wq ) AB", a9), (1, 0))    # not mandatory

    def test_p3_white_space(self):
        self.assertEqual(judged("( ax ) A Z B", a9), (1, 0))
        names = " ".join(["ax"] * 20)
        self.assertEqual(judged(f"( {names} ) A U A", a9), (1, 0))
        self.assertEqual(judged("( ax ) A $( x $) B", a9), (1, 0))

    def test_p4_unused_labels(self):
        self.assertEqual(judged("( ax nosuch ) AB", a9), (1, 0))
        self.assertEqual(judged("( ax nosuch ) AC", a9), (2, 2))
        self.assertEqual(judged("( ax ax t m1 ) AC", a9), (1, 0))
        self.assertEqual(judged("( ax t ) AC", a9), (2, 2))
        self.assertEqual(judged("( ax m1 ) C", a9), (2, 1))

    def test_p5_begun(self):
        self.assertEqual(judged("( ax ) ABU", a9), (2, 3))
        self.assertEqual(judged("( ax ) ZA", a9), (2, 0))
        self.assertEqual(judged("( ax ) AaB", a9), (2, 1))
        self.assertEqual(judged("( ax ) U?", a9), (2, 1))
        self.assertEqual(judged("( ax ) UZ", a9), (2, 1))
        self.assertEqual(judged("( ax ) Ua", a9), (2, 1))

    def test_p6_z(self):
        self.assertEqual(judged("( ax ) AZB", a9), (1, 0))
        self.assertEqual(judged("( ax ) AZZB", a9), (2, 1))
        self.assertEqual(judged("( ax ) ?Z", a9), (2, 1))
        self.assertEqual(judged("( ax ) AZCZB", a9), (2, 4))    # C is the mark; two are left

    def test_p7_no_letters(self):
        self.assertEqual(judged("( ax )", a9), (2, 1))
        self.assertEqual(judged("( )", a9), (2, 1))

    def test_p8_question(self):
        self.assertEqual(judged("( ? ) B", a9), (3, 1))
        self.assertEqual(judged("( ? ) A", a9), (2, 2))
        self.assertEqual(judged("( ax ) A?", a9), (3, 2))
        self.assertEqual(judged("( ax ) ??", a9), (3, 1))

    def test_p9_marks(self):
        text = theorem("( ax ) AZBZ")
        self.assertEqual(a9(text, marks=8)[0], 0)
        self.assertEqual(a9(text, marks=7), (12, text.index("t $p"), b"", b"", b""))
        text = theorem("( ax ) AZCZB")                          # marked a second time
        self.assertEqual(a9(text, marks=4)[0], 0)
        self.assertEqual(a9(text, marks=3)[0], 12)
        text = theorem("( ax ) AZB")                            # never used
        self.assertEqual(a9(text, stack=8, marks=2)[0], 0)
        self.assertEqual(a9(text, stack=8, marks=1)[0], 12)
        self.assertEqual(a9(text, stack=7, marks=2)[0], 12)
        self.assertEqual(a9(theorem("( ax ) BZA"), marks=0)[0], 0)      # Z is not reached

    def test_p10_long_numbers(self):
        self.assertEqual(judged("( ax ) " + "U" * 60 + "A", a9), (2, 1))
        self.assertEqual(judged("( ax ) A" + "Y" * 999 + "TB", a9), (2, 2))

    def test_p11_marks_so_far(self):
        self.assertEqual(judged("( ax ) CAZ", a9), (2, 1))
        self.assertEqual(judged("( ax ) BZC", a9), (2, 1))      # form fine, step 1 wrong
        self.assertEqual(judged("( ax ) BD", a9), (2, 2))

    def test_numbers(self):
        names = " ".join(["nosuch"] * 119 + ["ax"])
        for letters, number in (("A", 1), ("T", 20), ("UA", 21), ("YT", 120), ("UUA", 121)):
            r = a9_compressed.Reading()
            for b in letters.encode():
                r = a9_compressed.letter([b"n%d" % i for i in range(1, 200)], r, b)
            self.assertEqual(r.steps[0].what, b"n%d" % number)
        self.assertEqual(judged(f"( {names} ) AUUA", a9), (1, 0))
        self.assertEqual(judged(f"( {names} ) AUUB", a9), (2, 2))

    def test_shared_steps(self):
        # |- ( ( P -> P ) -> ( P -> P ) ), with wff ( P -> P ) built once
        text = PRE + "t $p |- ( ( P -> P ) -> ( P -> P ) ) $= ( wi ax ) AABZC $."
        self.assertEqual(verdicts_of(text, a9), {"t": (1, 0)})
        text = PRE + "t $p wff ( ( P -> P ) -> ( P -> P ) ) $= ( wi ) AABZCB $."
        self.assertEqual(verdicts_of(text, a9), {"t": (1, 0)})
        # held before the last step 12, pushed 14
        self.assertEqual(a9(text, stack=26, marks=6)[0], 0)
        self.assertEqual(a9(text, stack=25, marks=6)[0], 12)
        self.assertEqual(a9(text, stack=26, marks=5)[0], 12)

    def test_uncompressed_as_before(self):
        for proof in ("wp ax", "wp ?", "wp nosuch", "wp wp ax", "?"):
            self.assertEqual(judged(proof, a9), judged(proof, a1))


class Short(unittest.TestCase):                             # A8

    FULL = a8_short_frames.FULL

    def check(self, text, setting=a8_short_frames.SHORT, work=MAX, frames=MAX, diags=MAX):
        return a8_short_frames.check(text.encode(), work, frames, diags, setting)

    def test_s1_only_variables_and_rows(self):
        text = ("$c w $. $v x y z $. fx $f w x $. fy $f w y $. $d z y x $. e $e w y $. "
                "a $a w x $.")
        frames = [f for f in a8_short_frames.frames_of(text.encode())]
        full, short = frames[-1], a8_short_frames.short(frames[-1])
        self.assertEqual((full.variables, full.mandatory), ((b"y", b"x", b"z"), 2))
        self.assertEqual(short.variables, (b"y", b"x"))
        self.assertEqual((short.pairs, short.hyps, short.pool, short.target),
                         (full.pairs, full.hyps, full.pool, full.target))
        self.assertEqual((model.rows(full), model.rows(short)), ([6, 5, 3], [2, 1]))
        self.assertEqual(frames[:2], [a8_short_frames.short(f) for f in frames[:2]])

    def test_s2_no_rows(self):
        text = "$c w $. $v x y $. $d x y $. a $a w $."
        number, _, frames, _ = self.check(text)
        self.assertEqual((number, model.number_at(frames, 0, 4), len(frames)), (0, 44, 48))
        self.assertEqual(len(self.check(text, self.FULL)[2]), 48 + 10 + 2)
        self.assertEqual(self.check(text, frames=47)[:2], (8, 48))
        self.assertEqual(self.check(text, self.FULL, frames=59)[:2], (8, 60))

    def test_s3_number_7(self):
        for n, want in ((4095, 0), (4096, 7)):
            variables = " ".join(f"v{i}" for i in range(n))
            text = f"$c w $. $v {variables} $. $d {variables} $. a $a w $."
            for setting in (a8_short_frames.SHORT, self.FULL):
                number, place, _, _ = self.check(text, setting, frames=MAX if want == 0 else 0)
                self.assertEqual(number, want)
                self.assertEqual(place, text.index("a $a") if want else 0)

    def test_full_is_document_01(self):
        text = PRE + "a $a q $."
        self.assertEqual(self.check(text, self.FULL), model.check(text.encode(), MAX, MAX, MAX))
        self.assertEqual(self.check(text, diags=17)[:2], (9, 18))
        self.assertEqual(self.check(text, work=0)[0], 2)


class Mender(unittest.TestCase):                            # A11

    def mend(self, text, work=MAX, new=MAX, records=MAX):
        return a11_mender.mend(text.encode(), work, new, records)

    def records(self, text):
        """(kind, old offset, old, new) of each record, and the new text."""
        number, place, new, records = self.mend(text)
        assert (number, place) == (0, 0)
        out, at = [], 0
        while at < len(records):
            n = model.number_at(records, at + 10, 4)
            old = records[at + 14:at + 14 + n]
            m = model.number_at(records, at + 14 + n, 4)
            label = records[at + 18 + n:at + 18 + n + m]
            assert model.number_at(records, at, 4) == 14 + n + m
            out.append((model.number_at(records, at + 4, 2), model.number_at(records, at + 6, 4),
                        old.decode(), label.decode()))
            at += 18 + n + m
        return out, new.decode()

    def test_bytes(self):
        text = "07 $a w $. t $p w $= 7 $."
        self.assertEqual(self.mend(text), (
            0, 0, b"07 $a w $. t $p w $= 07 $.",
            bytes.fromhex("11000000 0100 15000000 01000000 37 02000000 3037")))

    def test_z1_rejected_count(self):
        # every text here has rejected statements only
        text = "t $p w $= 7 $. ${ 07 $e q $. $}"
        self.assertEqual(self.records(text), ([(1, 10, "7", "07")], text.replace("= 7", "= 07")))
        n = 4096                                            # number 7 is not the reader's
        variables = " ".join(f"v{i}" for i in range(n))
        text = f"$c w $. $v {variables} $. $d {variables} $. a $a w $."
        self.assertEqual(self.mend(text)[:3], (0, 0, text.encode()))

    def test_z2_brackets(self):
        text = "07 $a w $. t $p w $= ( x ) 7 $."
        self.assertEqual(self.records(text), ([], text))
        text = "07 $a w $. t $p w $= ( 7 x 7 $."
        self.assertEqual(self.records(text), ([], text))
        text = "07 $a w $. t $p w $= ( 7 x ) 7 $."
        self.assertEqual(self.records(text), ([(1, 23, "7", "07")], text.replace("( 7", "( 07")))
        text = "07 $a w $. t $p w $= x ( 7 ) 7 $."
        self.assertEqual([r[0] for r in self.records(text)[0]], [1, 1])

    def test_z3_zero(self):
        text = "00 $a w $. t $p w $= 0 $."
        self.assertEqual(self.records(text), ([(1, 21, "0", "00")], text.replace("= 0", "= 00")))

    def test_z4_some_zeros(self):
        text = "007 $a w $. t $p w $= 07 7 0007 70 $."
        self.assertEqual(self.records(text), (
            [(1, 22, "07", "007"), (1, 25, "7", "007"), (2, 27, "0007", ""), (2, 32, "70", "")],
            text.replace("= 07 7", "= 007 007")))

    def test_z5_a_record_for_each(self):
        text = "07 $a w $. 007 $a w $. 07 $a w $. 5 $a w $. t $p w $= 7 7 5 8 x ? 07 $."
        self.assertEqual([r[0] for r in self.records(text)[0]], [3, 3, 2])
        self.assertEqual(self.records(text)[1], text)
        text = "07 $a w $. 07 $a w $. t $p w $= 7 $."              # twice borne counts once
        self.assertEqual([r[0] for r in self.records(text)[0]], [1])

    def test_z6_numbers(self):
        text = "07 $a w $. t $p w $= 7 $."
        self.assertEqual(self.mend(text, new=25, records=20), (8, 26, b"", b""))
        self.assertEqual(self.mend(text, new=26, records=20), (9, 21, b"", b""))
        self.assertEqual(self.mend(text, new=26, records=21)[0], 0)
        self.assertEqual(self.mend(text, work=175)[:2], (2, 176))
        self.assertEqual(self.mend(text[:-1], new=0)[:2], (5, 23))
        self.assertEqual(self.mend("t $p w $= 7", new=0)[:2], (6, 11))

    def test_too_long(self):
        text = "07 $a w $. t $p w $= 7 $."
        for n, want in ((16_777_215, 0), (16_777_216, 1)):
            self.assertEqual(self.mend(text + " " * (n - 25), new=MAX if want == 0 else 0)[:2],
                             (want, 0))

    def test_again(self):
        for text in ("007 $a w $. t $p w $= 07 7 0007 $.", "07 $a w $. 007 $a w $. t $p w $= 7 $."):
            new = self.records(text)[1]
            records, again = self.records(new)
            self.assertEqual(again, new)
            self.assertFalse([r for r in records if r[0] == 1])


class Later(unittest.TestCase):                             # A13

    def premise(self, first, added):
        return a13_later_stock.premise(a13_later_stock.answer, first, added)

    def test_h1_added_part(self):
        first = b"$c c $. ${ $v x $. f $f c x $. $}"
        for added in (b" ", b"\n$( x $)", b" $v x $.", b" ${ $c x $. $}", b" $c y $."):
            self.assertTrue(self.premise(first, added), added)
            self.assertTrue(a13_later_stock.theorem(first, added), added)
        for added in (b"", b" $c x $.", b" $c", b"$( x $)"):
            self.assertFalse(self.premise(first, added), added)
        # without the premise the conclusion may fail
        self.assertFalse(a13_later_stock.conclusion(a13_later_stock.answer, first, b" $c x $."))
        # every nested `$v` token counts, recorded or not
        self.assertFalse(self.premise(b"$v x $. ${ $v x $. $}", b" $c x $."))


# --------------------------------------------------------------------------
# Properties on random texts

def random_text(rng, budget):
    """Statements over few names after a head that makes many pass; proofs of
    few steps, some compressed."""
    labels = [f"l{i}" for i in range(8)] + ["7", "07", "007"]
    out, depth = ["$c c d $. $v x y z $. fx $f c x $. fy $f c y $."], 0
    for _ in range(budget):
        some = lambda: " ".join(rng.choice("cxyd") for _ in range(rng.randrange(3)))
        kind = rng.choice("v d d f e e a a a p p p p { { }".split())
        label = rng.choice(labels)
        steps = " ".join(rng.choice(labels + ["fx", "fy", "fx", "fy", "?"])
                         for _ in range(1 + rng.randrange(4)))
        if rng.randrange(2) == 0:
            steps = f"( {steps} ) " + "".join(rng.choice("AABBCZD?") for _ in range(rng.randrange(6)))
        if kind == "v":
            out.append(f"$v {rng.choice('uv')} $.")
        elif kind == "d":
            out.append(f"$d {rng.choice(['x y', 'y x', 'x z', 'z y x', 'x u', 'x x'])} $.")
        elif kind == "f":
            out.append(f"{label} $f {rng.choice('cd')} {rng.choice('zu')} $.")
        elif kind in "ea":
            out.append(f"{label} ${kind} c {some()} $.")
        elif kind == "p":
            out.append(f"{label} $p c {some()} $= {steps} $.")
        elif kind == "{":
            out.append("${")
            depth += 1
        elif kind == "}" and depth:
            out.append("$}")
            depth -= 1
    return " ".join(out + ["$}"] * depth)


def groups(statements):
    opened, out = [], []
    for s in statements:
        if s.kind == b"${":
            opened.append(s.offset)
        elif s.kind == b"$}":
            out.append((opened.pop(), s.offset))
    return out


class Properties(unittest.TestCase):
    ROUNDS = int(os.environ.get("ROUNDS", "300"))

    def texts(self, seed):
        rng = random.Random(seed)
        for _ in range(self.ROUNDS):
            yield random_text(rng, rng.randrange(4, 30))

    def test_demand_3_covers_verdicts(self):
        met = taken_out = 0
        for text in self.texts(31):
            data = text.encode()
            ss = model.read(model.tokens(data), len(data))
            before = split(a9(text)[4])
            for low, high in groups(ss):
                inside = {s.label for s in ss if low <= s.offset <= high} - {None}
                outside = [s for s in ss if not low <= s.offset <= high]
                proof_of = dict(zip((s.offset for s in ss if s.kind == b"$p"),
                                    a1_proofs.proofs(model.tokens(data))))
                borne = {s.label for s in outside}
                declared = {t.text for s in outside if s.kind in (b"$c", b"$v") for t in s.math}
                named = {t.text for s in outside for t in proof_of.get(s.offset, ())}
                if inside & (borne | declared | named):
                    continue
                met += 1
                blank = text[:low] + " " * (high + 2 - low) + text[high + 2:]
                kept = {at: v for at, v in before.items() if not low <= at <= high}
                taken_out += len(before) - len(kept)
                self.assertEqual(split(a9(blank)[4]), kept)
        self.assertGreater(met, 20)
        self.assertGreater(taken_out, 5)

    def test_short_is_full_restricted(self):
        optional = 0
        for text in self.texts(8):
            for f in a8_short_frames.frames_of(text.encode()):
                if isinstance(f, model.Frame):
                    self.assertTrue(a8_short_frames.is_restriction(a8_short_frames.short(f), f))
                    optional += len(f.variables) > f.mandatory
        self.assertGreater(optional, 20)

    def test_mending_twice(self):
        replaced = 0
        for text in self.texts(11):
            _, _, new, records = a11_mender.mend(text.encode(), MAX, MAX, MAX)
            again = a11_mender.mend(new, MAX, MAX, MAX)
            self.assertEqual(again[2], new)
            replaced += new != text.encode()
        self.assertGreater(replaced, 20)

    def test_later_stock(self):
        short = lambda text: a8_short_frames.check(text, MAX, MAX, MAX)[0:3:2]
        met = 0
        for first, added in zip(self.texts(13), self.texts(14)):
            added = " " + added
            met += a13_later_stock.premise(
                a13_later_stock.answer, first.encode(), added.encode())
            self.assertTrue(a13_later_stock.theorem(first.encode(), added.encode()))
            self.assertTrue(a13_later_stock.theorem(first.encode(), added.encode(), short))
        self.assertGreater(met, 20)

    def test_room_decides_nothing_else(self):
        """12 exactly under the words needed; else the same verdicts."""
        seen = 0
        for text in self.texts(1):
            needs = [o for _, o in a1_proofs.outcomes(text.encode(), a9_compressed.either(MAX, MAX))]
            most = max((o.words for o in needs), default=0)
            marks = max((o.mark_words for o in needs), default=0)
            self.assertEqual(a9(text, stack=most, marks=marks), a9(text))
            if most:
                self.assertEqual(a9(text, stack=most - 1)[0], 12)
            if marks:
                self.assertEqual(a9(text, marks=marks - 1)[0], 12)
                seen += 1
        self.assertGreater(seen, 5)


if __name__ == "__main__":
    unittest.main()
