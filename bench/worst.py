"""Texts that are hard on one part of the operation, each in two lengths: what `run` prints under 'Worst cases'.

A case is a name, two sizes, what its cost grows with, and a function from a size to the pieces of the text; after these, `--short` if
frames are to have mandatory variables only.
"""

import random

# a step of the hash of a name (crates/nameck/src/intern.rt)
FACTOR, MODULUS = 2654435769, 2 ** 32


def one_label(k):
    yield "$c c $.\n"
    yield "x $a c c $.\n" * k


def constants(k):
    yield "$c "
    yield from (f"{i:x} " for i in range(k))
    yield "$.\n"


def labels(k):
    yield "$c c $.\n"
    yield from (f"{i:x} $a c $.\n" for i in range(k))


def groups(k):
    yield "${ " * k + "$} " * k


def groups_with_floats(k):
    yield "$c c $.\n"
    yield from (f"${{ $v v{i:x} $. f{i:x} $f c v{i:x} $.\n" for i in range(k))
    yield "$} " * k


def variables(k):
    yield "$c c $.\n$v " + " ".join(f"v{i}" for i in range(k)) + " $.\n"


def floats(order):
    return "".join(f"f{i} $f c v{i} $.\n" for i in order)


def wide_disjoint(k):
    yield from variables(k)
    yield floats(range(k)) + "$d " + " ".join(f"v{i}" for i in range(k)) + " $.\n"
    yield from (f"a{i} $p c v{i} $= ? $.\n" for i in range(k))


def under_one_disjoint(k):
    yield from variables(4095)
    yield "$d " + " ".join(f"v{i}" for i in range(4095)) + " $.\n"
    yield from (f"a{i} $a c $.\n" for i in range(k))


def narrow_disjoint(k):
    yield from variables(2)
    yield floats(range(2)) + "$d v0 v1 $.\n" * k
    yield from (f"a{i} $a c v0 v1 $.\n" for i in range(k))


def many_variables(k, shuffled, disjoint):
    order = list(range(k))
    if shuffled:
        random.Random(5).shuffle(order)
    yield from variables(k)
    yield floats(order)
    if disjoint:
        yield "$d " + " ".join(f"v{i}" for i in range(k)) + " $.\n"
    yield "".join(f"a{i} $a c " + " ".join(f"v{j}" for j in range(k)) + " $.\n" for i in range(20 if not disjoint else 4))


def long_statement(k):
    yield "$c c $.\na $a " + "c " * k + "$.\n"


def common_front(k, length):
    yield "$c "
    yield from ("x" * length + f"{i:06x} " for i in range(k))
    yield "$.\n"


def one_hash_words(count):
    """Words of six bytes with one hash: then all names made of so many of them have one hash."""
    bytes_of = [b for b in range(33, 127) if b != 36]
    halves = [(x, y, z) for x in bytes_of for y in bytes_of for z in bytes_of]
    powers = [pow(FACTOR, 6 - i, MODULUS) for i in range(6)]
    last = {}
    for h in halves:
        last.setdefault(sum(b * p for b, p in zip(h, powers[3:])) % MODULUS, h)
    found = []
    for h in halves:
        rest = last.get((12345 - sum(b * p for b, p in zip(h, powers[:3]))) % MODULUS)
        if rest:
            found.append(bytes(h + rest).decode())
            if len(found) == count:
                return found
    raise ValueError("too few words with one hash")


def one_hash(k, length):
    words = one_hash_words(48)
    yield "$c "
    yield from ("x" * length + words[i % 48] + words[i // 48 % 48] + words[i // 2304 % 48] + " " for i in range(k))
    yield "$.\n"


def floats_and_assertions(k):
    yield from variables(k)
    yield floats(range(k))
    yield from (f"a{i} $a c v{i} $.\n" for i in range(k))


def essentials(k):
    yield from variables(1)
    yield floats(range(1))
    yield from (f"e{i} $e c v0 $.\n" for i in range(k))
    yield from (f"a{i} $a c v0 $.\n" for i in range(k))


def dollars(k):
    yield "$( " + "$" * (k - 6) + " $)"


def blanks(k):
    yield " " * k


def one_token(k):
    yield "$c " + "x" * (k - 6) + " $."


def long_proofs(k):
    yield "$c c $.\nx $p c c $= " + ("A" * 8000 + " ") * (k // 8001 - 1) + "$.\n"


MIB = 2 ** 20
CASES = [
    ("one label for all statements", 20_000, 40_000, "text", one_label),
    ("so many names in one `$c`", 250_000, 1_000_000, "text", constants),
    ("so many labels", 250_000, 1_000_000, "text", labels),
    ("so many groups in groups", 250_000, 1_000_000, "text", groups),
    ("the same, a `$v` and a `$f` in each", 25_000, 100_000, "text", groups_with_floats),
    ("`$d` of so many variables, as many assertions", 150, 300, "output", wide_disjoint),
    ("a `$d` of 4,095 variables, so many assertions", 50, 100, "output", under_one_disjoint),
    ("the same, optional variables left out", 1_250, 5_000, "active `$d` tokens times assertions", under_one_disjoint, "--short"),
    ("so many `$d x y`, as many assertions", 2_000, 4_000, "active `$d` times assertions", narrow_disjoint),
    ("so many variables in 20 frames, `$f` in order", 2_000, 4_000, "output", lambda k: many_variables(k, False, False)),
    ("the same, `$f` in any order", 2_000, 4_000, "output", lambda k: many_variables(k, True, False)),
    ("so many variables in four frames, a `$d` of all", 1_000, 2_000, "output", lambda k: many_variables(k, False, True)),
    ("one statement with so many tokens", 250_000, 1_000_000, "text", long_statement),
    ("so many names with a common front of 8", 250_000, 1_000_000, "text", lambda k: common_front(k, 8)),
    ("so many names with a common front of 1,440", 2_875, 11_500, "text", lambda k: common_front(k, 1_440)),
    ("so many names of 18 bytes with one hash", 25_000, 100_000, "text", lambda k: one_hash(k, 0)),
    ("so many with one hash and a common front of 1,430", 1_000, 2_000, "names times front", lambda k: one_hash(k, 1_430)),
    ("so many `$f`, as many assertions", 37_500, 150_000, "text", floats_and_assertions),
    ("so many outermost `$e`, as many assertions", 500, 1_000, "output", essentials),
    ("so many `$` in a comment", 4 * MIB, 16 * MIB, "text", dollars),
    ("so many blanks", 4 * MIB, 16 * MIB, "text", blanks),
    ("one token of so many bytes", 4 * MIB, 16 * MIB, "text", one_token),
    ("proof tokens of 8,000 bytes, so many bytes", 4 * MIB, 16 * MIB, "text", long_proofs),
]
