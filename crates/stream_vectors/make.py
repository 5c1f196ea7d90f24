"""Writes this program's cases, `stdin`, and the answers that it must write, `stdout`:

    python3 make.py VECTORS

The model is document 01 as a program, with the landed requests on top of it: its `check` gives the streams of two texts, and its `lookup`
every answer. VECTORS is a file of lines `name text work-words frame-bytes diagnostics-bytes number place frames diagnostics`.
"""
import os, struct, sys

if len(sys.argv) != 2 or sys.argv[1] in ("--help", "-h"):
    sys.exit(__doc__)
sys.dont_write_bytecode = True
sys.path.insert(0, os.path.join(os.path.dirname(os.path.abspath(__file__)), "../../tools"))
from modelled import load

model = load()
lookup = model.lookup

WHOLE = b"$c ( ) wff $. $v x $. wx $f wff x $. ax $a wff ( x ) $."
ZEROS = b"$v x $. $c wff $. 0417 $f wff x $. 417 $a wff x $. 00417 $p wff x $= ? $."
ROOM = 1 << 16
cases = []


def add(frames, label):
    cases.append((frames, label))


def at(frames, place, bytes_):
    return frames[:place] + bytes_ + frames[place + len(bytes_):]


def records(frames):
    place = 0
    while place < len(frames):
        label, after = model.label_of(frames, place, 4)
        yield place, label
        place = after


# whole streams: each label, a part of it, more than it, one that is not there, and none
def whole(frames):
    labels = [label for _, label in records(frames)]
    for label in labels + [b"", b"0" + labels[0], labels[-1][:-1], labels[-1] + b"x"]:
        add(frames, label)


# damaged copies of a stream whose records start at these places
def damaged(frames):
    places = [place for place, _ in records(frames)]
    label = [label for _, label in records(frames)][-1]
    for n in range(61):
        add(frames[:n], label)
    for place in places:
        for length in (0, 1, 2, 3, 0xFFFFFFFF, len(frames) - place - 4, len(frames) - place - 3):
            add(at(frames, place, struct.pack("<I", length)), label)
        for kind in (0, 1, 2, 3, 4, 5, 65535):
            add(at(frames, place + 4, struct.pack("<H", kind)), label)
        string = 14 if frames[place + 4] in (1, 4) else 10
        for length in (0, 1, 1000, 0xFFFFFFFF):
            add(at(frames, place + string, struct.pack("<I", length)), label)
    for n in range(1, 9):
        add(frames + bytes(n), label)
    add(frames + frames, label)
    add(frames + b"\x02\0\0\0\x02\0", label)


def stream(text):
    return model.check(text, ROOM, ROOM, ROOM, model.FULL)[2]


# the same with kind 1
def stubbed(frames):
    out = bytearray(frames)
    for place, _ in records(frames):
        if out[place + 4] == 4:
            out[place + 4] = 1
            out[place + 3 + struct.unpack_from("<I", frames, place)[0]] += 128
    return bytes(out)


add(b"", b"")
add(b"", b"ax")
for text in (WHOLE, ZEROS):
    whole(stream(text))
    damaged(stream(text))
damaged(stubbed(stream(WHOLE)))
for byte in (0, 1, 120, 127, 128, 248, 255):
    for place in (24, 27, 31):
        add(at(stubbed(stream(WHOLE)), place, bytes([byte])), b"ax")
for line in open(sys.argv[1]):
    word = line.split()
    if word[0] != "#" and word[7] != "-" and len(word[7]) <= 500:
        whole(bytes.fromhex(word[7]))

here = os.path.dirname(os.path.abspath(__file__))
with open(os.path.join(here, "stdin"), "wb") as f:
    for frames, label in cases:
        f.write(struct.pack("<HH", len(frames), len(label)) + frames + label)
with open(os.path.join(here, "stdout"), "w") as f:
    for frames, label in cases:
        f.write("%d %d\n" % lookup(frames, label))
print(len(cases), "cases,", sum(4 + len(a) + len(b) for a, b in cases), "bytes")
