"""Texts drawn at random, for the vectors and for the comparison with the published Rust.

The same generator of numbers gives the same texts. `orderly` draws texts that are mostly right, most of them in the domain of
equality of document 01; `loose` draws statements with no regard for what they mean; `damaged` spoils the bytes of a text.
"""

WHITE = [" "] * 14 + ["\n", "\n", "\t", "\r", "\f", "  ", " \n"]
CONSTANTS = ["wff", "|-", "(", ")", "->", "set", "=", "e.", "0417", "~~", "c1", "a-very-long.constant"]
VARIABLES = ["x", "y", "z", "ph", "ps", "A", "B", "x'", "417", "v_1", "a-very-long.variable"]
LABELS = ["ax-1", "wx", "417", "0417", "mp2.b", "T", "a", "b", "l_1", "h.1", "-", ".", "_", "x", "thm.a-b_c", "00417", "e1", "e2"]
SYMBOLS = CONSTANTS + VARIABLES
REMARKS = [["a", "remark"], ["$a", "x", "$."], ["wx", "$f"], ["$)x", "x$)"], []]


def spaced(r, tokens):
    """The tokens as bytes, white space of every kind between them and a comment here and there."""
    out = []
    for token in tokens:
        if r.random() < 0.02:
            for word in ["$(", *r.choice(REMARKS), "$)"]:
                out += [word, r.choice(WHITE)]
        out += [token, r.choice(WHITE)]
    return "".join(r.choice([out, out[:-1]])).encode()


class Orderly:
    """One text in the making: `scopes` holds, for each open group, the variables that have a `$f` there."""

    def __init__(self, r, slips):
        self.r, self.slips = r, slips
        self.tokens, self.scopes = [], [[]]
        self.constants = r.sample(CONSTANTS, r.randint(2, 5))
        self.labels = r.sample(LABELS, len(LABELS))

    def label(self):
        if not self.labels or self.r.random() < self.slips:
            return self.r.choice(LABELS)
        return self.labels.pop()

    def symbol(self, good):
        return self.r.choice(SYMBOLS if not good or self.r.random() < self.slips else good)

    def variables(self):
        return [v for scope in self.scopes for v in scope]

    def expression(self):
        good = self.variables() * 2 + self.constants
        return [self.symbol(self.constants), *(self.symbol(good) for _ in range(self.r.randint(0, 5)))]

    def floats(self, names):
        for v in names:
            self.tokens += [self.label(), "$f", self.r.choice(self.constants), v, "$."]
            self.scopes[-1].append(v)

    def disjoint(self, names):
        if len(names) >= 2:
            self.tokens += ["$d", *self.r.sample(names, self.r.randint(2, min(4, len(names)))), "$."]

    def assertion(self):
        if self.r.random() < 0.5:
            self.tokens += [self.label(), "$a", *self.expression(), "$."]
        else:
            self.tokens += [self.label(), "$p", *self.expression(), "$=", *self.r.choice([["?"], ["(", "wx", ")", "ABC"]]), "$."]

    def group(self, depth):
        r = self.r
        self.tokens.append("${")
        self.scopes.append([])
        if r.random() < 0.4:
            fresh = [v for v in VARIABLES if v not in self.variables()]
            new = r.sample(fresh, min(len(fresh), r.randint(1, 2)))
            self.tokens += ["$v", *new, "$."]
            self.floats(new)
        for _ in range(r.randint(1, 6)):
            what = r.random()
            if what < 0.3:
                self.disjoint([self.symbol(self.variables())] * (r.random() < self.slips) + self.variables())
            elif what < 0.5:
                self.tokens += [self.label(), "$e", *self.expression(), "$."]
            elif what < 0.5 + self.slips / 2:
                self.tokens += [r.choice(["$c", "$v"]), r.choice(SYMBOLS), "$."]
            elif what < 0.65 and depth < 3:
                self.group(depth + 1)
            else:
                self.assertion()
        self.scopes.pop()
        self.tokens.append("$}")

    def text(self):
        r = self.r
        variables = r.sample([v for v in VARIABLES if v not in self.constants], r.randint(1, 6))
        self.tokens += ["$c", *self.constants, "$.", "$v", *variables, "$."]
        self.floats(variables if r.random() < 0.8 else variables[1:])
        for _ in range(r.choice([0, 0, 1, 2])):
            self.disjoint(variables)
        for _ in range(r.randint(1, 3)):
            self.group(1) if r.random() < 0.7 else self.assertion()
        return self.tokens


def orderly(r, most):
    """A text of at most so many bytes, most of its statements accepted."""
    while True:
        text = spaced(r, Orderly(r, r.choice([0, 0.02, 0.1])).text())
        if len(text) <= most:
            return text


def loose_statement(r, symbols, labels):
    some = lambda least, most: [r.choice(symbols) for _ in range(r.randint(least, most))]
    kind = r.choice(["$c", "$v", "$v", "$d", "$d", "$f", "$f", "$f", "$e", "$a", "$a", "$p"])
    if kind in ("$c", "$v"):
        return [kind, *some(1, 3), "$."]
    if kind == "$d":
        return [kind, *some(2, 4), "$."]
    if kind == "$f":
        return [r.choice(labels), kind, *some(2, 2), "$."]
    return [r.choice(labels), kind, *some(1, 4), *(["$=", "?", "$."] if kind == "$p" else ["$."])]


def loose(r, most):
    """A text of at most so many bytes with any statement anywhere: `$e` and late `$d` at the outermost level too."""
    symbols, labels = r.sample(SYMBOLS, 5), r.sample(LABELS, 6)
    tokens, depth = ["$c", symbols[0], "$.", "$v", symbols[1], symbols[2], "$."], 0
    if r.random() < 0.7:
        tokens += ["wx", "$f", symbols[0], symbols[1], "$."]
    for _ in range(r.randint(2, 20)):
        what = r.random()
        if what < 0.15:
            tokens.append("${")
            depth += 1
        elif what < 0.27 and depth:
            tokens.append("$}")
            depth -= 1
        else:
            tokens += loose_statement(r, symbols, labels)
    text = spaced(r, tokens + ["$}"] * depth)
    return text if len(text) <= most else loose(r, most)


def damaged(r, text):
    """The text with one to three hurts: a byte flipped or put there, a piece cut or doubled, an end cut off."""
    for _ in range(r.choice([1, 1, 1, 2, 3])):
        at = r.randrange(len(text) + 1)
        to = min(len(text), at + r.choice([1, 1, 2, 3, 10]))
        how = r.randrange(6)
        if how == 0 and at < len(text):
            text = text[:at] + bytes([text[at] ^ 1 << r.randrange(8)]) + text[at + 1:]
        elif how == 1:
            text = text[:at] + bytes([r.choice(b"$$ \n.({)cvdfepxyzAB\x00\x7f\xff")]) + text[at + 1:]
        elif how == 2:
            text = text[:at] + text[to:]
        elif how == 3:
            text = text[:to] + text[at:]
        elif how == 4:
            text = text[:at] + b" " + r.choice([b"$(", b"$)", b"$.", b"${", b"$}", b"$=", b"$d", b"x"]) + b" " + text[at:]
        elif r.random() < 0.4:
            text = text[:at]
    return text
