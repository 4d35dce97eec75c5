"""Presentations for the other programs of bench/: read from a text that fplsa accepts, and written for plain.c, GAP and Macaulay2.

An expression is ("gen", index from 0), ("times", number, expression), ("sum", [expression..]) or ("bracket", left, right).
Nothing is refused here but by accident: the texts are those that fplsa has read.
"""

import re
from fractions import Fraction

TOKEN = re.compile(r"[A-Za-z]\w*|\d+|[;,:=+\-*/\[\]()]")


class Presentation:
    def __init__(self, text, field=None):
        """Reads a text; `field` stands in place of the field that it names."""
        self.tokens = TOKEN.findall(re.sub(r"#[^\n]*", "", text))
        self.at = 0
        statements = self.statements()
        self.field = field or next(word for kind, word in statements if kind == "field")
        self.generators = [generator for kind, named in statements if kind in ("even", "odd") for generator in named]
        self.index = {name: place for place, (name, _, _) in enumerate(self.generators)}
        self.relations = [self.resolved(sides) for kind, sides in statements if kind == "relation"]

    def take(self, *wanted):
        """The next token where it is one of those wanted, else None."""
        if self.at < len(self.tokens) and self.tokens[self.at] in wanted:
            self.at += 1
            return self.tokens[self.at - 1]
        return None

    def word(self):
        self.at += 1
        return self.tokens[self.at - 1]

    def statements(self):
        """(kind, what it says) of each statement."""
        found = []
        while self.at < len(self.tokens):
            kind = self.word()
            if kind == "field":
                found.append((kind, self.word()))
            elif kind in ("even", "odd"):
                named = [self.declared(kind)]
                while self.take(","):
                    named.append(self.declared(kind))
                found.append((kind, named))
            else:
                left = self.expression()
                found.append((kind, (left, self.expression()) if self.take("=") else (left,)))
            assert self.word() == ";"
        return found

    def declared(self, kind):
        """(name, parity, weight) of a generator."""
        name = self.word()
        return name, int(kind == "odd"), int(self.word()) if self.take(":") else 1

    def expression(self):
        members, sign = [], self.take("+", "-")
        while True:
            term = self.term()
            members.append(("times", Fraction(-1), term) if sign == "-" else term)
            sign = self.take("+", "-")
            if not sign:
                return members[0] if len(members) == 1 else ("sum", members)

    def term(self):
        if not self.tokens[self.at].isdigit():
            return self.factor()
        number = Fraction(int(self.word()))
        if self.take("/"):
            number /= int(self.word())
        return ("times", number, self.factor()) if self.take("*") else ("sum", [])

    def factor(self):
        word = self.word()
        if word == "[":
            left = self.expression()
            assert self.word() == ","
            right = self.expression()
            assert self.word() == "]"
            return ("bracket", left, right)
        if word == "(":
            inner = self.expression()
            assert self.word() == ")"
            return inner
        return ("sum", []) if word.isdigit() else ("name", word)

    def resolved(self, sides):
        """A relation as one expression that is set to 0."""
        def of(e):
            if e[0] == "name":
                return ("gen", self.index[e[1]])
            if e[0] == "times":
                return ("times", e[1], of(e[2]))
            if e[0] == "bracket":
                return ("bracket", of(e[1]), of(e[2]))
            return ("sum", [of(member) for member in e[1]])

        left = of(sides[0])
        return left if len(sides) == 1 else ("sum", [left, ("times", Fraction(-1), of(sides[1]))])

    def weight(self, monomial):
        if monomial[0] == "gen":
            return self.generators[monomial[1]][2]
        return self.weight(monomial[1]) + self.weight(monomial[2])

    def residue(self, number):
        prime = int(self.field)
        return number.numerator * pow(number.denominator, -1, prime) % prime


def monomials(e):
    """An expression as a list of (number, monomial)."""
    if e[0] == "gen":
        return [(Fraction(1), e)]
    if e[0] == "times":
        return [(e[1] * number, m) for number, m in monomials(e[2])]
    if e[0] == "sum":
        return [pair for member in e[1] for pair in monomials(member)]
    return [(a * b, ("bracket", m, n)) for a, m in monomials(e[1]) for b, n in monomials(e[2])]


def postfix(monomial):
    """Generators by index, and -1 for a bracket of the two before."""
    return [monomial[1]] if monomial[0] == "gen" else postfix(monomial[1]) + postfix(monomial[2]) + [-1]


def for_plain(p, limit):
    """What plain.c reads."""
    lines = [f"{p.field} {limit} {len(p.generators)}"]
    lines += [f"{weight} {parity}" for _, parity, weight in p.generators]
    relations = [[(p.residue(a), m) for a, m in monomials(r)] for r in p.relations]
    relations = [[(a, m) for a, m in r if a] for r in relations]
    relations = [r for r in relations if r]
    lines.append(str(len(relations)))
    for relation in relations:
        lines.append(f"{p.weight(relation[0][1])} {len(relation)}")
        for number, monomial in relation:
            words = postfix(monomial)
            lines.append(f"{number} {len(words)} {' '.join(map(str, words))}")
    return "\n".join(lines) + "\n"


def spelled(p, product, name, number):
    """Each relation as a sum of multiples of monomials."""
    def monomial(m):
        return name(m[1]) if m[0] == "gen" else product(monomial(m[1]), monomial(m[2]))
    return [" + ".join(f"{number(a)}*{monomial(m)}" for a, m in monomials(r)) for r in p.relations]


def for_gap(p, limit):
    """A GAP program that prints the dimension through LIMIT; all generators are even."""
    field = "Rationals" if p.field == "Q" else f"GF({p.field})"
    relations = spelled(p, lambda a, b: f"({a}*{b})", lambda g: f"g[{g + 1}]",
                        lambda a: f"({a}*one)" if p.field == "Q" else f"({p.residue(a)}*one)")
    names = ", ".join(f'"{name}"' for name, _, _ in p.generators)
    weights = [weight for _, _, weight in p.generators]
    weighted = "" if set(weights) == {1} else f", {weights}"
    return (f"free := FreeLieAlgebra({field}, [{names}]);; g := GeneratorsOfAlgebra(free);; one := One({field});;\n"
            f"presented := free / [{', '.join(relations) or '0*g[1]'}];;\n"
            f"Print(Dimension(Range(NilpotentQuotientOfFpLieAlgebra(presented, {limit}{weighted}))), \"\\n\");\nQUIT;\n")


def for_macaulay2(p, limit):
    """A Macaulay2 program (package GradedLieAlgebras) that prints the dimension through LIMIT."""
    field = "QQ" if p.field == "Q" else f"ZZ/{p.field}"
    relations = spelled(p, lambda a, b: f"({a} {b})", lambda g: p.generators[g][0],
                        lambda a: f"({a})" if p.field == "Q" else f"({p.residue(a)})")
    relations = [r.replace("*", " ") for r in relations]
    columns = zip(*[(name, f"{{{weight}, 0}}", str(parity)) for name, parity, weight in p.generators])
    names, weights, signs = (", ".join(column) for column in columns)
    quotient = f" / {{{', '.join(relations)}}}" if relations else ""
    return (f'needsPackage "GradedLieAlgebras"\n'
            f"free = lieAlgebra({{{names}}}, Weights => {{{weights}}}, Signs => {{{signs}}}, Field => {field})\n"
            f"presented = free{quotient}\n"
            f"print sum({limit}, i -> dim(i + 1, presented))\nexit 0\n")
