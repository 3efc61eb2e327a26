"""Random programs, biased toward what is easy to get wrong; and random commands to `trac debug`."""
from __future__ import annotations

import random
from collections.abc import Sequence
from typing import TypeVar

from interpreter import processor

FORMS = ["F", "G", "k", "", "f", "ps"]
WORDS = ["a", "b", "ab", "aba", "ba", "aab", "x", "1", "12", "bab", ";", "", "", "#", "(", "Cat"]
PREFIXES = ["", "", "", "", "a", "x-", "-", "+", "ab", "7-", "a b"]
KINDS = ["#("] * 13 + ["##("] * 7
# how often each primitive is called, beside once each
OFTEN = "ps ps ds ds ds ss ss ss cl cl cl cl cs cs cc cc cn cn in in cr eq gr gr ad su ml dv bs br bu bi sb fb fb pf ln"
CALLED = sorted(processor.NAMES - {"hl", "tn", "tf"}) + OFTEN.split() * 2 + ["tn", "tf", "hl"]
UNKNOWN = ["zz", "", "p", "psx", " ps", "F", "d s"]
# shows forms
SHOWN = "#(ln,;)#(pf,F):#(pf,G):#(pf,k)"
# what is put where it is seldom meant
STRAY = [",", ")", "#", "##", "(", "\n", "\r\n", "\t", "'", "\0", "\xff", "()", "###", "#("]
Choice = TypeVar("Choice")


class Author:
    """Writes one program after another; the same number of the same seed gives the same one."""

    def __init__(self, seed: int | str, number: int) -> None:
        self.random = random.Random("{}/{}".format(seed, number))

    def chance(self, share: float) -> bool:
        return self.random.random() < share

    def pick(self, choices: Sequence[Choice]) -> Choice:
        return choices[int(self.random.random() * len(choices))]

    def up_to(self, most: int) -> int:
        return int(self.random.random() * (most + 1))

    # ---- texts

    def number(self) -> str:
        """A number near the end of a width, near 0, or with many digits."""
        kind = self.random.random()
        if kind < 0.45:
            value = self.up_to(24) - 12
        elif kind < 0.8:
            power = self.pick([31, 32, 62, 63, 63, 64, 126, 127, 127, 128])
            value = self.pick([1, -1]) * (1 << power) + self.up_to(4) - 2
        elif kind < 0.9:
            value = self.pick([1, -1]) * int(self.random.random() * 2.0 ** self.pick([32, 64, 127]))
        else:
            value = int("".join(self.pick("0123456789") for _ in range(1 + self.up_to(60)))) * self.pick([1, -1])
        sign = "+" if value >= 0 and self.chance(0.1) else "-" if value == 0 and self.chance(0.3) else ""
        zeros = "0" * self.up_to(3) if self.chance(0.1) and value >= 0 else ""
        return self.pick(PREFIXES) + sign + zeros + str(value) + ("-" if self.chance(0.03) else "")

    def octal(self) -> str:
        count = self.pick([0, 1, 1, 2, 2, 3, 5, 21, 22, 43, 50])
        return self.pick(["", "", "", "8", "x", "19"]) + "".join(self.pick("01234567") for _ in range(count))

    def word(self) -> str:
        return self.pick(WORDS)

    def letters(self) -> str:
        """A text in which the words stand, and overlap."""
        return "".join(self.pick("aaabbbx1") for _ in range(self.up_to(9)))

    def text(self) -> str:
        """A few pieces, some of them calls that are protected."""
        kind = self.random.random()
        if kind < 0.45:
            return self.letters()
        if kind < 0.6:
            return self.number() if kind < 0.52 else self.octal()
        if kind < 0.8:
            return "".join(self.word() for _ in range(1 + self.up_to(2)))
        return self.pick([",", "(", "()", ";", "a b", "<^>", "*", "##", "(,)", "'", "\r\n", "\0\xff", ":"])

    def argument(self, depth: int) -> str:
        """Any argument: a text, protected or not, a call, or both."""
        kind = self.random.random()
        if depth <= 0 or kind < 0.35:
            return self.stray(self.text())
        if kind < 0.5:
            return "(" + self.stray(self.text() + self.call(depth - 1)) + ")"
        if kind < 0.65:
            return self.stray(self.text() + self.call(depth - 1))
        return self.call(depth - 1)

    def stray(self, text: str) -> str:
        """Now and then something stands in a text where it is seldom meant."""
        if not self.chance(0.05):
            return text
        place = self.up_to(len(text))
        return text[:place] + self.pick(STRAY) + text[place:]

    # ---- calls

    def call(self, depth: int) -> str:
        name = self.pick(CALLED)
        arguments = self.arguments(name, depth)
        if self.chance(0.06):
            arguments = arguments[:self.up_to(len(arguments))]
        if self.chance(0.04):
            arguments += self.any(1 + self.up_to(1), depth)
        if self.chance(0.1):
            name = self.pick([name.upper(), name.capitalize(), name[0] + name[1].upper()])
        elif self.chance(0.02):
            name = self.pick(UNKNOWN)
        sharp = "#" if self.chance(0.02) else ""
        return sharp + self.pick(KINDS) + ",".join([name] + arguments) + ("" if self.chance(0.01) else ")")

    def default(self, depth: int) -> str:
        """A default argument: often a protected call, of which it shows whether it is scanned."""
        kind = self.random.random()
        if kind < 0.4:
            return "(" + self.pick(KINDS) + self.pick(["ps,z", "ad,1,2", "cl,F", "cl,G,x", "eq,a,a,y,n"]) + "))"
        return self.pick(["Z", "none", "", "(a,b)"]) if kind < 0.8 else self.argument(depth - 1)

    def arguments(self, name: str, depth: int) -> list[str]:
        """The arguments that a primitive uses, as they are mostly meant."""
        form = self.pick(FORMS[:4] if self.chance(0.93) else FORMS)
        if name in ("pf", "cr", "ds"):
            return [form] + ([self.defined(depth)] if name == "ds" else [])
        if name == "cl":
            return [form] + self.any(self.up_to(3), depth)
        if name == "ss":
            return [form] + [self.word() for _ in range(self.up_to(4))]
        if name in ("cs", "cc"):
            return [form, self.default(depth)]
        if name == "cn":
            count = self.pick(PREFIXES) + str(self.up_to(9) - 4) if self.chance(0.85) else self.number()
            return [form, count, self.default(depth)]
        if name == "in":
            return [form, self.word(), self.default(depth)]
        if name in ("ad", "su", "ml", "dv"):
            return [self.operand(depth), self.operand(depth), self.default(depth)]
        if name in ("gr", "eq"):
            same = self.operand(depth) if name == "gr" else self.word()
            if name == "gr" and self.chance(0.3):
                return self.long_numbers() + self.any(2, depth)
            return [same, same if self.chance(0.3) else self.operand(depth)] + self.any(2, depth)
        if name in ("bu", "bi", "bc", "bs", "br"):
            places = [str(self.up_to(140) - 70) if self.chance(0.7) else self.number()] if name in ("bs", "br") else []
            return places + [self.octal() for _ in range(2 if name in ("bu", "bi") else 1)]
        if name in ("sb", "dd"):
            return [self.pick(["k", "G"])] * (name == "sb") + [self.pick(FORMS) for _ in range(self.up_to(4))]
        if name in ("fb", "eb"):
            return [self.pick(["k", "k", "G", "F"])]
        if name == "cm":
            return [self.pick([";", "'", ":", "", "a", "(;)", ";:", "#", "(,)"])]
        return self.any(1 if name in ("ps", "ln") else 0, depth)

    def any(self, count: int, depth: int) -> list[str]:
        """So many arguments of any kind."""
        return [self.argument(depth - 1) for _ in range(count)]

    def defined(self, depth: int) -> str:
        """The text of a form."""
        kind = self.random.random()
        if kind < 0.4:
            return self.letters()
        if kind < 0.7:
            return "(" + self.call(depth - 1) + (self.text() if self.chance(0.4) else "") + ")"
        if kind < 0.85:
            return self.argument(depth - 1)
        return self.pick(["0", "1", "00", "#", "(#)", "((a,b))", "(,)", "(()", "##"])

    def long_numbers(self) -> list[str]:
        """Two numbers of many digits, of which one digit differs, or none."""
        sign, first = self.pick(["", "-"]), [self.pick("0123456789") for _ in range(1 + self.up_to(60))]
        second = first[:]
        second[self.up_to(len(first) - 1)] = self.pick("0123456789")
        return [sign + "".join(first), sign + "".join(second)]

    def operand(self, depth: int) -> str:
        return self.number() if self.chance(0.8) else self.argument(depth - 1)

    # ---- programs

    def loop(self) -> str:
        """A form that calls itself, mostly so many times."""
        body, turns = self.call(1), self.pick([2, 3, 5, "x"])
        count = self.pick(["#(su,N,1)", "#(su,N,1)", "##(su,N,1)", "#(dv,N,2)", "N"])
        define = "#(ds,L,({}#(gr,N,0,(#(cl,L,{}))))){}".format(body, count, self.pick(["", "'"]))
        return define + "#(ss,L,N)#(cl,L,{})".format(turns)

    def doubling(self) -> str:
        """A form that grows to half of the most bytes, or past them."""
        return "#(ds,A,{})'".format("ab" * 64) + "#(ds,A,##(cl,A)##(cl,A))'" * self.pick([16, 17])

    def many_forms(self) -> str:
        """More blocks, forms and gaps than are held at once elsewhere."""
        form = "#(ds,L,(#(sb,k,F,G)#(ds,F,N)#(ss,F,N,1)#(gr,N,0,(#(cl,L,#(su,N,1)))))#(ss,L,N)"
        return form + "#(cl,L,{})#(ln,;)#(fb,k)'".format(self.up_to(12))

    def program(self) -> bytes:
        """A few texts, each with its end; it may end anywhere."""
        end = self.pick(["'"] * 8 + ["'\n", "'\r\n", "''"])
        texts = [self.piece() for _ in range(1 + self.up_to(7))]
        if self.chance(0.3):
            texts.insert(self.up_to(len(texts)), self.pick([self.loop, self.loop, self.many_forms])())
        if self.chance(0.08):
            texts.insert(0, "#(tn)")
        if self.chance(0.04):
            texts.insert(self.up_to(len(texts)), "a){}b,c)".format(self.pick(["", ",", "#", "##(rs)", "##(cl,F)"])))
        if self.chance(0.06):
            end = self.pick(";:a")
            texts.insert(0, "#(cm,{})'".format(end))
        if self.chance(0.4):
            texts.append(SHOWN)
        text = end.join(texts) + self.pick([end, end, end, ""])
        if self.chance(0.15):
            text = text[:self.up_to(len(text))]
        if self.chance(0.05):
            text += self.pick(["#", "##", "(", "#(", ",", ")", "\r", "#(ps,a", "(#(ps,a)"])
        return text.encode("latin-1")

    def piece(self) -> str:
        kind = self.random.random()
        if kind < 0.25:
            return self.cut(self.pick(["F", "G"]))
        if kind < 0.35:
            return self.readings(self.pick(["F", "G"]))
        if kind < 0.42:
            return self.moves()
        if kind < 0.92:
            return self.stray("".join(self.call(3) for _ in range(1 + self.up_to(1))))
        return self.stray(self.text())

    def cut(self, form: str) -> str:
        """A form is defined and cut, and so ready for what comes."""
        words = ",".join(self.word() for _ in range(1 + self.up_to(2)))
        return "#(ds,{0},{1})#(ss,{0},{2})".format(form, self.letters(), words)

    def named_call(self, name: str, form: str) -> str:
        """A call of a primitive on this form."""
        return self.pick(KINDS) + ",".join([name, form] + self.arguments(name, 1)[1:]) + ")"

    def readings(self, form: str) -> str:
        """A form is read at its pointer again and again, and shown."""
        names = ["cs", "cc", "cn", "cn", "in", "in", "cr", "cl", "ss"]
        show = "#(pf,{})".format(form)
        calls = [self.named_call(self.pick(names), form) + show for _ in range(2 + self.up_to(5))]
        return self.cut(form) * self.chance(0.7) + ";".join(calls)

    def moves(self) -> str:
        """Forms go into blocks and come back, under names that are theirs too."""
        names = ["sb", "sb", "fb", "fb", "fb", "eb", "cc", "ds", "dd"]
        calls = [self.named_call(self.pick(names), self.pick(FORMS[:3])) for _ in range(3 + self.up_to(4))]
        if self.chance(0.3):
            number = self.pick(["0", "1", "00", "01", "+0", "0 ", "0x"])
            calls.insert(self.up_to(len(calls)), "#(ds,k,{})".format(number))
        if self.chance(0.3):
            calls.insert(0, self.cut("F") + self.pick(["#(cs,F)", "#(cc,F)", "#(cn,F,2)"]) + "#(sb,k,F)")
            calls.append("#(fb,k)")
        return self.pick(["", "#(ln,;)", "#(pf,k)"]).join(calls) + SHOWN

    def budget(self) -> int:
        """Mostly more steps than a program takes that ends."""
        return 1 + self.up_to(150) if self.chance(0.08) else 2000

    def commands(self) -> list[str]:
        """A few commands to `trac debug`, with states shown between them."""
        kinds, lines = ["s {1}", "s {1}", "s {1}", "b {1}", "b {1}", "u {0} {1}", "r {0}", "c {1}", "c"], []
        for _ in range(2 + self.up_to(5)):
            name, count = self.pick(["ps", "rs", "cl", "ds", "cs", "zz", "ss"]), self.up_to(self.pick([3, 60, 300]))
            lines += [self.pick(kinds).format(name, count), "p"]
        return lines
