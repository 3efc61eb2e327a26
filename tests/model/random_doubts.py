"""Random programs with what is seldom meant."""
import random

from model.doubts import USES
from model.machine import NEED_FORM

FORMS = ["F", "G", "H", " F", "forms", "froms", "ps", ""]
NAMES = sorted(USES) + ["pr", "PS", "Cl", " ps", "cal", "", "F", "G"]
CLOSED = ["ps", "cl", "ds", "ss", "ad", "dv", "eq", "cs", "cc", "cn", "in", "sb", "fb"]
TEXTS = ["a", "b", "x", "ab", "7", "-3", "12", "x5", "0", "", "9" * 40, "a b", "\n", ",", "(a,b)", ";"]


class Author:
    """Writes one program after the other."""

    def __init__(self, seed: int) -> None:
        self.random = random.Random(seed)

    def text(self) -> str:
        """A few pieces, mostly one."""
        return "".join(self.random.choice(TEXTS) for _ in range(self.random.choice([1, 1, 1, 2, 3])))

    def argument(self, depth: int) -> str:
        kind = self.random.random()
        if kind < 0.2:
            return self.random.choice(FORMS)
        if kind < 0.35 and depth:
            return self.call(depth - 1)
        if kind < 0.5 and depth:
            return "(" + self.body(depth - 1) + ")"
        return self.text()

    def call(self, depth: int) -> str:
        names = CLOSED if self.random.random() < 0.6 else NAMES
        name = self.random.choice(names)
        count = self.random.choice([0, 1, 2, 2, 3, 3, 4, 5])
        arguments = [self.argument(depth) for _ in range(count)]
        if arguments and self.random.random() < 0.7 and name.lower() in NEED_FORM | {"ds", "sb"}:
            arguments[0] = self.random.choice(FORMS[:6])
        sign = self.random.choice(["#(", "#(", "##("])
        return sign + ",".join([name] + arguments) + self.random.choice([")"] * 30 + ["", "))"])

    def body(self, depth: int) -> str:
        pieces = [self.call(depth) if self.random.random() < 0.6 else self.text()
                  for _ in range(self.random.choice([1, 1, 2, 3]))]
        return "".join(pieces)

    def program(self) -> bytes:
        """Texts with their apostrophes, some of which are missing; now and then a loop or another meta character."""
        texts = [self.body(2) for _ in range(self.random.randint(1, 6))]
        if self.random.random() < 0.2:
            texts.insert(0, "#(ds,H,({}#(cl,H)))".format(self.body(1)))
        if self.random.random() < 0.05:
            texts.append("#(cm,;)")
            texts.extend(self.body(1) + ";" for _ in range(2))
        end = self.random.choice(["'\n", "'", "'\r\n"])
        return (end.join(texts) + self.random.choice([end, end, ""])).encode()
