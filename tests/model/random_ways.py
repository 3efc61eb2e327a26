"""Random programs whose bytes pass through many hands, and what is asked of them by `y`."""
import random

from model.machine import Machine

NAMES = ["a", "b", "c"]
# of forms whose text is the number of a block; one is also a form like the others
BLOCKS = ["k", "c"]
# of the items of a program's forms at most so many are followed
ITEMS = 20
DIGITS = {"ad", "su", "ml"}


class Programs:
    """Random programs."""

    def __init__(self, seed: int) -> None:
        self.pick = random.Random(seed)

    def text(self) -> str:
        return "".join(self.pick.choice("abcXY;12 0") for _ in range(self.pick.randint(0, 4)))

    def argument(self, depth: int) -> str:
        chance = self.pick.random()
        if depth <= 0 or chance < .35:
            return self.text()
        if chance < .5:
            return f"({self.text()},{self.text()})"
        return (self.text() if chance < .6 else "") + self.call(depth - 1)

    def body(self, kind: str, depth: int) -> str:
        name = self.pick.choice(NAMES)

        def inner(count: int) -> str:
            return "".join("," + self.argument(depth - 1) for _ in range(count))

        if kind == "ds":
            return f"ds,{name},{self.argument(depth)}"
        if kind == "ss":
            words = [self.pick.choice(["a", "b", "X", "1", "ab", ";", ""]) for _ in range(self.pick.randint(1, 3))]
            return f"ss,{name}," + ",".join(words)
        if kind == "cl":
            return f"cl,{name}" + inner(self.pick.randint(0, 3))
        if kind in ("cs", "cc"):
            return f"{kind},{name}" + inner(1)
        if kind == "in":
            return f"in,{name}," + self.pick.choice(["X", ";", "a", "1", "ab", ""]) + inner(1)
        if kind == "sb":
            return f"sb,{self.pick.choice(BLOCKS)}," + ",".join(self.pick.sample(NAMES, self.pick.randint(1, 3)))
        if kind in ("fb", "eb"):
            return f"{kind},{self.pick.choice(BLOCKS)}"
        if kind in ("eq", "gr"):
            return kind + inner(4)
        if kind in DIGITS:
            prefix = self.pick.choice(["ab", "", "x-"])
            return f"{kind},{prefix}{self.pick.randint(-30, 30)},{self.pick.randint(-9, 99)}"
        return f"{kind},{self.argument(depth)}"

    def call(self, depth: int) -> str:
        kind = self.pick.choice("ds ds ds ss cl cl cl cs cs cc in in ln eq gr ad su ml sb sb fb fb fb eb ps zz".split())
        return self.pick.choice(["#(", "#(", "#(", "##("]) + self.body(kind, depth) + ")"

    def program(self) -> str:
        texts = (self.call(3) + self.pick.choice(["'", "\n'"]) for _ in range(self.pick.randint(3, 12)))
        return "".join(texts) + "#(ps,##(cl,a)##(cl,b)##(cl,c))'\n"


def questions(pick: random.Random, model: Machine) -> list[tuple[str, int]]:
    """What `y` is given, each with the byte that it follows; a gap is none."""
    printed = [(f"#{number}", byte) for number, (byte, _) in enumerate(model.output, 1)]
    kept = [(f"{name.decode()} {place}", byte)
            for name, form in model.forms.items() if name.decode() in NAMES
            for place, (byte, _) in enumerate(form.items, 1)]
    return printed + pick.sample(kept, min(len(kept), ITEMS)) + [(". 0 1", ord("r"))]
