"""Images at random, of three instances of two modules, whose code is valid and such as no translator makes: arms that resume errors or with other numbers of
words, jumps out of several arms to anywhere, phrases of one range, and code that nothing leads to."""
from model import spelling as s
from model.assembler import assembled, phrase, placed

PROCEDURE, SIGNAL, ERROR = 1, 2, 3
ANY, UNWIND, OWN, LINKED, BOUNDS, ZERO = range(1, 7)
HOST = [s.item(PROCEDURE, "EndOfInput", [], [("", s.BOOLEAN)]), s.item(PROCEDURE, "ReadChar", [], [("", s.CHARACTER)]), s.item(ERROR, "NoInput")]
DEFS = [s.item(PROCEDURE, "P"), s.item(SIGNAL, "S"), s.item(SIGNAL, "T", [], [("", s.INTEGER)]), s.item(ERROR, "E")]
IODEFS, D = s.face("IODefs", 1, *HOST), s.face("D", 13, *DEFS)
SIGNALS = [s.signal(SIGNAL, "S"), s.signal(SIGNAL, "T", 0, 1), s.signal(ERROR, "E")]
# The links of a module: the host's three, then a procedure, two signals and an error. Each instance has procedures and signals of these numbers for them.
END, READ, PASS, LINKS = 0, 1, 3, 7
GIVEN = {3: 1, 4: 0, 5: 1, 6: 2}
CALLS = ["Call 1", "Call 2", f"CallLink {PASS}", f"CallLink {PASS}"]
RAISES = ["Raise 0", "Raise 0", "Raise 1|Pop 1", "RaiseLink 4", "RaiseLink 5|Pop 1"]
FAULTS = ["Raise 2", "RaiseLink 6", "RaiseLink 2", "RaiseHost 0", "RaiseHost 1", "RaiseHost 2"]
ALONE = ["Lit 9|CheckC 0 3|Pop 1", "Lit 1|Lit 0|DivI|Pop 1", "Lit 0|Pop 1"]
# The same over LONG numbers: those that raise, and one with each of the others.
LONGS = ["Lit 1|Lit 0|NarrowI|Pop 1", "Lit 65535|WidenI|NarrowC|Pop 1", "Lit 32768|Lit 0|CheckD|Pop 2", "Lit 7|WidenC|Lit 0|WidenI|DivDI|Pop 2",
         "Lit 7|WidenI|Lit 0|WidenC|ModDC|Pop 2", "Lit 40000|WidenC|Lit 9|WidenI|MulD|Lit 3|WidenI|SubD|NegD|CheckD|Pop 2",
         "Lit 65535|WidenI|Lit 9|WidenC|AddD|NarrowI|Pop 1", "Lit 65535|WidenI|Lit 5|WidenI|LessDI|Pop 1", "Lit 65535|WidenI|Lit 5|WidenI|LessDC|WidenC|NarrowC|Pop 1",
         "Lit 65535|WidenI|Lit 65535|WidenC|EqD|Pop 1", "Lit 99|WidenI|Lit 7|WidenI|DivDC|Lit 4|WidenI|ModDI|Pop 2"]


class Routine:
    """A procedure: the body, and the arms of phrases, each a region; those of phrases in arms come behind."""

    def __init__(self, chance):
        self.chance, self.lines, self.phrases = chance, [], []
        # Of each region, its holder and how many units it has.
        self.holders, self.units = [None], []
        for number in range(200):
            if number == len(self.holders):
                break
            self.region(number)

    def way_out(self, number):
        """The regions outward of one, the nearest first."""
        holder = self.holders[number]
        return [] if holder is None else [holder, *self.way_out(holder)]

    def place(self, number):
        return f"r{number}u{self.chance.randrange(self.units[number])}"

    def ending(self, number):
        """What does not go on: at the end of a region, or behind a condition."""
        outward = self.way_out(number)
        if not outward:
            return self.chance.choice(["Return"] * 10 + FAULTS)
        steps = self.chance.randint(1, len(outward))
        words = self.chance.choice((0, 0, 1, 1, 2))
        resume = "|".join(["Lit 5"] * words + [f"Resume {words}"])
        leave = f"Leave {steps} {self.place(outward[steps - 1])}"
        last = f"LeaveReturn {len(outward)}"
        return self.chance.choice([resume, resume, resume, "ArmEnd", leave, leave, last, last, self.chance.choice(FAULTS)])

    def unit(self, number, at):
        """Some instructions, before and behind which no words are on the operand stack. A condition passes over some units, or over what ends the region."""
        kind = self.chance.random()
        if kind < 0.45:
            return self.chance.choice(CALLS)
        if kind < 0.55:
            return self.chance.choice(RAISES)
        if kind < 0.57:
            return self.chance.choice(ALONE)
        if kind < 0.6:
            return self.chance.choice(LONGS)
        behind = f"r{number}u{self.chance.randint(at + 1, self.units[number] - 1)}"
        condition = f"CallLink {END}|JumpIf {behind}|CallLink {READ}|JumpIf {behind}"
        if kind < 0.65:
            return f"{condition}|JumpBack r{number}u{self.chance.randint(0, at)}"
        return f"{condition}|{self.ending(number) if kind < 0.9 else self.chance.choice(FAULTS)}"

    def region(self, number):
        depth = len(self.way_out(number))
        count = self.chance.randint(2, 5 if depth == 0 else 3)
        self.units.append(count)
        for at in range(count):
            text = self.ending(number) if at == count - 1 else self.unit(number, at)
            first, *rest = text.split("|")
            self.lines += [f"r{number}u{at}: {first}", *rest]
        ranges = [sorted(self.chance.sample(range(count), 2)) for _ in range(self.chance.choice((0, 1, 1, 2) if depth else (1, 1, 2, 3))) if depth < 3]
        self.nested(number, sorted(ranges, key=lambda it: (it[0], -it[1])))

    def nested(self, number, ranges):
        """Keeps of these ranges those that hold each other, or are apart."""
        kept = []
        for first, past in ranges:
            if all(past <= other_past or other_past <= first for _, other_past in kept):
                kept.append((first, past))
        for first, past in kept:
            arms = []
            for _ in range(self.chance.choice((1, 1, 2))):
                arms.append((self.labels(), len(self.holders)))
                self.holders.append(number)
            self.phrases.append((f"r{number}u{first}", f"r{number}u{past}", arms))

    def labels(self):
        one = [s.label(OWN, self.chance.randrange(3)), s.label(LINKED, self.chance.choice((2, 4, 5, 6))), s.label(LINKED, self.chance.choice((4, 5, 6))),
               s.label(self.chance.choice((ANY, ANY, UNWIND, BOUNDS, ZERO)))]
        return self.chance.sample(one, self.chance.choice((1, 1, 2)))

    def procedure(self, name):
        code, places = b"".join(assembled(self.lines)[0]), placed(self.lines)[1]
        starts = {number: f"r{number}u0" for number in range(len(self.units))} | {len(self.units): "end"}
        phrases = [phrase(places, first, past, *((labels, starts[region], starts[region + 1]) for labels, region in arms)) for first, past, arms in self.phrases]
        return s.procedure(name, code, depth=4, phrases=phrases)


def module(chance, name):
    procedures = [Routine(chance).procedure(it) for it in (name, "P", "Q")]
    return s.module(name, [s.imported(IODEFS, 0, 1, 2), s.imported(D, 0, 1, 2, 3)], 0, SIGNALS, [], procedures, [s.exported(D, (0, 1), (1, 0), (2, 1), (3, 2))])


def image_at_random(chance):
    """The bytes of an image's file."""
    modules = [module(chance, name) for name in ("M", "N")]
    instances = [s.instance("a", 0), s.instance("b", 1), s.instance("c", 1)]
    links = []
    for _ in instances:
        links += [s.wanted_link(number) for number in range(3)]
        links += [s.bound_link(chance.randrange(3), GIVEN[number]) for number in range(PASS, LINKS)]
    wanted = [s.entry("IODefs", 1, it) for it in HOST]
    return s.image_file(modules, wanted, instances, links, [], chance.sample(range(3), chance.choice((1, 1, 2))))
