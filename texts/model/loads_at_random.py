"""Images at random that are loaded in orders at random: each exports an interface of its own and takes from those before it, and now and then another stamp, another
face, another record or another order comes between."""
from model import spelling as s
from model.assembler import assembled, phrase, placed
from model.loads import Made, image, parts_of

PROCEDURE, ERROR = 1, 3
ANY, UNWIND, OWN, LINKED = 1, 2, 3, 4
IMAGES, RUNS, ODD = 6, 8, 0.06
WRITE_CHAR = s.item(PROCEDURE, "WriteChar", [("c", s.CHARACTER)])
ITEMS = [s.item(PROCEDURE, "P"), s.item(PROCEDURE, "Q"), s.item(ERROR, "E")]
GIVEN = [1, 2, 0]


def face_at_random(chance, number):
    """The interface of an image, or one that differs."""
    stamp = 2 if chance.random() < ODD else 1
    return s.face(f"F{number}", stamp, *ITEMS, *([s.item(PROCEDURE, "R")] if chance.random() < ODD else []))


def some(chance, least=1):
    """Some of the three items, in order."""
    return sorted(chance.sample(range(3), chance.randint(least, 3)))


class Code:
    """Lines of a procedure whose calls may have arms."""

    def __init__(self, chance, letter, procedures, errors):
        self.chance, self.letter, self.procedures, self.errors = chance, letter, procedures, errors
        self.lines, self.arms, self.phrases = [f"Lit {ord(letter)}", "CallLink 0"], [], []

    def unit(self, number):
        kind = self.chance.random()
        if self.procedures and kind < 0.6:
            self.called(number, f"CallLink {self.chance.choice(self.procedures)}")
        elif kind < 0.75:
            self.called(number, self.chance.choice(["Raise 0", *(f"RaiseLink {it}" for it in self.errors)]))
        else:
            self.lines += [f"Lit {ord(self.letter.lower())}", "CallLink 0"]

    def called(self, number, line):
        self.lines += [f"at{number}: {line}", f"on{number}: Lit 0", "Pop 1"]
        if self.chance.random() < 0.5:
            label = self.chance.choice([s.label(ANY), s.label(UNWIND), s.label(OWN, 0), *(s.label(LINKED, it) for it in self.errors)])
            last = "ArmEnd" if label == s.label(UNWIND) else self.chance.choice([f"Leave 1 on{number}", "ArmEnd", "LeaveReturn 1"])
            self.arms += [f"arm{number}: Lit {ord(str(number))}", "CallLink 0", last]
            self.phrases.append((number, label))

    def procedure(self, called):
        for number in range(self.chance.randint(0, 4)):
            self.unit(number)
        lines = [*self.lines, "Return", *self.arms]
        places = placed(lines)[1]
        ends = [*(f"arm{number}" for number, _ in self.phrases[1:]), "end"]
        phrases = [phrase(places, f"at{number}", f"on{number}", ([label], f"arm{number}", end)) for (number, label), end in zip(self.phrases, ends)]
        return s.procedure(called, b"".join(assembled(lines)[0]), depth=1, phrases=phrases)


def module_at_random(chance, word, letter, takes, gives):
    """A module that uses items of these interfaces and exports to that one."""
    used = [(face_at_random(chance, number), some(chance)) for number in takes]
    kinds = [item for _, items in used for item in items]
    procedures, errors = ([place + 1 for place, item in enumerate(kinds) if (item == 2) == is_error] for is_error in (False, True))
    # What it exports is mostly all of it.
    given = [] if gives is None else [s.exported(face_at_random(chance, gives), *((it, GIVEN[it]) for it in (range(3) if chance.random() < 0.7 else some(chance))))]
    code = [Code(chance, letter, procedures if called == "M" or chance.random() < 0.5 else [], errors).procedure(called) for called in "MPQ"]
    imports = [s.imported(s.face("IODefs", 1, WRITE_CHAR), 0), *(s.imported(face, *items) for face, items in used)]
    return Made(word, s.module(word, imports, 0, [s.signal(ERROR, "E")], [], code, given))


def image_of(chance, number):
    """An image of one or two instances, with what it offers and starts."""
    before = list(range(number))
    places = []
    for part in range(chance.choice((1, 1, 2))):
        takes = chance.sample(before, min(len(before), chance.randint(1, 2)))
        places.append((f"x{part}", module_at_random(chance, f"M{number}{part}", "ABCDEF"[number], takes, number if part == 0 or chance.random() < ODD else None)))
    offers = [("Odd" if chance.random() < ODD / 4 else f"F{number}", part, 0) for part, (_, made) in enumerate(places) if parts_of(made).exports]
    return image(*places, offers=offers, control=[part for part in range(len(places)) if chance.random() < 0.5])


def loads_at_random(chance):
    """Images by their names, and names in orders in which they are run."""
    files = {f"X{number}": image_of(chance, number) for number in range(IMAGES)}
    return files, [names_at_random(chance) for _ in range(RUNS)]


def names_at_random(chance):
    """Mostly all up to one of them in order; now and then one is left out, stands twice or stands elsewhere."""
    names = [f"X{number}" for number in range(chance.randint(2, IMAGES))]
    way = chance.random()
    if way < 0.1 and len(names) > 2:
        names.remove(chance.choice(names))
    elif way < 0.2:
        names.insert(chance.randint(0, len(names)), chance.choice(names))
    elif way < 0.3:
        chance.shuffle(names)
    elif way < 0.5:
        names.append(names[-1])
    return names
