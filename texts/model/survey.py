"""The signals that may escape an image, told from its code alone: the least relation of a few rules, by plain iteration."""
from model.code import BODY, FORWARD, NAMES, Routine, size_of
from model.objects import WANTED, needs_of
from model.reading import SIGNAL
from model.signals import NO_INPUT, UNNAMED, bound_signal, fits
from model.words import BOUNDS_FAULT, ZERO_DIVISOR

PREDECLARED = [BOUNDS_FAULT, ZERO_DIVISOR, NO_INPUT, UNNAMED]
BOUNDED = {"LoadLX", "StoreLX", "LoadGX", "StoreGX", "Index", "CheckI", "CheckC", "StrAt", "NarrowI", "NarrowC", "CheckD"}
DIVIDING = {"DivI", "ModI", "DivC", "ModC", "DivDI", "ModDI", "DivDC", "ModDC"}
# A position is the number of a phrase, or OUT.
OUT = -1


def grown(found, more):
    """Adds to a set what follows from each of its members, until nothing does."""
    fresh = set(found)
    while fresh:
        fresh = {it for one in fresh for it in more(one)} - found
        found |= fresh
    return found


class Surveyed:
    """A procedure: which of its instructions may be reached, and at which phrase each stands."""

    def __init__(self, module, procedure):
        self.routine = Routine(module, needs_of(module.imports), procedure)
        self.phrases = procedure.phrases
        self.at = {at: (NAMES[number], operands, at + size_of(number)) for at, number, operands in procedure.code}
        self.reached = grown({0}, self.following)
        # The reached instructions, each with its position.
        self.stands = [(self.position(it), *self.at[it][:2]) for it in sorted(self.reached)]

    # ---- reached offsets

    def following(self, offset):
        name, operands, behind = self.at[offset]
        if self.routine.goes_on(name, operands):
            yield behind
        if name in (*FORWARD, "JumpBack", "Leave"):
            yield operands[-1]
        for phrase in self.phrases:
            if phrase.first <= offset < phrase.past:
                yield from (arm.start for arm in phrase.arms)

    def within(self, arm):
        """The reached instructions of an arm, with their operands."""
        return [self.at[it][:2] for it in self.reached if arm.start <= it < arm.end]

    # ---- positions

    def innermost(self, holds, region):
        """The last phrase of those that hold something: an outer one stands before an inner one. Where there is none, the phrase beyond the region's."""
        among = [number for number, phrase in enumerate(self.phrases) if holds(number, phrase)]
        if among:
            return among[-1]
        return OUT if region == BODY else self.beyond(region[0])

    def position(self, offset):
        return self.innermost(lambda _, phrase: phrase.first <= offset < phrase.past, self.routine.region(offset))

    def beyond(self, number):
        its = self.phrases[number]
        around = lambda other, phrase: other < number and phrase.first <= its.first and its.past <= phrase.past
        return self.innermost(around, self.routine.region(its.first))


class Survey:
    def __init__(self, image):
        self.image = image
        self.code = [[Surveyed(module, it) for it in module.procedures] for module in image.modules]
        stands = [(instance, number, *it) for instance in range(len(image.instances)) for number, its in enumerate(self.procedures(instance)) for it in its.stands]
        # Where each signal comes, as an instance, a procedure and a position: at first where it is raised.
        self.comes = {(signal, instance, number, position) for instance, number, position, *its in stands for signal in self.raised(instance, *its)}
        # What may be run at each call.
        self.runs = {(ran, instance, number, position) for instance, number, position, *its in stands for ran in self.run(instance, *its)}

    def module(self, instance):
        return self.image.modules[self.image.instances[instance].module]

    def procedures(self, instance):
        return self.code[self.image.instances[instance].module]

    # ---- what an instruction may raise, and what it may run

    def raised(self, instance, name, operands):
        if name == "Raise":
            yield instance, operands[0]
        if name == "RaiseLink":
            yield bound_signal(self.image, instance, operands[0])
        if name == "RaiseHost":
            yield (BOUNDS_FAULT, ZERO_DIVISOR, UNNAMED)[operands[0]]
        if name in BOUNDED:
            yield BOUNDS_FAULT
        if name in DIVIDING:
            yield ZERO_DIVISOR
        if name == "CallLink":
            link = self.image.links[instance][operands[0]]
            if link[0] == WANTED and self.image.wanted[link[1]].item.name == "ReadChar":
                yield NO_INPUT

    def run(self, instance, name, operands):
        """The procedures of instances that a call runs: what it calls, and the body of another instance, which may be started first."""
        if name == "Call":
            yield instance, operands[0]
        if name == "CallLink":
            link = self.image.links[instance][operands[0]]
            if link[0] != WANTED:
                yield link[1:]
                if link[1] != instance:
                    yield link[1], 0

    # ---- phrases that let a signal past

    def resumes(self, signal, words):
        """Whether a signal takes back so many words; an error takes nothing back."""
        if isinstance(signal, str):
            return False
        its = self.module(signal[0]).signals[signal[1]]
        return its.kind == SIGNAL and its.results == words

    def stops(self, instance, its, number, signal):
        """Whether the first arm of a phrase that fits a signal has no end that is reached, and no RESUME but such as give back what it takes."""
        for arm in its.phrases[number].arms:
            if any(fits(self.image, label, instance, signal) for label in arm.labels):
                return all(name != "ArmEnd" and (name != "Resume" or self.resumes(signal, operands[0])) for name, operands in its.within(arm))
        return False

    # ---- the relation

    def round(self):
        """What follows at once from what is there."""
        out = {}
        for signal, instance, number, position in self.comes:
            if position == OUT:
                out.setdefault((instance, number), []).append(signal)
            else:
                its = self.procedures(instance)[number]
                if not self.stops(instance, its, position, signal):
                    yield signal, instance, number, its.beyond(position)
        for ran, *where in self.runs:
            yield from ((signal, *where) for signal in out.get(ran, ()))

    def escaping(self):
        """The signals that may escape, in order."""
        before = None
        while before != len(self.comes):
            before = len(self.comes)
            self.comes |= set(self.round())
        found = {signal for signal, instance, number, position in self.comes if (number, position) == (0, OUT) and instance in self.image.control}
        return [it for it in PREDECLARED if it in found] + sorted(it for it in found if not isinstance(it, str))

    def shown(self, signal):
        if isinstance(signal, str):
            return signal
        instance, number = signal
        return ".".join([*self.image.instances[instance].path, self.module(instance).signals[number].name])


def survey(image):
    """What is printed."""
    its = Survey(image)
    lines = [f"escapes {its.shown(it)}" for it in its.escaping()]
    return "".join(f"{it}\n" for it in lines or ["no signal escapes"])
