"""The instructions, and which code is valid: the first fault of a module's code, as the description of the instructions says."""

# Number, name, the bytes of each operand, and the words that are popped and then pushed: numbers, or the places of operands that say how many.
TABLE = """
01 Lit 2 0 1; 02 Str 2 0 2; 03 LoadL 22 0 b; 04 StoreL 22 b 0; 05 LoadG 22 0 b; 06 StoreG 22 b 0; 07 LoadLX 222 1 c; 08 StoreLX 222 c1 0
09 LoadGX 222 1 c; 0A StoreGX 222 c1 0; 0B Index 22 2 1; 0C Add - 2 1; 0D Sub - 2 1; 0E Mul - 2 1; 0F Neg - 1 1; 10 DivI - 2 1; 11 ModI - 2 1
12 DivC - 2 1; 13 ModC - 2 1; 14 Eq - 2 1; 15 LessI - 2 1; 16 LessC - 2 1; 17 Not - 1 1; 18 CheckI 22 1 1; 19 CheckC 22 1 1; 1A Jump 4 0 0
1B JumpIf 4 1 0; 1C JumpIfNot 4 1 0; 1D JumpBack 4 0 0; 1E StrLen - 2 1; 1F StrAt - 3 1; 20 Call 4 * *; 21 CallLink 4 * *; 22 Return - 0 0
23 Raise 4 * *; 24 RaiseLink 4 * *; 25 RaiseHost 1 0 0; 26 ArmEnd - 0 0; 27 Resume 2 a 0; 28 Leave 24 0 0; 29 LeaveReturn 2 0 0; 2A Pop 2 a 0
2B Roll 22 ab ab; 2C ZeroL 22 0 0; 2D ZeroG 22 0 0; 2E AddD - 4 2; 2F SubD - 4 2; 30 MulD - 4 2; 31 NegD - 2 2; 32 DivDI - 4 2; 33 ModDI - 4 2
34 DivDC - 4 2; 35 ModDC - 4 2; 36 EqD - 4 1; 37 LessDI - 4 1; 38 LessDC - 4 1; 39 WidenI - 1 2; 3A WidenC - 1 2; 3B NarrowI - 2 1; 3C NarrowC - 2 1
3D CheckD - 2 2
"""
ROWS = {int(row[0], 16): row[1:] for row in (line.split() for line in TABLE.replace("\n", ";").split(";")) if row}
NAMES = {number: row[0] for number, row in ROWS.items()}
NUMBERS = {name: number for number, name in NAMES.items()}
SIZES = {number: [int(it) for it in row[1].strip("-")] for number, row in ROWS.items()}
FORWARD, ENDS = ("Jump", "JumpIf", "JumpIfNot"), ("Jump", "JumpBack", "Return", "RaiseHost", "ArmEnd", "Resume", "Leave", "LeaveReturn")
PROCEDURE, ERROR = 1, 3
# Kinds of labels: an own signal, a link.
OWN, LINKED = 3, 4
BODY = ()


def size_of(number):
    return 1 + sum(SIZES[number])


class Routine:
    """A procedure with what its code may name."""

    def __init__(self, module, needs, procedure):
        self.module, self.needs, self.its = module, needs, procedure
        self.code, self.phrases = procedure.code, procedure.phrases
        self.starts = {at: place for place, (at, _, _) in enumerate(self.code)}
        self.end = self.code[-1][0] + size_of(self.code[-1][1])
        self.depths = [None] * len(self.code)

    # ---- regions

    def region(self, offset, phrases=None):
        """The region of an offset: the number of a phrase and of its arm; the body is BODY."""
        found = BODY
        for number, phrase in enumerate(self.phrases if phrases is None else phrases):
            for arm, it in enumerate(phrase.arms):
                found = (number, arm) if it.start <= offset else found
        return found

    def outward(self, steps, region):
        """The holder so many steps outward; None beyond the body."""
        for _ in range(steps):
            if not region:
                return None
            region = self.region(self.phrases[region[0]].first)
        return region

    def is_right(self, number):
        """Whether a phrase breaks no rule by itself or with those before it."""
        phrase, before = self.phrases[number], self.phrases[:number]
        joint = before[-1].arms[-1].end if before else phrase.arms[0].start
        arms = phrase.arms
        return (
            phrase.first in self.starts and phrase.past in self.starts and phrase.first < phrase.past
            and all(it.first <= phrase.first and (it.past <= phrase.first or phrase.past <= it.past) for it in before)
            and self.region(phrase.first, before) == self.region(phrase.past - 1, before)
            and phrase.past <= arms[0].start == joint and joint > 0
            and all(it.start in self.starts and it.start < it.end for it in arms)
            and all(one.end == other.start for one, other in zip(arms, arms[1:]))
        )

    def phrase_fault(self):
        for number, phrase in enumerate(self.phrases):
            if not self.is_right(number):
                return f"CatchRange {phrase.first}"
        if self.phrases and self.phrases[-1].arms[-1].end != self.end:
            return f"CatchRange {self.phrases[-1].first}"
        return None

    # ---- jumps

    def jumps_rightly(self, at, name, operands):
        here = self.region(at)
        if name in FORWARD:
            return operands[0] in self.starts and operands[0] > at and self.region(operands[0]) == here
        if name == "JumpBack":
            return operands[0] in self.starts and operands[0] <= at and self.region(operands[0]) == here
        if name == "Leave":
            arms, target = operands
            return arms > 0 and target in self.starts and self.outward(arms, here) == self.region(target)
        return name != "LeaveReturn" or operands[0] > 0 and self.outward(operands[0], here) == BODY

    # ---- words on the operand stack

    def named(self, name, number):
        """The procedure, signal or link that an instruction names, if there is one."""
        among = {"Call": self.module.procedures, "Raise": self.module.signals}.get(name, self.needs)
        return among[number] if number < len(among) else None

    def moves(self, number, operands):
        """The words that an instruction pops, and those that it then pushes."""
        name, _, pops, pushes = ROWS[number]
        if pops == "*":
            found = self.named(name, operands[0])
            return (0, 0) if found is None else sizes_of(found)
        values = dict(zip("abc", operands))
        return tuple(sum(values[it] if it in values else int(it) for it in text) for text in (pops, pushes))

    def goes_on(self, name, operands):
        if name in ("Raise", "RaiseLink"):
            found = self.named(name, operands[0])
            return found is None or kind_of(found) != ERROR
        return name not in ENDS

    def leads(self, place):
        """The places of the later instructions to which this one leads."""
        _, number, operands = self.code[place]
        name = NAMES[number]
        if self.goes_on(name, operands) and place + 1 < len(self.code):
            yield place + 1
        if name in FORWARD and self.starts.get(operands[0], 0) > place:
            yield self.starts[operands[0]]

    def stack_is_right(self, place, depth):
        at, number, operands = self.code[place]
        name, (pops, pushes) = NAMES[number], self.moves(number, operands)
        after = depth - pops + pushes
        if depth < pops or after > self.its.depth or name == "Return" and depth:
            return False
        if self.goes_on(name, operands) and (place + 1 == len(self.code) or self.region(at + size_of(number)) != self.region(at)):
            return False
        for other in self.leads(place):
            if self.depths[other] is None:
                self.depths[other] = after
            elif self.depths[other] != after:
                return False
        if name in ("JumpBack", "Leave"):
            return (self.depths[self.starts[operands[-1]]] or 0) == (after if name == "JumpBack" else 0)
        return True

    # ---- operands

    def operands_fit(self, at, name, operands):
        here = self.region(at)
        if name in ("Return", "ArmEnd", "Resume", "Leave", "LeaveReturn"):
            return (here == BODY) == (name == "Return")
        if name in ("Call", "Raise", "CallLink", "RaiseLink"):
            found = self.named(name, operands[0])
            return found is not None and {"Call": operands[0] > 0, "CallLink": kind_of(found) == PROCEDURE, "RaiseLink": kind_of(found) != PROCEDURE}.get(name, True)
        if name[-1] in "LGX" and name[:4] in ("Load", "Stor", "Zero"):
            room = self.its.frame if "L" in name[4:] else self.module.globals
            return operands[0] + operands[1] <= room and operands[-1] <= operands[1]
        return {"Str": lambda: 1 <= operands[0] <= len(self.module.strings), "RaiseHost": lambda: operands[0] <= 2}.get(name, lambda: True)()

    def arm_fits(self, at):
        here = self.region(at)
        arm = self.phrases[here[0]].arms[here[1]] if here else None
        if arm is None or arm.start != at:
            return True
        return arm.slot + arm.words <= self.its.frame and (arm.words == 0 or all(self.words_of(it) == arm.words for it in arm.labels))

    def words_of(self, label):
        """The words of the arguments of an own signal or a link."""
        if label[0] not in (OWN, LINKED):
            return None
        return sizes_of(self.module.signals[label[1]] if label[0] == OWN else self.needs[label[1]])[0]

    def fault(self):
        """The first fault: of the phrases in their order, else of the first instruction with one."""
        bad_phrase = self.phrase_fault()
        if bad_phrase:
            return bad_phrase
        for place, (at, number, operands) in enumerate(self.code):
            name = NAMES[number]
            if not self.jumps_rightly(at, name, operands):
                return f"BadJump {at}"
            self.depths[place] = self.depths[place] or 0
            if not self.stack_is_right(place, self.depths[place]):
                return f"StackDiffers {at}"
            if not (self.operands_fit(at, name, operands) and self.arm_fits(at)):
                return f"BadOperand {at}"
        return None


def kind_of(found):
    return found.item.kind if hasattr(found, "item") else getattr(found, "kind", PROCEDURE)


def sizes_of(found):
    """The words of arguments and results of a procedure, a signal or a link."""
    if hasattr(found, "item"):
        return tuple(sum(kind.words for _, kind in part or ()) for part in (found.item.takes, found.item.gives))
    return found.args, found.results


def code_fault(module, needs):
    """Returns the first fault of a module's code with the number of its procedure, or None."""
    for number, procedure in enumerate(module.procedures):
        fault = Routine(module, needs, procedure).fault()
        if fault:
            return f"{number}: {fault}"
    return None
