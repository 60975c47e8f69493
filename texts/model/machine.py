"""Runs an image by the rules of the frame machine: what it prints, how it ends, and the turns that are left."""
from collections import namedtuple

from model.code import NAMES, size_of
from model.objects import UNWIND, WANTED, Entry, is_wanted, needs_of
from model.reading import BOOLEAN, CHARACTER, ERROR, INTEGER, PROCEDURE, SIGNAL, STRING, Item, Type, signed, words_of
from model.signals import NO_INPUT, UNNAMED, bound_signal, fits
from model.words import BOUNDS_FAULT, ZERO_DIVISOR, Words

ACTIVATIONS = 8_192


def item(kind, name, takes=(), gives=()):
    """An item of the built-in interface."""
    takes, gives = ([(label, Type((tag,), 2 if tag == STRING else 1)) for label, tag in part] for part in (takes, gives))
    return Entry("IODefs", 1, Item(kind, name, takes, gives))


HOST = [item(PROCEDURE, "WriteChar", [("c", CHARACTER)]), item(PROCEDURE, "WriteString", [("s", STRING)]), item(PROCEDURE, "WriteDecimal", [("n", INTEGER)]),
        item(PROCEDURE, "ReadChar", [], [("", CHARACTER)]), item(PROCEDURE, "EndOfInput", [], [("", BOOLEAN)]), item(ERROR, "NoInput")]


def unresolved(image):
    """Returns the first wanted item that is none of the host's, as a line names it, or None."""
    for entry in image.wanted:
        if not any(is_wanted(it, entry) for it in HOST):
            return f"{entry.face}.{entry.item.name} {entry.stamp:012X}"
    return None


class Ended(Exception):
    """How the run ends, as a line says it."""


# Why an arm runs: for a raise, or for a jump that it interrupts; and the phrases that are asked beyond its own.
ForRaise = namedtuple("ForRaise", "signal args beyond")
ForJump = namedtuple("ForJump", "target beyond")
# A jump out of arms: the place of its activation, that of the frame to which it belongs, and the offset, or None for a return.
Target = namedtuple("Target", "place owner offset")


class Activation:
    """A frame, with its variables; or a running arm, with the place of its frame, the arm and why it runs."""

    def __init__(self, instance, number, procedure, offset, variables=None, owner=None, arm=None, why=None):
        self.instance, self.number, self.procedure, self.offset, self.operands = instance, number, procedure, offset, []
        self.variables, self.owner, self.arm, self.why = variables, owner, arm, why
        self.at = {at: (NAMES[op], operands, at + size_of(op)) for at, op, operands in procedure.code}


def around(phrases, count, offset, outward):
    """The numbers of the phrases to ask about an offset, among the first so many, the innermost first; outward of arms too, or within a region."""
    found = []
    for number in reversed(range(count)):
        phrase = phrases[number]
        if phrase.first <= offset < phrase.past:
            found.append(number)
            offset = phrase.first
        elif outward and any(arm.start <= offset < arm.end for arm in phrase.arms):
            offset = phrase.first
    return found


class Machine(Words):
    def __init__(self, image, turns, given=b""):
        self.image, self.turns, self.input, self.output = image, turns, given, b""
        self.globals = [[0] * self.module(it).globals for it in range(len(image.instances))]
        self.started, self.stack = set(), []

    # ---- looking things up

    def module(self, instance):
        return self.image.modules[self.image.instances[instance].module]

    def text(self, number, literal):
        strings = self.image.modules[number - 1].strings if 0 < number <= len(self.image.modules) else []
        return strings[literal - 1] if 0 < literal <= len(strings) else b""

    def owner_of(self, place):
        return place if self.stack[place].owner is None else self.stack[place].owner

    @property
    def top(self):
        return self.stack[-1]

    @property
    def operands(self):
        return self.top.operands

    @property
    def variables(self):
        return self.stack[self.owner_of(len(self.stack) - 1)].variables

    @property
    def words_of_globals(self):
        return self.globals[self.top.instance]

    @property
    def module_number(self):
        return self.image.instances[self.top.instance].module

    # ---- turns and activations

    def spend(self):
        if self.turns == 0:
            raise Ended("turns spent")
        self.turns -= 1

    def enter(self, activation):
        if len(self.stack) == ACTIVATIONS:
            raise Ended("frames full")
        self.stack.append(activation)

    def start(self, instance):
        self.started.add(instance)
        self.spend()
        body = self.module(instance).procedures[0]
        self.enter(Activation(instance, 0, body, 0, [0] * body.frame))

    def onward(self):
        self.top.offset = self.top.at[self.top.offset][2]

    def give(self, words):
        """The topmost activation gets words and goes on behind the instruction for which it waited."""
        self.push(*words)
        self.onward()

    # ---- calls and returns

    def call(self, instance, number):
        procedure = self.module(instance).procedures[number]
        args = self.popped(procedure.args)
        self.enter(Activation(instance, number, procedure, 0, args + [0] * (procedure.frame - len(args))))

    def call_link(self, link):
        if link[0] == WANTED:
            self.host(self.image.wanted[link[1]].item.name)
        elif link[1] == self.top.instance or link[1] in self.started:
            self.call(link[1], link[2])
        else:
            self.start(link[1])

    def bound(self, number):
        return self.image.links[self.top.instance][number]

    def returned(self):
        frame = self.stack.pop()
        args, results = frame.procedure.args, frame.procedure.results
        if not self.stack:
            return
        if frame.number == 0:
            self.call_link(self.bound(self.top.at[self.top.offset][1][0]))
        else:
            self.give(frame.variables[args : args + results])

    def host(self, name):
        if name in ("WriteChar", "WriteDecimal"):
            word = self.popped(1)[0]
            self.output += bytes([word % 256]) if name == "WriteChar" else str(signed(word)).encode()
            self.onward()
        elif name == "WriteString":
            self.output += self.text(*self.popped(2))
            self.onward()
        elif name == "EndOfInput":
            self.give([int(not self.input)])
        elif self.input:
            self.give([self.input[0]])
            self.input = self.input[1:]
        else:
            self.raised(NO_INPUT)

    # ---- raises

    def raised(self, signal, args=()):
        self.spend()
        place = len(self.stack) - 1
        self.seek(signal, list(args), place, self.asked(place, True))

    def asked(self, place, outward):
        """The phrases around the offset at which an activation stands."""
        phrases = self.stack[place].procedure.phrases
        return around(phrases, len(phrases), self.stack[place].offset, outward)

    def seek(self, signal, args, place, numbers):
        while True:
            activation = self.stack[place]
            for number in numbers:
                for arm in activation.procedure.phrases[number].arms:
                    if any(fits(self.image, label, activation.instance, signal) for label in arm.labels):
                        return self.run_arm(place, arm, ForRaise(signal, args, self.beyond(activation, number, True)), args)
            place = self.owner_of(place) - 1
            if place < 0:
                raise Ended(f"uncaught {self.shown(signal)}")
            numbers = self.asked(place, True)

    def beyond(self, activation, number, outward):
        phrases = activation.procedure.phrases
        return around(phrases, number, phrases[number].first, outward)

    def run_arm(self, place, arm, why, args):
        self.spend()
        its = self.stack[place]
        owner = self.owner_of(place)
        self.enter(Activation(its.instance, its.number, its.procedure, arm.start, owner=owner, arm=arm, why=why))
        self.stack[owner].variables[arm.slot : arm.slot + arm.words] = args[: arm.words]

    def shown(self, signal):
        if isinstance(signal, str):
            return signal
        instance, number = signal
        return ".".join(self.image.instances[instance].path + [self.module(instance).signals[number].name])

    # ---- what comes of an arm

    def rejected(self, arm):
        if isinstance(arm.why, ForRaise):
            self.seek(arm.why.signal, arm.why.args, arm.owner, arm.why.beyond)
        else:
            self.leaving(arm.why.target, arm.why.beyond)

    def resumed(self, count):
        arm = self.top
        words = self.popped(count)
        self.stack.pop()
        signal = arm.why.signal if isinstance(arm.why, ForRaise) else None
        its = self.module(signal[0]).signals[signal[1]] if isinstance(signal, tuple) else None
        if its and its.kind == SIGNAL and its.results == count:
            self.give(words)
        else:
            self.rejected(arm)

    # ---- jumps out of arms

    def left(self, offset):
        arm = self.stack.pop()
        place = arm.owner
        for other in range(len(self.stack)):
            its = self.stack[other]
            if offset is not None and its.owner == arm.owner and its.arm.start <= offset < its.arm.end:
                place = other
        self.leaving(Target(place, arm.owner, offset), self.left_to_ask(arm))

    def left_to_ask(self, dropped):
        """Which phrases of the topmost activation a jump asks when the one above it is dropped."""
        return dropped.why.beyond if isinstance(dropped.why, ForJump) else self.asked(len(self.stack) - 1, False)

    def leaving(self, target, numbers):
        while len(self.stack) - 1 != target.place:
            place = len(self.stack) - 1
            if self.owner_of(place) != target.owner:
                for number in numbers:
                    for arm in self.top.procedure.phrases[number].arms:
                        if any(label[0] == UNWIND for label in arm.labels):
                            return self.run_arm(place, arm, ForJump(target, self.beyond(self.top, number, False)), [])
            numbers = self.left_to_ask(self.stack.pop())
        if target.offset is None:
            self.returned()
        else:
            self.top.offset, self.top.operands = target.offset, []

    # ---- the run

    def touched(self, name, operands):
        """An instruction that touches more than one activation, or jumps."""
        if name == "Call":
            self.spend()
            self.call(self.top.instance, operands[0])
        elif name == "CallLink":
            self.spend()
            self.call_link(self.bound(operands[0]))
        elif name == "Return":
            self.returned()
        elif name == "Raise":
            self.raised((self.top.instance, operands[0]), self.popped(self.module(self.top.instance).signals[operands[0]].args))
        elif name == "RaiseLink":
            self.raised(bound_signal(self.image, self.top.instance, operands[0]), self.popped(self.args_of_link(operands[0])))
        elif name == "RaiseHost":
            self.raised((BOUNDS_FAULT, ZERO_DIVISOR, UNNAMED)[operands[0]])
        elif name == "ArmEnd":
            self.rejected(self.stack.pop())
        elif name == "Resume":
            self.resumed(operands[0])
        elif name in ("Leave", "LeaveReturn"):
            self.left(operands[1] if name == "Leave" else None)
        else:
            self.jumped(name, operands[0])

    def args_of_link(self, number):
        return words_of(needs_of(self.module(self.top.instance).imports)[number].item.takes)

    def jumped(self, name, target):
        if name == "JumpBack":
            self.spend()
        if name in ("Jump", "JumpBack") or bool(self.popped(1)[0]) == (name == "JumpIf"):
            self.top.offset = target
        else:
            self.onward()

    def step(self):
        name, operands, _ = self.top.at[self.top.offset]
        work = getattr(self, "do_" + name, None)
        if work is None:
            self.touched(name, operands)
            return
        fault = work(*operands)
        if fault:
            self.raised(fault)
        else:
            self.onward()

    def run(self):
        """Returns how the run ends: `done`, or the line that says it."""
        try:
            for instance in self.image.control:
                if instance not in self.started:
                    self.start(instance)
                while self.stack:
                    self.step()
        except Ended as end:
            return str(end)
        return "done"
