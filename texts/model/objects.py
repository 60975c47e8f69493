"""Reads object and image files from the left, field by field, and then the code in them, as the description of the format says: what a file holds, or its
first fault."""
from collections import namedtuple

from model.code import SIZES, code_fault
from model.reading import ERROR, PROCEDURE, SIGNAL, Reader, Wrong, types_of, words_of

GLOBALS, STRINGS, STRING_BYTES, FRAME, STACK = 16_384, 65_535, 32_767, 2_048, 65_535
MODULES, INSTANCES, NAMES = 65_534, 1_024, 32
ALL, UNWIND, OWN, LINKED, BOUNDS, ZERO = range(1, 7)
WANTED, TO = 1, 2

Import = namedtuple("Import", "face used")
Signal = namedtuple("Signal", "kind name args results")
# The code is a list of offset, number and operands; a phrase has the offsets from its first instruction to behind its last one.
Procedure = namedtuple("Procedure", "name args results frame depth code phrases")
Phrase = namedtuple("Phrase", "first past arms")
Arm = namedtuple("Arm", "labels slot words start end")
# What is given: pairs of an item's number and that of a procedure or signal.
Export = namedtuple("Export", "face given")
# A module has its bytes too, which are the same in each file that holds it.
Module = namedtuple("Module", "name imports globals signals strings procedures exports spelled")
# What a link needs, or an image wants of the loader: an item of an interface.
Entry = namedtuple("Entry", "face stamp item")
Instance = namedtuple("Instance", "path module")
Offer = namedtuple("Offer", "name instance export")
Image = namedtuple("Image", "modules wanted instances links offered control")


def needs_of(imports):
    """Returns what the links of a module need, in order."""
    return [Entry(it.face.name, it.face.stamp, it.face.items[number]) for it in imports for number in it.used]


def fits(item, found):
    """Whether something of a module has the kind and the sizes of an item."""
    kind = PROCEDURE if isinstance(found, Procedure) else found.kind
    return kind == item.kind and found.args == words_of(item.takes) and found.results == words_of(item.gives)


def gives(signals, procedures, item, number):
    """Whether a module has under this number, for an item, a procedure above 0, or a signal."""
    among = procedures if item.kind == PROCEDURE else signals
    return (item.kind != PROCEDURE or number > 0) and number < len(among) and fits(item, among[number])


def is_wanted(need, entry):
    """Whether an entry is what a link needs: the names of parameters and results are free."""
    return (need.face, need.stamp, need.item.kind, need.item.name) == (entry.face, entry.stamp, entry.item.kind, entry.item.name) and (
        types_of(need.item.takes), types_of(need.item.gives)) == (types_of(entry.item.takes), types_of(entry.item.gives))


class ObjectReader(Reader):
    # ---- imports, signals and strings

    def rising(self, limit, before):
        """A number below the limit and above the last one before."""
        return self.ruled(4, lambda number: number < limit and (not before or number > before[-1]), "number")

    def imported(self, _):
        face = self.face()
        return Import(face, self.listed(lambda before: self.rising(len(face.items), before)))

    def signal(self, _):
        kind = self.ruled(1, lambda kind: kind in (SIGNAL, ERROR), "kind")
        name, args = self.name(), self.number(2)
        return Signal(kind, name, args, self.ruled(2, lambda words: kind == SIGNAL or words == 0, "length"))

    def string(self, _):
        return self.taken(self.ruled(2, lambda size: size <= STRING_BYTES, "length"))

    # ---- procedures

    def code(self):
        size = self.count(1)
        start, code = self.at, []
        while self.at < start + size:
            left = start + size - self.at
            at = self.at - start
            number = self.ruled(1, lambda number: number in SIZES and 1 + sum(SIZES[number]) <= left, "opcode")
            code.append((at, number, [self.number(it) for it in SIZES[number]]))
        return code

    def label_of(self, signals, links):
        kind = self.ruled(1, lambda kind: ALL <= kind <= ZERO, "kind")
        if kind == OWN:
            return kind, self.ruled(4, lambda number: number < len(signals), "number")
        if kind == LINKED:
            return kind, self.ruled(4, lambda number: number < len(links) and links[number].item.kind != PROCEDURE, "number")
        return (kind,)

    def arm(self, signals, links):
        labels = self.listed(lambda _: self.label_of(signals, links), 1)
        return Arm(labels, self.number(2), self.number(2), self.number(4), self.number(4))

    def phrase(self, signals, links):
        return Phrase(self.number(4), self.number(4), self.listed(lambda _: self.arm(signals, links), 1))

    def procedure(self, signals, links, before):
        name = self.name()
        args = self.ruled(2, lambda words: before or words == 0, "length")
        results = self.ruled(2, lambda words: before or words == 0, "length")
        frame = self.ruled(2, lambda words: args + results <= words <= FRAME, "length")
        depth = self.ruled(4, lambda words: words <= STACK, "length")
        return Procedure(name, args, results, frame, depth, self.code(), self.listed(lambda _: self.phrase(signals, links)))

    # ---- modules

    def given(self, face, signals, procedures, before):
        item = self.rising(len(face.items), [it for it, _ in before])
        return item, self.ruled(4, lambda number: gives(signals, procedures, face.items[item], number), "number")

    def exported(self, signals, procedures):
        face = self.face()
        return Export(face, self.listed(lambda before: self.given(face, signals, procedures, before)))

    def module(self, _=()):
        start = self.at
        name, imports = self.name(), self.listed(self.imported)
        words = self.ruled(2, lambda words: words <= GLOBALS, "length")
        signals, strings = self.listed(self.signal), self.listed(self.string, 0, STRINGS)
        links = needs_of(imports)
        procedures = self.listed(lambda before: self.procedure(signals, links, before), 1)
        exports = self.listed(lambda _: self.exported(signals, procedures))
        return Module(name, imports, words, signals, strings, procedures, exports, self.held[start : self.at])

    # ---- images

    def entry(self, _):
        return Entry(self.name(), self.number(6), self.item())

    def path(self, before):
        at = self.at
        path = [self.name() for _ in range(self.ruled(1, lambda count: 1 <= count <= NAMES, "length"))]
        self.ensure(path not in [it.path for it in before], at, "twice")
        return path

    def below(self, limit):
        return self.ruled(4, lambda number: number < limit, "number")

    def link(self, need, modules, wanted, instances):
        if self.ruled(1, lambda kind: kind in (WANTED, TO), "kind") == WANTED:
            return WANTED, self.ruled(4, lambda number: number < len(wanted) and is_wanted(need, wanted[number]), "number")
        instance = self.below(len(instances))
        its = modules[instances[instance].module]
        return TO, instance, self.ruled(4, lambda number: gives(its.signals, its.procedures, need.item, number), "number")

    def image(self):
        modules, wanted = self.listed(self.module, 0, MODULES), self.listed(self.entry)
        instances = self.listed(lambda before: Instance(self.path(before), self.below(len(modules))), 0, INSTANCES)
        links = [[self.link(need, modules, wanted, instances) for need in needs_of(modules[it.module].imports)] for it in instances]
        offered = self.listed(lambda _: self.offer(modules, instances))
        return Image(modules, wanted, instances, links, offered, self.listed(lambda _: self.below(len(instances))))

    def offer(self, modules, instances):
        name, instance = self.name(), self.below(len(instances))
        return Offer(name, instance, self.below(len(modules[instances[instance].module].exports)))


def validated(modules):
    """The first fault of the code in these modules, as a line says it."""
    for number, module in enumerate(modules):
        fault = code_fault(module, needs_of(module.imports))
        if fault:
            raise Wrong(f"Code {number} {fault}")


def object_in(held):
    """Returns the module that these bytes are an object file of."""
    reader = ObjectReader(held)
    module = reader.whole(b"MOB", reader.module)
    validated([module])
    return module


def image_in(held):
    """Returns the image that these bytes are a file of."""
    reader = ObjectReader(held)
    image = reader.whole(b"MIM", reader.image)
    validated(image.modules)
    return image
