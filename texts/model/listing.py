"""The lines that list an interface, an object or an image, as the description of listings says."""
from model.code import NAMES
from model.objects import LINKED, OWN, WANTED, image_in, object_in
from model.reading import ERROR, interface_in
from model.shown import KINDS, LABELS, fields_shown, type_shown

# The operands that are offsets in the code, by the instruction's name.
OFFSETS = {"Jump": (0,), "JumpIf": (0,), "JumpIfNot": (0,), "JumpBack": (0,), "Leave": (1,)}


def stamp(number):
    return f"{number:012X}"


def offset(number):
    return f"{number:08X}"


def fields(part):
    return fields_shown([(label, kind.tree) for label, kind in part])


def line(*words):
    return " ".join(map(str, words)) + "\n"


# ---- interfaces


def item(it):
    results = ("RETURNS", fields(it.gives)) if it.kind != ERROR else ()
    return line(KINDS[it.kind], it.name, fields(it.takes), *results)


def interface(value):
    lines = [line("INTERFACE", value.face.name, stamp(value.face.stamp)), *map(item, value.face.items)]
    lines += [line("CONSTANT", it.name, type_shown(it.kind.tree), it.number) for it in value.constants]
    return lines + [line("TYPE", name, type_shown(kind.tree)) for name, kind in value.types]


# ---- objects


def imported(it):
    uses = [line("USES", it.face.items[number].name) for number in it.used]
    return [line("IMPORT", it.face.name, stamp(it.face.stamp)), *uses]


def exported(it):
    pairs = [line("GIVES", it.face.items[number].name, given) for number, given in it.given]
    return [line("EXPORT", it.face.name, stamp(it.face.stamp)), *pairs]


def instruction(it):
    at, number, operands = it
    name = NAMES[number]
    return line(offset(at), name, *(offset(its) if place in OFFSETS.get(name, ()) else its for place, its in enumerate(operands)))


def label(it):
    words = {OWN: "own", LINKED: "link"}
    return f"{words[it[0]]} {it[1]}" if it[0] in words else LABELS[it[0]]


def phrase(it):
    arms = [line("ARM", offset(arm.start), offset(arm.end), arm.slot, arm.words, *map(label, arm.labels)) for arm in it.arms]
    return [line("PHRASE", offset(it.first), offset(it.past)), *arms]


def procedure(it):
    head = line("CODE", it.name, it.args, it.results, it.frame, it.depth)
    return [head, *map(instruction, it.code), *(row for its in it.phrases for row in phrase(its))]


def module(value):
    lines = [line("OBJECT", value.name), *(row for it in value.imports for row in imported(it)), line("GLOBALS", value.globals)]
    lines += [line(KINDS[it.kind], it.name, it.args, it.results) for it in value.signals]
    lines += [line("STRING", len(it)) for it in value.strings]
    lines += [row for it in value.procedures for row in procedure(it)]
    return lines + [row for it in value.exports for row in exported(it)]


# ---- images


def image(value):
    def path(number):
        return ".".join(value.instances[number].path)

    def link(it):
        return line("LINK", "wanted", it[1]) if it[0] == WANTED else line("LINK", path(it[1]), it[2])

    lines = [line("IMAGE"), *(row for it in value.modules for row in module(it))]
    lines += [line("WANTED", f"{it.face}.{it.item.name}", stamp(it.stamp)) for it in value.wanted]
    for it, links in zip(value.instances, value.links):
        lines += [line("INSTANCE", ".".join(it.path), it.module), *map(link, links)]
    lines += [line("OFFERED", it.name, path(it.instance), it.export) for it in value.offered]
    return lines + [line("CONTROL", path(it)) for it in value.control]


# How a file is read, and how it is listed, by its ending.
FORMS = {"mif": (interface_in, interface), "mob": (object_in, module), "mim": (image_in, image)}


def read(name, held):
    """Returns what a file of this name holds, or says by Wrong why it is none."""
    return FORMS[name.rpartition(".")[2]][0](held)


def listing(name, held):
    """Returns the text that lists a file of this name."""
    return "".join(FORMS[name.rpartition(".")[2]][1](read(name, held)))
