"""Writes an object or an image as hexadecimal digits, field by field, with comments: the form of a file in a table."""
from model import spelling as s
from model.code import NAMES, SIZES
from model.objects import LINKED, OWN, TO, image_in, needs_of, object_in
from model.reading import ARRAY, ENUMERATION, ERROR, RECORD, SUBRANGE

WORDS = {1: "INTEGER", 2: "CARDINAL", 3: "BOOLEAN", 4: "CHARACTER", 5: "STRING", 10: "LONG INTEGER", 11: "LONG CARDINAL"}
KINDS = {1: "PROCEDURE", 2: "SIGNAL", 3: "ERROR"}
LABELS = {1: "ANY", 2: "UNWIND", 5: "BoundsFault", 6: "ZeroDivisor"}


def type_shown(tree):
    if tree[0] == SUBRANGE:
        return f"{type_shown(tree[1])} [{tree[2]}..{tree[3]}]"
    if tree[0] == ARRAY:
        return f"ARRAY {type_shown(tree[1])} OF {type_shown(tree[2])}"
    if tree[0] == ENUMERATION:
        return "{" + ", ".join(tree[2]) + "}"
    if tree[0] == RECORD:
        return "RECORD " + fields_shown([(label, kind) for label, kind in tree[2]])
    return WORDS[tree[0]]


def fields_shown(fields):
    return "[" + ", ".join(f"{label}: {type_shown(tree)}" if label else type_shown(tree) for label, tree in fields) + "]"


def item_shown(it):
    takes, gives = (fields_shown([(label, kind.tree) for label, kind in part]) if part else "" for part in (it.takes, it.gives))
    return f"{it.name}: {KINDS[it.kind]}" + (f" {takes}" if takes else "") + (f" RETURNS {gives}" if gives else "")


def item_groups(it):
    """The bytes of an item, each field apart."""
    groups = [s.u8(it.kind), s.name(it.name)]
    for part in (it.takes, it.gives)[: 1 if it.kind == ERROR else 2]:
        groups += [s.u32(len(part)), *(group for label, kind in part for group in (s.name(label) if label else s.u8(0), s.type_bytes(kind.tree)))]
    return groups


def text_shown(held):
    return '"' + "".join(chr(it) if 32 <= it < 127 else "." for it in held) + '"'


class Writer:
    """Collects lines of bytes, in groups, with comments. A module for whose bytes there is a word is shown by that word."""

    def __init__(self, words=None):
        self.lines, self.held, self.level, self.words = [], b"", 0, words or {}

    def line(self, comment, *groups):
        self.held += b"".join(groups)
        digits = " ".join(group.hex() for group in groups if group)
        self.lines.append("  " * self.level + digits + (f"  -- {comment}" if comment else ""))

    def listed(self, what, parts, each):
        """The count of a list, and its parts further in."""
        self.line(what if len(parts) != 1 else what.removesuffix("s"), s.u32(len(parts)))
        self.level += 1
        for part in parts:
            each(part)
        self.level -= 1

    # ---- modules

    def item(self, it):
        self.line(item_shown(it), *item_groups(it))

    def face(self, face):
        self.line(f"{face.name}, {face.stamp:012X}", s.name(face.name), s.stamp(face.stamp))
        self.listed("items", face.items, self.item)

    def imported(self, it):
        self.face(it.face)
        used = ", ".join(face_item.name for face_item in (it.face.items[number] for number in it.used))
        self.line(f"of which are used: {used}" if used else "none is used", s.u32(len(it.used)), *map(s.u32, it.used))

    def signal(self, it):
        self.line(f"{it.name}: {KINDS[it.kind]}, takes {it.args}, gives {it.results}", s.u8(it.kind), s.name(it.name), s.u16(it.args), s.u16(it.results))

    def string(self, held):
        self.line(text_shown(held), s.u16(len(held)), held)

    def instruction(self, it):
        at, number, operands = it
        words = [operand.to_bytes(size, "big") for operand, size in zip(operands, SIZES[number])]
        self.line(f"{at} {' '.join([NAMES[number], *map(str, operands)])}", s.u8(number), *words)

    def label_shown(self, it):
        return {OWN: lambda: self.module.signals[it[1]].name, LINKED: lambda: self.needs[it[1]].item.name}.get(it[0], lambda: LABELS[it[0]])()

    def arm(self, it):
        labels = [group for label in it.labels for group in (s.u8(label[0]), *map(s.u32, label[1:]))]
        words = f", of {it.words} from slot {it.slot} on" if it.words else ""
        comment = f"arm {it.start} to {it.end}: {', '.join(map(self.label_shown, it.labels))}{words}"
        self.line(comment, s.u32(len(it.labels)), *labels, s.u16(it.slot), s.u16(it.words), s.u32(it.start), s.u32(it.end))

    def phrase(self, it):
        self.line(f"phrase {it.first} to {it.past}", s.u32(it.first), s.u32(it.past))
        self.listed("arms", it.arms, self.arm)

    def procedure(self, it):
        head = s.name(it.name), s.u16(it.args), s.u16(it.results), s.u16(it.frame), s.u32(it.depth)
        self.line(f"{it.name} takes {it.args}, gives {it.results}; frame {it.frame}, depth {it.depth}", *head)
        size = it.code[-1][0] + 1 + sum(SIZES[it.code[-1][1]])
        self.line("bytes of code", s.u32(size))
        self.level += 1
        for instruction in it.code:
            self.instruction(instruction)
        self.level -= 1
        self.listed("phrases", it.phrases, self.phrase)

    def given(self, face, pair):
        self.line(f"{face.items[pair[0]].name} is {pair[1]}", *map(s.u32, pair))

    def exported(self, it):
        self.face(it.face)
        self.listed("given", it.given, lambda pair: self.given(it.face, pair))

    def parts_of(self, module):
        self.module, self.needs = module, needs_of(module.imports)
        self.listed("imports", module.imports, self.imported)
        self.line("words of globals", s.u16(module.globals))
        self.listed("signals", module.signals, self.signal)
        self.listed("strings", module.strings, self.string)
        self.listed("procedures", module.procedures, self.procedure)
        self.listed("exports", module.exports, self.exported)

    def module_in_image(self, module):
        word = self.words.get(module.spelled)
        if word:
            self.held += module.spelled
            self.lines.append("  " * self.level + word)
            return
        self.line(f"module {module.name}", s.name(module.name))
        self.level += 1
        self.parts_of(module)
        self.level -= 1

    # ---- images

    def entry(self, it):
        self.line(f"{it.face} {it.stamp:012X}, {item_shown(it.item)}", s.name(it.face), s.stamp(it.stamp), *item_groups(it.item))

    def instance(self, it):
        self.line(f"{'.'.join(it.path)}, of module {it.module}", s.u8(len(it.path)), *map(s.name, it.path), s.u32(it.module))

    def link(self, image, instance, link):
        where = f"to {'.'.join(image.instances[link[1]].path)}, {link[2]}" if link[0] == TO else f"to wanted {link[1]}"
        self.line(f"{'.'.join(instance.path)}: {where}", s.u8(link[0]), *map(s.u32, link[1:]))

    def image(self, image):
        self.listed("modules", image.modules, self.module_in_image)
        self.listed("wanted items", image.wanted, self.entry)
        self.listed("instances", image.instances, self.instance)
        for instance, links in zip(image.instances, image.links):
            for link in links:
                self.link(image, instance, link)
        self.listed("offered", image.offered, lambda it: self.line(f"{it.name}", s.name(it.name), s.u32(it.instance), s.u32(it.export)))
        self.line("started" if image.control else "none is started", s.u32(len(image.control)), *map(s.u32, image.control))


def shown(held, words=None):
    """Returns the lines of an object's or an image's file; there may be words for the bytes of modules."""
    writer = Writer(words)
    if held[:3] == b"MOB":
        module = object_in(held)
        writer.line(f"an object of version {held[3]}, {module.name}", held[:3], held[3:4], s.name(module.name))
        writer.parts_of(module)
    else:
        image = image_in(held)
        writer.line(f"an image of version {held[3]}", held[:3], held[3:4])
        writer.image(image)
    if writer.held != held:
        raise ValueError("the lines are not the file")
    return writer.lines
