"""Bytes of interface, object and image files, part by part, as the description of the format says."""
from model.code import NUMBERS, SIZES
from model.reading import ARRAY, ENUMERATION, ERROR, RECORD, SUBRANGE


def u8(value):
    return value.to_bytes(1, "big")


def u16(value):
    return (value % 65_536).to_bytes(2, "big")


def u32(value):
    return value.to_bytes(4, "big")


def stamp(value):
    return value.to_bytes(6, "big")


def name(text):
    raw = text if isinstance(text, bytes) else text.encode()
    return u8(len(raw)) + raw


def items(*parts):
    """A list of parts."""
    return u32(len(parts)) + b"".join(parts)


# ---- types, items and faces

INTEGER, CARDINAL, BOOLEAN, CHARACTER, STRING = (u8(tag) for tag in range(1, 6))
LONG_INTEGER, LONG_CARDINAL = u8(10), u8(11)


def fields(*parts):
    """A list of names, each with its type; a name may be empty."""
    return items(*(name(called) + kind for called, kind in parts))


def origin(number=0, of="I", at=10):
    return name(of) + stamp(at) + u32(number)


def enumeration(*elements):
    return u8(6) + origin() + items(*map(name, elements))


def subrange(base, first, last):
    return u8(7) + base + u16(first) + u16(last)


def array(index, element):
    return u8(8) + index + element


def record(*parts):
    return u8(9) + origin() + fields(*parts)


def item(kind, called, takes=(), gives=()):
    return u8(kind) + name(called) + fields(*takes) + (fields(*gives) if kind < 3 else b"")


def constant(called, kind, value):
    return name(called) + kind + (u32 if kind in (LONG_INTEGER, LONG_CARDINAL) else u16)(value)


def named(called, kind):
    return name(called) + kind


def face(called, at, *its):
    return name(called) + stamp(at) + items(*its)


def type_bytes(tree):
    """A type that was read."""
    tag = tree[0]
    if tag == SUBRANGE:
        return u8(tag) + type_bytes(tree[1]) + u16(tree[2]) + u16(tree[3])
    if tag == ARRAY:
        return u8(tag) + type_bytes(tree[1]) + type_bytes(tree[2])
    if tag not in (ENUMERATION, RECORD):
        return u8(tag)
    module, at, number = tree[1]
    parts = [name(it) for it in tree[2]] if tag == ENUMERATION else [name(label) + type_bytes(kind) for label, kind in tree[2]]
    return u8(tag) + origin(number, module, at) + items(*parts)


def item_bytes(its):
    """An item that was read."""
    takes, gives = ([(label, type_bytes(kind.tree)) for label, kind in part or ()] for part in (its.takes, its.gives))
    return u8(its.kind) + name(its.name) + fields(*takes) + (fields(*gives) if its.kind != ERROR else b"")


# ---- modules


def numbers(*them):
    return items(*map(u32, them))


def signal(kind, called, args=0, results=0):
    return u8(kind) + name(called) + u16(args) + u16(results)


def string(text):
    raw = text if isinstance(text, bytes) else text.encode()
    return u16(len(raw)) + raw


def instruction(text):
    """One instruction, as `StoreL 0 1`."""
    word, *operands = text.split()
    number = NUMBERS[word]
    return u8(number) + b"".join((int(it) % 256**size).to_bytes(size, "big") for it, size in zip(operands, SIZES[number], strict=True))


def code(*lines):
    return b"".join(map(instruction, lines))


def label(kind, number=None):
    return u8(kind) + (b"" if number is None else u32(number))


def arm(labels, start, end, slot=0, words=0):
    return items(*labels) + u16(slot) + u16(words) + u32(start) + u32(end)


def phrase(first, past, *arms):
    return u32(first) + u32(past) + items(*arms)


def procedure(called, its=b"\x22", args=0, results=0, frame=None, depth=0, phrases=()):
    frame = args + results if frame is None else frame
    return name(called) + u16(args) + u16(results) + u16(frame) + u32(depth) + u32(len(its)) + its + items(*phrases)


def imported(its, *used):
    return its + numbers(*used)


def exported(its, *pairs):
    """A face, and pairs of an item's number and that of a procedure or signal."""
    return its + items(*(u32(one) + u32(other) for one, other in pairs))


def module(called, imports=(), words=0, signals=(), strings=(), procedures=None, exports=()):
    body = [procedure(called)] if procedures is None else procedures
    return name(called) + items(*imports) + u16(words) + items(*signals) + items(*strings) + items(*body) + items(*exports)


def object_file(its, version=2):
    return b"MOB" + u8(version) + its


# ---- images


def entry(called, at, its):
    return name(called) + stamp(at) + its


def instance(path, number):
    names = path.split(".") if isinstance(path, str) else path
    return u8(len(names)) + b"".join(map(name, names)) + u32(number)


def wanted_link(number):
    return u8(1) + u32(number)


def bound_link(its_instance, number):
    return u8(2) + u32(its_instance) + u32(number)


def offer(called, its_instance, export):
    return name(called) + u32(its_instance) + u32(export)


def image_file(modules, wanted=(), instances=(), links=(), offered=(), control=(), version=2):
    return b"MIM" + u8(version) + items(*modules) + items(*wanted) + items(*instances) + b"".join(links) + items(*offered) + numbers(*control)
