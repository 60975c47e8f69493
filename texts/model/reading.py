"""Reads interface files from the left, field by field, as the description of the format says: what a file holds, or the first field that breaks its rule.
Types, items and faces are read here for objects and images too. Nothing of the program is used."""
from collections import namedtuple

WORDS, DEPTH, ELEMENTS = 16_384, 64, 65_536
INTEGER, CARDINAL, BOOLEAN, CHARACTER, STRING, ENUMERATION, SUBRANGE, ARRAY, RECORD, LONG_INTEGER, LONG_CARDINAL = range(1, 12)
ANY, BASE = set(range(INTEGER, LONG_CARDINAL + 1)), {INTEGER, CARDINAL, BOOLEAN, CHARACTER, ENUMERATION}
INDEX, OF_CONSTANTS = {BOOLEAN, CHARACTER, ENUMERATION, SUBRANGE}, BASE | {SUBRANGE, LONG_INTEGER, LONG_CARDINAL}
# The types that a version has, which are those up to this tag.
LAST = {1: RECORD, 2: LONG_CARDINAL}
PROCEDURE, SIGNAL, ERROR = 1, 2, 3

# A type: its tag and parts, by which two are the same; its words; and where it is ordinal or LONG its first and last value and how words are read as values.
Type = namedtuple("Type", "tree words first last value", defaults=(None, None, None))
# An item takes and gives lists of names, each with its type; an error gives None.
Item = namedtuple("Item", "kind name takes gives")
Face = namedtuple("Face", "name stamp items")
# The number of a constant is the value of its word, or of its two; a named type is a name and a type.
Constant = namedtuple("Constant", "name kind number")
Interface = namedtuple("Interface", "face constants types")


class Wrong(Exception):
    """The first field that breaks its rule, as a line says it."""


def signed(word):
    return word - 65_536 if word > 32_767 else word


def signed_long(number):
    return number - 2**32 if number >= 2**31 else number


def is_name(text):
    return text.isalnum() and text.isascii() and text[:1].isalpha()


def words_of(fields):
    return sum(kind.words for _, kind in fields or ())


def types_of(fields):
    return [kind.tree for _, kind in fields or ()]


class Reader:
    """Reads a file. Each call takes a part, or says by Wrong why it is none."""

    def __init__(self, held):
        self.held, self.at, self.version = held, 0, 2

    def bad(self, at, field):
        raise Wrong(f"BadField {at} {field}")

    def ensure(self, right, at, field):
        if not right:
            self.bad(at, field)

    def taken(self, size):
        if self.at + size > len(self.held):
            raise Wrong(f"Cut {len(self.held)}")
        self.at += size
        return self.held[self.at - size : self.at]

    # ---- numbers and names

    def number(self, size):
        return int.from_bytes(self.taken(size), "big")

    def ruled(self, size, test, field):
        """A number of which the test holds; else the fault is at its first byte."""
        at = self.at
        number = self.number(size)
        self.ensure(test(number), at, field)
        return number

    def count(self, least=0, most=2**32):
        return self.ruled(4, lambda count: least <= count <= most, "length")

    def listed(self, each, least=0, most=2**32):
        """A list: its count, and that many, each of which is told those before."""
        found = []
        for _ in range(self.count(least, most)):
            found.append(each(found))
        return found

    def text(self):
        return self.taken(self.number(1))

    def name(self, before=()):
        at = self.at
        text = self.text()
        self.ensure(text, at, "length")
        self.ensure(is_name(text), at, "name")
        self.ensure(text not in before, at, "twice")
        return text.decode()

    def fresh(self, before):
        """A name that is none of these."""
        return self.name([it.encode() for it in before])

    # ---- types

    def type(self, allowed=ANY, depth=1):
        at = self.at
        tag = self.ruled(1, lambda tag: depth <= DEPTH and tag in allowed and tag <= LAST[self.version], "type")
        kind = {ENUMERATION: self.enumeration, SUBRANGE: self.subrange, ARRAY: self.array, RECORD: self.record}.get(tag, self.plain)(tag, depth)
        self.ensure(kind.words <= WORDS, at, "type")
        return kind

    def plain(self, tag, depth):
        bounds = {INTEGER: (-32_768, 32_767, signed), CARDINAL: (0, 65_535, int), BOOLEAN: (0, 1, int), CHARACTER: (0, 255, int)}
        longs = {LONG_INTEGER: (-(2**31), 2**31 - 1, signed_long), LONG_CARDINAL: (0, 2**32 - 1, int)}
        return Type((tag,), 1, *bounds[tag]) if tag in bounds else Type((tag,), 2, *longs.get(tag, ()))

    def origin(self):
        return self.name(), self.number(6), self.number(4)

    def enumeration(self, tag, depth):
        origin = self.origin()
        names = self.listed(self.fresh, 1, ELEMENTS)
        return Type((tag, origin, tuple(names)), 1, 0, len(names) - 1, int)

    def value(self, kind, least):
        """A word or two that are a value of the type, and not below this one."""
        return kind.value(self.ruled(2 * kind.words, lambda word: max(kind.first, least) <= kind.value(word) <= kind.last, "number"))

    def subrange(self, tag, depth):
        base = self.type(BASE, depth + 1)
        first = self.value(base, base.first)
        last = self.value(base, first)
        return Type((tag, base.tree, first, last), 1, first, last, base.value)

    def array(self, tag, depth):
        index = self.type(INDEX, depth + 1)
        element = self.type(ANY, depth + 1)
        return Type((tag, index.tree, element.tree), (index.last - index.first + 1) * element.words)

    def record(self, tag, depth):
        origin = self.origin()
        fields = self.fields(depth + 1, 1)
        return Type((tag, origin, tuple((label, kind.tree) for label, kind in fields)), words_of(fields))

    def label(self, before):
        """The name of a field behind these: all are empty, or all are there and distinct."""
        at = self.at
        text = self.text()
        self.ensure(not before or bool(before[0]) == bool(text), at, "length")
        self.ensure(not text or is_name(text), at, "name")
        self.ensure(not text or text.decode() not in before, at, "twice")
        return text.decode()

    def fields(self, depth=1, least=0):
        return tuple(self.listed(lambda before: (self.label([label for label, _ in before]), self.type(ANY, depth)), least))

    # ---- items and faces

    def item(self, before=()):
        kind = self.ruled(1, lambda kind: PROCEDURE <= kind <= ERROR, "kind")
        name = self.fresh([it.name for it in before])
        takes = self.fields()
        return Item(kind, name, takes, self.fields() if kind != ERROR else None)

    def face(self):
        name, stamp = self.name(), self.number(6)
        return Face(name, stamp, tuple(self.listed(self.item)))

    # ---- whole files

    def constant(self, before):
        name = self.fresh(before)
        kind = self.type(OF_CONSTANTS)
        return Constant(name, kind, self.value(kind, kind.first))

    def named_type(self, before):
        return self.fresh(before), self.type()

    def interface(self):
        face = self.face()
        names = [it.name for it in face.items]
        constants = self.listed(lambda before: self.constant(names + [it.name for it in before]))
        names += [it.name for it in constants]
        return Interface(face, constants, self.listed(lambda before: self.named_type(names + [name for name, _ in before])))

    def whole(self, letters, value):
        """A file of these letters: a version, the value, and nothing behind it."""
        if self.held[:3] != letters[: len(self.held)]:
            raise Wrong("BadMagic")
        self.taken(3)
        self.version = self.ruled(1, lambda version: version in (1, 2), "version")
        found = value()
        if self.at < len(self.held):
            raise Wrong(f"TrailingBytes {self.at}")
        return found


def interface_in(held):
    """Returns the interface that these bytes are a file of."""
    reader = Reader(held)
    return reader.whole(b"MIF", reader.interface)
