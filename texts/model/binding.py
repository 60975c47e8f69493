"""Binds the objects of a configuration: from its text and the files of its components to the image, or to the line that refuses it. Limits on how many
instances there are and how deep they stand are not looked at, and of texts that are no configuration's it only says that they are none."""
import re
from collections import namedtuple

from model import spelling as s
from model.machine import HOST
from model.objects import needs_of, object_in
from model.reading import Wrong

TOKEN = re.compile(rb'--.*?(?:--|\n|\Z)|\s+|(?P<token>[A-Za-z][A-Za-z0-9]*|"[^"]*"|_|\xe2\x86\x90|[:;,.\[\]{}=])', re.S)
BASE = re.compile(r'"[A-Za-z][A-Za-z0-9_-]{0,63}"')
Token = namedtuple("Token", "text line column")
Configuration = namedtuple("Configuration", "name imports exports control statements")
# A statement has its records and arguments, the name of the instance, and the component.
Statement = namedtuple("Statement", "records name component arguments")
# What stands around: the scope around, and for each record that is imported and exported the one outside; None for the outermost.
Scope = namedtuple("Scope", "around imports exports")
Placed = namedtuple("Placed", "path component scope imports exports")
# A nested configuration that was gone through, and its instances: each with its name, its component, the records of its lists, and the nested
# configuration that it is one of, or None for a module.
Nested = namedtuple("Nested", "configuration parts")
Part = namedtuple("Part", "name component imports exports nested")
Outlet = namedtuple("Outlet", "instance number scope record export")


class Unread(Exception):
    """A text that is no configuration's: which fault it has is not told here."""


def tokens_of(text):
    """The tokens with their places."""
    found, at = [], 0
    while at < len(text):
        match = TOKEN.match(text, at)
        if match is None:
            raise Unread
        if match["token"]:
            found.append(Token(match["token"].decode(), text.count(b"\n", 0, at) + 1, at - text.rfind(b"\n", 0, at)))
        at = match.end()
    return found


class Parser:
    """Reads the text of a configuration."""

    def __init__(self, text):
        self.tokens, self.at = tokens_of(text), 0

    def next_is(self, *texts):
        return self.at < len(self.tokens) and self.tokens[self.at].text in texts

    def take(self, *texts):
        if self.at == len(self.tokens) or texts and not self.next_is(*texts):
            raise Unread
        self.at += 1
        return self.tokens[self.at - 1]

    def may_take(self, *texts):
        return self.take() if self.next_is(*texts) else None

    def names(self):
        found = [self.take()]
        while self.may_take(","):
            found.append(self.take())
        return found

    def directory(self):
        """The names and the tokens of their FROM texts."""
        found = []
        while self.may_take("DIRECTORY", ","):
            called = self.take().text
            self.take(":")
            self.take("FROM")
            found.append((called, self.take()))
        if found:
            self.take(";")
        return found

    def configuration(self):
        called = self.take()
        self.take(":")
        self.take("CONFIGURATION")
        imports, exports, control = (self.names() if self.may_take(word) else [] for word in ("IMPORTS", "EXPORTS", "CONTROL"))
        self.take("=")
        end = {"BEGIN": "END", "{": "}"}[self.take("BEGIN", "{").text]
        statements = []
        while not self.may_take(end):
            nested = [it.text for it in self.tokens[self.at + 1 : self.at + 3]] == [":", "CONFIGURATION"]
            statements.append(self.configuration() if nested else self.statement())
            if not self.next_is(end):
                self.take(";")
        return Configuration(called, imports, exports, control, statements)

    def whole(self):
        directory, outermost = self.directory(), self.configuration()
        self.take(".")
        if self.at < len(self.tokens):
            raise Unread
        return directory, outermost

    def bracketed(self):
        found = []
        if self.may_take("["):
            found = [] if self.next_is("]") else self.names()
            self.take("]")
        return found

    def statement(self):
        first = self.at
        records = self.bracketed() if self.next_is("[") else [self.take()]
        if not self.may_take("_", "←"):
            records, self.at = [], first
        called = component = self.take()
        if self.may_take(":"):
            component = self.take()
        return Statement(records, called, component, self.bracketed())


class Binder:
    """Makes the tree of a configuration and binds what its instances use. `read` gives the module of a file's base."""

    def __init__(self, base, text, read):
        self.file, self.read = f"{base}.config", read
        self.components, self.modules, self.places, self.bases = [], {}, {}, {}
        directory, self.outermost = Parser(text).whole()
        for called, token in directory:
            self.ensure(BASE.fullmatch(token.text), token, "UnknownComponent")
            self.bases.setdefault(called, token.text.strip('"'))
        self.scopes, self.instances = [], []

    def refuse(self, token, cause):
        raise Wrong(f"{self.file}:{token.line}:{token.column}: {cause}")

    def ensure(self, right, token, cause):
        if not right:
            self.refuse(token, cause)

    # ---- components

    def found(self, component, nested):
        """What is declared under this name in a scope around, or None for a module."""
        return next((scope[component.text] for scope in reversed(nested) if component.text in scope), None)

    def mention(self, configuration, nested):
        inner = nested + [{}]
        for it in configuration.statements:
            if isinstance(it, Configuration):
                self.mention(it, inner)
                inner[-1][it.name.text] = it
            elif self.found(it.component, inner) is None and it.component.text not in self.places:
                self.places[it.component.text] = it.component
                self.components.append(it.component.text)

    def read_all(self):
        self.mention(self.outermost, [])
        for component in self.components:
            self.modules[component] = self.read(self.bases.get(component, component))

    # ---- the tree

    def lists_of(self, component, nested):
        """The names of what a component imports and exports."""
        inner = self.found(component, nested)
        if inner:
            return [it.text for it in inner.configuration.imports], [it.text for it in inner.configuration.exports]
        module = self.modules[component.text]
        self.ensure(module.name == component.text, component, "UnknownComponent")
        return [it.face.name for it in module.imports], [it.face.name for it in module.exports]

    def listed(self, explicit, names):
        if not explicit:
            return names
        self.ensure(len(explicit) == len(names), explicit[0], "CountDiffers")
        return [it.text for it in explicit]

    def each_once(self, names, wrong, cause):
        before = set()
        for it in names:
            self.ensure(it.text not in before, it, "TwiceNamed")
            self.ensure(not wrong(it.text), it, cause)
            before.add(it.text)

    def part(self, it, nested, names):
        imports, exports = self.lists_of(it.component, nested)
        self.ensure(it.name.text not in names, it.name, "TwiceNamed")
        exports = self.listed(it.records, exports)
        return Part(it.name.text, it.component.text, self.listed(it.arguments, imports), exports, self.found(it.component, nested))

    def through(self, configuration, nested):
        """Goes through a configuration, its statements first; returns it with its instances."""
        inner, parts = nested + [{}], {}
        for it in configuration.statements:
            if isinstance(it, Configuration):
                self.ensure(it.name.text not in inner[-1], it.name, "TwiceNamed")
                inner[-1][it.name.text] = self.through(it, inner)
            else:
                parts[it.name.text] = self.part(it, inner, parts)
        exported = {record for part in parts.values() for record in part.exports}
        self.each_once(configuration.imports, lambda it: it in exported, "RecordClash")
        self.each_once(configuration.exports, lambda it: it not in exported, "UnknownRecord")
        for it in configuration.control:
            self.ensure(it.text in parts, it, "UnknownControl")
        return Nested(configuration, list(parts.values()))

    def grow(self, its, path, scope):
        """Makes instances in tree order; returns what the CONTROL of the configuration starts."""
        starts = {}
        for part in its.parts:
            if part.nested is None:
                starts[part.name] = [len(self.instances)]
                self.instances.append(Placed(path + [part.name], part.component, scope, part.imports, part.exports))
                continue
            inner = part.nested.configuration
            outside = [{name.text: record for name, record in zip(*lists)} for lists in ((inner.imports, part.imports), (inner.exports, part.exports))]
            self.scopes.append(Scope(scope, *outside))
            starts[part.name] = self.grow(part.nested, path + [part.name], len(self.scopes) - 1)
        return list(dict.fromkeys(number for name in its.configuration.control for number in starts[name.text]))

    def ensure_faces_agree(self):
        seen = {("IODefs", 1): [it.item for it in HOST]}
        for component in self.components:
            module = self.modules[component]
            for face in [it.face for it in module.imports + module.exports]:
                before = seen.setdefault((face.name, face.stamp), face.items)
                self.ensure(plain(before) == plain(face.items), self.places[component], "InterfaceDiffers")

    def tree(self):
        its = self.through(self.outermost, [])
        self.scopes.append(Scope(None, *({it.text: it.text for it in names} for names in (self.outermost.imports, self.outermost.exports))))
        control = self.grow(its, [], 0)
        self.ensure_faces_agree()
        return control

    # ---- what items stand for

    def outlets(self):
        for number, it in enumerate(self.instances):
            for place, (record, export) in enumerate(zip(it.exports, self.modules[it.component].exports)):
                yield Outlet(number, place, it.scope, record, export)

    def reaches(self, outlet, scope, record):
        """Whether an export goes to this record of this scope."""
        at, called = outlet.scope, outlet.record
        while (at, called) != (scope, record):
            if at is None or called not in self.scopes[at].exports:
                return False
            at, called = self.scopes[at].around, self.scopes[at].exports[called]
        return True

    def looked_up(self, scope, record):
        """Where an import of a record is looked up; None past the outermost scope."""
        while scope is not None and record in self.scopes[scope].imports:
            scope, record = self.scopes[scope].around, self.scopes[scope].imports[record]
        return scope, record

    def resolved(self, instance, record, need):
        """What an item stands for: None for the loader, or an instance with the number of its procedure or signal."""
        scope, called = self.looked_up(instance.scope, record)
        if scope is None:
            return None
        all_of_them = [it for it in self.outlets() if self.reaches(it, scope, called) and given(it, need.item.name) is not None]
        same = [it for it in all_of_them if (it.export.face.name, it.export.face.stamp) == (need.face, need.stamp)]
        if len(same) == 1:
            return same[0].instance, given(same[0], need.item.name)
        return self.bad(instance, need, same, all_of_them)

    def bad(self, instance, need, same, found):
        what = f"{'.'.join(instance.path)} {need.face}.{need.item.name}"
        paths = [".".join(self.instances[it.instance].path) for it in same or found]
        if same:
            raise Wrong(f"{self.file}: Twice {what}: {paths[0]}, {paths[1]}")
        if not found:
            raise Wrong(f"{self.file}: NoExporter {what}")
        if found[0].export.face.name != need.face:
            raise Wrong(f"{self.file}: OtherInterface {what}: {paths[0]}")
        raise Wrong(f"{self.file}: OtherStamp {what}: wanted {need.stamp:012X}, found {found[0].export.face.stamp:012X}")

    # ---- the image

    def image(self):
        self.read_all()
        control = self.tree()
        kept = [it for it in self.components if any(it == other.component for other in self.instances)]
        wanted, links = {}, []
        for it in self.instances:
            for record, its in zip(it.imports, self.modules[it.component].imports):
                for need in needs_of([its]):
                    links.append(self.link(wanted, need, self.resolved(it, record, need)))
        return s.image_file(
            [self.modules[it].spelled for it in kept],
            [s.entry(it.face, it.stamp, s.item_bytes(it.item)) for it in wanted.values()],
            [s.instance(it.path, kept.index(it.component)) for it in self.instances],
            links, self.offers(), control)

    def link(self, wanted, need, answer):
        if answer is not None:
            return s.bound_link(*answer)
        key = need.face, need.stamp, need.item.name
        wanted.setdefault(key, need)
        return s.wanted_link(list(wanted).index(key))

    def offers(self):
        return [s.offer(record.text, it.instance, it.number) for record in self.outermost.exports for it in self.outlets() if self.reaches(it, 0, record.text)]


def given(outlet, called):
    """The number that an export gives for the item of a name, or None."""
    return next((number for item, number in outlet.export.given if outlet.export.face.items[item].name == called), None)


def plain(items):
    """What two faces have in common that are the same: the names of parameters and results too."""
    return [(it.kind, it.name, [[(label, kind.tree) for label, kind in part or ()] for part in (it.takes, it.gives)]) for it in items]


def image_of(base, files):
    """Returns the bytes of the image that NAME.config and the objects in these files are bound to."""

    def read(component):
        file = f"{component}.mob"
        if file not in files:
            raise Wrong(f"{file}: absent")
        try:
            return object_in(files[file])
        except Wrong as why:
            raise Wrong(f"{file}: {why}") from why

    if f"{base}.config" not in files:
        raise Wrong(f"{base}.config: absent")
    return Binder(base, files[f"{base}.config"], read).image()
