"""The plan of texts: the order in which they are compiled, or the circle in which they name each other; whose objects are stale, and which files are missing.
Of a text only its DIRECTORY and the word of its kind are read, as far as the first token that is none of theirs."""
from model.binding import TOKEN, Unread
from model.objects import object_in
from model.reading import Wrong, interface_in


class Heading:
    """The FROM texts of a text's DIRECTORY, in order and without those of items named IODefs, and whether it is of definitions."""

    def __init__(self, text):
        self.text, self.at, self.bases = text, 0, []
        if self.word() == "DIRECTORY":
            self.directory()
            self.word()
        self.expect(":")
        kind = self.word()
        if kind not in ("DEFINITIONS", "PROGRAM"):
            raise Unread
        self.defines = kind == "DEFINITIONS"

    def word(self):
        while self.at < len(self.text):
            match = TOKEN.match(self.text, self.at)
            if match is None:
                break
            self.at = match.end()
            if match["token"]:
                return match["token"].decode()
        raise Unread

    def expect(self, *words):
        found = self.word()
        if found not in words:
            raise Unread
        return found

    def directory(self):
        end = ","
        while end == ",":
            name = self.word()
            self.expect(":")
            self.expect("FROM")
            base = self.word().strip('"')
            if name != "IODefs":
                self.bases.append(base)
            end = self.word()
            if end == "USING":
                while self.word() != "]":
                    pass
                end = self.word()
        if end != ";":
            raise Unread


def ordered(named):
    """The order by what each names, and no circle; or None and the circle."""
    taken, left = [], list(range(len(named)))
    while left:
        ready = [it for it in left if all(other in taken for other in named[it])]
        if not ready:
            return None, circle(named, left)
        taken.append(ready[0])
        left.remove(ready[0])
    return taken, None


def circle(named, left):
    way = [left[0]]
    while True:
        following = next(it for it in named[way[-1]] if it in left)
        if following in way:
            return way[way.index(following) :]
        way.append(following)


def file_of(base, heading):
    return f"{base}.mif" if heading.defines else f"{base}.mob"


def read(bases, files):
    """The headings, and for each what its file holds, or None where it is missing."""
    headings = []
    for base in bases:
        if f"{base}.mesa" not in files:
            raise Wrong(f"{base}.mesa: absent")
        headings.append(Heading(files[f"{base}.mesa"]))
    held = []
    for base, heading in zip(bases, headings):
        file = file_of(base, heading)
        try:
            held.append(None if file not in files else (interface_in if heading.defines else object_in)(files[file]))
        except Wrong as why:
            raise Wrong(f"{file}: {why}") from why
    return headings, held


def is_stale(module, stamps):
    faces = [it.face for it in [*module.imports, *module.exports]]
    return any(it.name != "IODefs" and stamps.get(it.name, it.stamp) != it.stamp for it in faces)


def plan(bases, files):
    """What is printed; a refusal is raised as its line."""
    headings, held = read(bases, files)
    named = [[bases.index(it) for it in heading.bases if it in bases] for heading in headings]
    order, loop = ordered(named)
    if loop:
        raise Wrong(f"{bases[loop[0]]}.mesa: Cycle {' '.join(bases[it] for it in loop)}")
    stamps = {}
    for heading, it in zip(headings, held):
        if heading.defines and it:
            stamps.setdefault(it.face.name, it.face.stamp)
    stale = [base for base, heading, it in zip(bases, headings, held) if it and not heading.defines and is_stale(it, stamps)]
    missing = [file_of(base, heading) for base, heading, it in zip(bases, headings, held) if it is None]
    lines = [*(f"order {bases[it]}" for it in order), *(f"stale {it}" for it in stale), *(f"missing {it}" for it in missing)]
    return "".join(f"{it}\n" for it in lines)
