"""What the scripts share that write tables of loads: images of instances whose links are bound within the image or wanted, and cases of several images that are
run as one. The model must answer what each case says."""
from collections import namedtuple

from model import spelling as s
from model.answers import ran, ran_together
from model.objects import needs_of, object_in
from model.shown import shown
from model.tables import digits

# A module of an image: its bytes, and the word that stands for them in the table.
Made = namedtuple("Made", "word held")
# An image that is shown by these lines in the table.
Lines = namedtuple("Lines", "lines held")
# A call of `run`: the names, the turns, what is printed, how it ends and the input.
Run = namedtuple("Run", "names turns output end given", defaults=("",))


def parts_of(made):
    return object_in(s.object_file(made.held))


def wanted_of(places, within):
    """What instances want of the loader, each item once, in the order of their links. `within` has what is bound in the image, by the instance and the interface."""
    found = []
    for number, (_, made) in enumerate(places):
        for need in needs_of(parts_of(made).imports):
            if (number, need.face) not in within and need not in found:
                found.append(need)
    return found


def given(made, need):
    """The number of what a module gives for an item."""
    return next(number for it in parts_of(made).exports for item, number in it.given if (it.face.name, it.face.items[item].name) == (need.face, need.item.name))


def image(*places, within=(), offers=(), control=(), wanted=None, version=2):
    """An image of instances, which are pairs of a path and a module. What one takes from another of them stands in `within`, by its number and the name of the
    interface; what is offered are triples of a record, an instance and an export. All other links are wanted."""
    within = dict(within)
    modules = list(dict.fromkeys(made for _, made in places))
    entries = wanted_of(places, within)
    links = []
    for number, (_, made) in enumerate(places):
        for need in needs_of(parts_of(made).imports):
            other = within.get((number, need.face))
            links.append(s.wanted_link(entries.index(need)) if other is None else s.bound_link(other, given(places[other][1], need)))
    spelled = [s.entry(it.face, it.stamp, s.item_bytes(it.item)) for it in entries] if wanted is None else wanted
    instances = [s.instance(path, modules.index(made)) for path, made in places]
    return s.image_file([it.held for it in modules], spelled, instances, links, [s.offer(*it) for it in offers], control, version)


class Table:
    """A table of cases. Its modules stand at its head as words, and the images that are there in each case; `bound` are images that `bind` makes of texts."""

    def __init__(self, bound=(), **shared):
        self.bound, self.shared, self.cases = dict(bound), shared, []

    def add(self, title, files, *runs):
        """A case: images of its own by their names, and what runs of several answer."""
        for run in runs:
            self.check(title, files, run)
        asked = {name for run in runs for name in run.names.split()}
        calls = "".join(f"> call bind {name} :  : done\n" for name in self.bound if name in asked)
        calls += "".join(f"> call run {run.names} {run.turns}{given_line(run.given)} : {escaped(run.output)} : {run.end}\n" for run in runs)
        self.cases.append((title, files, calls))

    def check(self, title, files, run):
        names, held = run.names.split(), {f"{name}.mim": it.held if isinstance(it, Lines) else it for name, it in {**self.bound, **self.shared, **files}.items()}
        answer = ran_together(names, run.turns, held, run.given.encode()) if names[1:] else ran(*names, run.turns, held, run.given.encode())
        if ":" in run.output:
            raise ValueError(f"{title}: a colon ends the output")
        line = "" if run.end == "done" else f"{run.end}\n"
        if (answer.output.decode(), answer.line.decode()) != (run.output, line):
            raise ValueError(f"{title}: {run}: the model says {answer.output}, {answer.line}")

    def text(self, head, modules):
        """The table. Words stand for the modules that there are, in this order."""
        words = {it.held: it.word for it in modules}
        files = self.files(self.shared, words)
        cases = "".join(f"\n== {title}\n{self.files(own, words)}{calls}" for title, own, calls in self.cases)
        # A word may begin with a shorter one.
        used = sorted((it for it in modules if it.word in files + cases), key=lambda it: -len(it.word))
        return head + "".join(f"> repeat {it.word} 1 {' '.join(digits(it.held))}\n" for it in used) + files + cases

    def files(self, files, words):
        return "".join(self.file(name, held, words) for name, held in files.items())

    def file(self, name, held, words):
        return f"@ {name}.mim hex\n" + "".join(f"{line}\n" for line in (held.lines if isinstance(held, Lines) else shown(held, words)))


def escaped(text):
    text = text.replace("\\", "\\\\").replace("\n", "\\n")
    return text[:-1] + "\\s" if text.endswith(" ") else text


def given_line(text):
    return f" < {escaped(text)}" if text else ""
