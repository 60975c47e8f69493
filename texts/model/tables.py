"""What the scripts share that write tables of faults: the rows of the table that is being made, and how tables are written. Each row is made of fields that
are right, one that is not, and what may stand behind it, so that the fault is at the sum of the lengths before it; the reader of this folder must find it
there too."""
from collections import namedtuple

from model.reading import Wrong
from model.spelling import name

# Some bytes of a file, as they are shown: with a comment, or by a word that stands for them in the whole table.
Part = namedtuple("Part", "held comment word", defaults=("", None))
Row = namedtuple("Row", "title parts line")
ROWS = []
THIS = "this"
WIDTH = 48


def fault(title, before, wrong, after, line):
    ROWS.append(Row(title, [Part(before), Part(wrong, THIS), Part(after)], line))


def bad(title, before, wrong, field, after=b""):
    """The field that begins behind these bytes breaks its rule."""
    fault(title, before, wrong, after, f"BadField {len(before)} {field}")


def cut(title, before, wrong=b""):
    """The bytes end where they do."""
    fault(title, before, wrong, b"", f"Cut {len(before + wrong)}")


def bad_names(what, before, after=b""):
    """A name behind these bytes."""
    bad(f"{what} without a letter", before, name(""), "length", after)
    bad(f"{what} begins with a digit", before, name("2x"), "name", after)
    bad(f"{what} with a line in it", before, name("a_b"), "name", after)
    bad(f"{what} with a byte of no letter", before, name(b"a\xe9"), "name", after)
    cut(f"{what} that the end cuts", before, name("abc")[:3])


def digits(held, width=WIDTH):
    """The bytes in hexadecimal digits, as lines."""
    return [held[at : at + width].hex(" ", 4) for at in range(0, len(held), width)]


def shown(part):
    """A part as the lines of a table."""
    rows = [part.word] if part.word else digits(part.held)
    if rows and part.comment:
        rows[-1] += f"  -- {part.comment}"
    return "".join(f"{row}\n" for row in rows)


def beginning(held, common):
    """The word for the longest of these beginnings that the bytes have, or None."""
    words = [word for word, its in common.items() if held.startswith(its)]
    return max(words, key=lambda word: len(common[word]), default=None)


def shortened(part, common):
    """The part in two, with a word for its beginning."""
    word = beginning(part.held, common)
    size = len(common[word]) if word else 0
    return [Part(part.held[:size], word=word), part._replace(held=part.held[size:], word=None)] if word else [part]


def meanings(common, used):
    """The lines at a table's head that say for which bytes words stand; a shorter beginning stands behind those that have it."""
    shown_lines = []
    for word in sorted(common, key=lambda word: -len(common[word])):
        if word in used:
            parts = shortened(Part(common[word]), {it: held for it, held in common.items() if it != word})
            used = used | {part.word for part in parts}
            shown_lines.append(f"> repeat {word} 1 {' '.join(''.join(map(shown, parts)).split())}\n")
    return "".join(shown_lines)


def case(row, file, call):
    """A case of a row: the file of this name holds its bytes, and this call is refused for it."""
    return f"\n== {row.title}\n@ {file} hex\n{''.join(map(shown, row.parts))}> call {call} :  : {file}: {row.line}\n"


def answer(reader, held):
    """What the reader says of a file."""
    try:
        reader(held)
    except Wrong as why:
        return str(why)
    return "no fault"


def checked(rows, reader):
    """Each row has a title of its own, and the fault that the reader finds."""
    titles = [row.title for row in rows]
    twice = sorted(it for it in titles if titles.count(it) > 1)
    if twice:
        raise ValueError(f"titles that stand twice: {twice}")
    for row in rows:
        found = answer(reader, b"".join(part.held for part in row.parts))
        if found != row.line:
            raise ValueError(f"{row.title}: the row says {row.line}, the reader {found}")


def write(path, head, file, call, reader, parts, common=None):
    """Writes a table of the rows that these functions make, and returns how many cases it has. `common` has words, and with what each stands for files may
    begin."""
    common = common or {}
    ROWS.clear()
    for part in parts:
        part()
    checked(ROWS, reader)
    rows = [row._replace(parts=[*shortened(row.parts[0], common), *row.parts[1:]]) for row in ROWS]
    used = {part.word for row in rows for part in row.parts}
    with open(path, "w", encoding="utf-8") as table:
        table.write(head + meanings(common, used) + "".join(case(row, file, call) for row in rows))
    return len(rows)
