"""Code written as lines, one for each instruction: `here: Jump there`. A word before a colon names the offset of an instruction; in the place of an
operand it stands for that offset, and with `+1` behind it for the byte after."""
from model import spelling as s
from model.code import NUMBERS, size_of


def offset_of(text, offsets):
    word, _, more = text.partition("+")
    return offsets[word] + int(more or 0) if word in offsets else int(text)


def placed(lines):
    """Returns the instructions without their names, and the offset of each name; `end` is that behind the last one."""
    bare, offsets, at = [], {}, 0
    for line in lines:
        *names, text = (it.strip() for it in line.split(":"))
        offsets |= {name: at for name in names}
        bare.append(text)
        at += size_of(NUMBERS[text.split()[0]])
    return bare, offsets | {"end": at}


def bare_of(lines):
    """Returns the instructions with numbers in the place of names."""
    bare, offsets = placed(lines)
    return [" ".join([word, *(str(offset_of(it, offsets)) for it in operands)]) for word, *operands in map(str.split, bare)]


def assembled(lines):
    """Returns the bytes of each instruction, and the offset of each name."""
    return list(map(s.instruction, bare_of(lines))), placed(lines)[1]


def phrase(offsets, first, past, *arms):
    """A phrase between two names, with arms that are each labels, start, end, and the slot and number of their words."""
    return s.phrase(offset_of(first, offsets), offset_of(past, offsets), *(
        s.arm(labels, offset_of(start, offsets), offset_of(end, offsets), *slots) for labels, start, end, *slots in arms))
