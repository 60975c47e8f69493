"""Which signal a link is bound to, and which signals a label of an arm takes."""
from model.code import LINKED, OWN
from model.objects import ALL, BOUNDS, UNWIND, WANTED, ZERO
from model.words import BOUNDS_FAULT, ZERO_DIVISOR

NO_INPUT, UNNAMED = "IODefs.NoInput", "ERROR"


def bound_signal(image, instance, number):
    """Returns the signal to which a link of an instance is bound; NoInput is the only one that is wanted of the host."""
    link = image.links[instance][number]
    return NO_INPUT if link[0] == WANTED else tuple(link[1:])


def fits(image, label, instance, signal):
    """Whether a label in code of an instance takes a signal."""
    if label[0] == OWN:
        return signal == (instance, label[1])
    if label[0] == LINKED:
        return signal == bound_signal(image, instance, label[1])
    return {ALL: True, UNWIND: False, BOUNDS: signal == BOUNDS_FAULT, ZERO: signal == ZERO_DIVISOR}[label[0]]
