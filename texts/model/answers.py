"""What `bind NAME`, `run NAME .. TURNS`, `list FILE`, `upgrade FILE`, `plan NAME ..` and `survey NAME` answer over some files, by the model."""
from collections import namedtuple

from model.binding import image_of
from model.listing import listing, read
from model.loading import Fault, loaded, missing
from model.machine import Machine, unresolved
from model.objects import image_in
from model.planning import plan
from model.reading import Wrong
from model.survey import survey

DONE, UNCAUGHT, SPENT, FULL, REFUSED, ABSENT = range(6)
# The status, what is printed, the line on standard error, and the files that are written.
Answer = namedtuple("Answer", "status output line files")


def refused(line):
    return Answer(ABSENT if line.endswith(": absent") else REFUSED, b"", f"{line}\n".encode(), {})


def bound(base, files):
    try:
        image = image_of(base, files)
    except Wrong as why:
        return refused(str(why))
    return Answer(DONE, b"", b"", {f"{base}.mim": image})


def image_of_file(file, files):
    """Returns the image that a file holds, or says by Wrong which line refuses it."""
    if file not in files:
        raise Wrong(f"{file}: absent")
    try:
        return image_in(files[file])
    except Wrong as why:
        raise Wrong(f"{file}: {why}") from why


def ran_image(image, turns, given):
    machine = Machine(image, turns, given)
    end = machine.run()
    status = {"done": DONE, "turns spent": SPENT, "frames full": FULL}.get(end, UNCAUGHT)
    return Answer(status, machine.output, b"" if end == "done" else f"{end}\n".encode(), {})


def ran(base, turns, files, given=b""):
    file = f"{base}.mim"
    try:
        image = image_of_file(file, files)
    except Wrong as why:
        return refused(str(why))
    lacking = unresolved(image)
    return refused(f"{file}: Unresolved {lacking}") if lacking else ran_image(image, turns, given)


def ran_together(bases, turns, files, given=b""):
    """Of several images, which are loaded as one."""
    try:
        images = [image_of_file(f"{base}.mim", files) for base in bases]
        image = loaded(images)
    except Wrong as why:
        return refused(str(why))
    except Fault as why:
        return refused(f"{bases[why.place]}.mim: {why.line}")
    lacking = missing(images)
    return refused(f"{bases[lacking[0]]}.mim: Unresolved {lacking[1]}") if lacking else ran_image(image, turns, given)


def of_file(file, files, answer):
    """What is answered to a call on a file alone, where it holds what its name says."""
    if file not in files:
        return refused(f"{file}: absent")
    try:
        return answer(files[file])
    except Wrong as why:
        return refused(f"{file}: {why}")


def listed(file, files):
    return of_file(file, files, lambda held: Answer(DONE, listing(file, held).encode(), b"", {}))


def of_second_version(held):
    """The file of the same value: only the version differs."""
    return held[:3] + b"\x02" + held[4:]


def upgraded(file, files):
    def answer(held):
        read(file, held)
        return Answer(DONE, b"", b"", {file: of_second_version(held)})

    return of_file(file, files, answer)


def surveyed(base, files):
    return of_file(f"{base}.mim", files, lambda held: Answer(DONE, survey(image_in(held)).encode(), b"", {}))


def planned(bases, files):
    try:
        return Answer(DONE, plan(bases, files).encode(), b"", {})
    except Wrong as why:
        return refused(str(why))
