"""Joins images that are loaded one behind the other, as the rule of loading says: one image, or the fault of the first image that has one. Images go by their
places in the list, from 0; paths have the names I1, I2 and so on in front."""
from collections import namedtuple

from model.machine import HOST
from model.objects import INSTANCES, MODULES, NAMES, TO, WANTED, Image, Instance, Offer, is_wanted

HOST_FACE = "IODefs"
# What an image offers: the record, the number and the path of the instance in the loaded image, and its export.
Offered = namedtuple("Offered", "record instance path export")


class Fault(Exception):
    """Why images are not loaded: the place of the image, and what its line says."""

    def __init__(self, place, line):
        super().__init__(f"image {place}: {line}")
        self.place, self.line = place, line


def plain(face):
    """What is the same of two faces that are: the names of parameters and results count too."""
    items = [(it.kind, it.name, [[(label, kind.tree) for label, kind in part or ()] for part in (it.takes, it.gives)]) for it in face.items]
    return face.name, face.stamp, items


def given(export, called):
    """The number of what an export gives for the item of a name, or None."""
    return next((number for item, number in export.given if export.face.items[item].name == called), None)


class Loader:
    """Loads images."""

    def __init__(self, images):
        self.images = images

    def before(self, place, part):
        """How many modules or instances stand in the images before."""
        return sum(len(getattr(it, part)) for it in self.images[:place])

    def path_in(self, place, path):
        return [f"I{place + 1}", *path]

    # ---- what is offered

    def export_of(self, image, offer):
        return image.modules[image.instances[offer.instance].module].exports[offer.export]

    def offered_by(self, place):
        """What the image at this place offers."""
        image, first = self.images[place], self.before(place, "instances")
        return [Offered(it.name, first + it.instance, self.path_in(place, image.instances[it.instance].path), self.export_of(image, it)) for it in image.offered]

    def exporters(self, place, entry):
        """Those who offer an item of this name to the image at this place, under the record of its interface's name."""
        offered = [it for before in range(place) for it in self.offered_by(before)]
        return [it for it in offered if it.record == entry.face and given(it.export, entry.item.name) is not None]

    # ---- faults

    def ensure(self, right, place, line):
        if not right:
            raise Fault(place, line)

    def ensure_whole(self, place):
        """Looks at an image as a whole."""
        image = self.images[place]
        self.ensure(all(len(it.path) < NAMES for it in image.instances), place, "TooNested")
        fits = self.before(place + 1, "instances") <= INSTANCES and self.before(place + 1, "modules") <= MODULES
        self.ensure(fits, place, "TooManyInstances")
        for it in image.offered:
            self.ensure(it.name != HOST_FACE and it.name == self.export_of(image, it).face.name, place, f"OddRecord {it.name}")

    def faces_to(self, image, number):
        """The faces of the imports whose links are to the wanted item of this number."""
        for instance, links in zip(image.instances, image.links):
            faces = [it.face for it in image.modules[instance.module].imports for _ in it.used]
            yield from (face for face, link in zip(faces, links) if link == (WANTED, number))

    def exporter(self, place, number):
        """The one that gives what an image wants under this number, which is none of the host's interface."""
        image = self.images[place]
        entry = image.wanted[number]
        what, found = f"{entry.face}.{entry.item.name}", self.exporters(place, entry)
        self.ensure(found, place, f"NoExporter {what}")
        same = [it for it in found if it.export.face.stamp == entry.stamp]
        self.ensure(same, place, f"OtherStamp {what}: wanted {entry.stamp:012X}, found {found[0].export.face.stamp:012X}")
        self.ensure(len(same) == 1, place, f"Twice {what}: {', '.join('.'.join(it.path) for it in same[:2])}")
        right = all(plain(face) == plain(same[0].export.face) for face in self.faces_to(image, number))
        self.ensure(right, place, f"FaceDiffers {what}")
        return same[0]

    def ensure_all(self):
        for place, image in enumerate(self.images):
            self.ensure_whole(place)
            for number, entry in enumerate(image.wanted):
                if entry.face != HOST_FACE:
                    self.exporter(place, number)

    # ---- the loaded image

    def still_wanted(self):
        """The items of the host's interface, each once."""
        found = []
        for entry in (it for image in self.images for it in image.wanted if it.face == HOST_FACE):
            if not any(is_wanted(it, entry) for it in found):
                found.append(entry)
        return found

    def link_in(self, place, wanted, link):
        if link[0] == TO:
            return TO, self.before(place, "instances") + link[1], link[2]
        entry = self.images[place].wanted[link[1]]
        if entry.face == HOST_FACE:
            return WANTED, next(number for number, it in enumerate(wanted) if is_wanted(it, entry))
        its = self.exporter(place, link[1])
        return TO, its.instance, given(its.export, entry.item.name)

    def image(self):
        self.ensure_all()
        joined = Image([], self.still_wanted(), [], [], [], [])
        for place, image in enumerate(self.images):
            modules, instances = len(joined.modules), len(joined.instances)
            joined.modules.extend(image.modules)
            joined.instances.extend(Instance(self.path_in(place, it.path), modules + it.module) for it in image.instances)
            joined.links.extend([self.link_in(place, joined.wanted, link) for link in links] for links in image.links)
            joined.offered.extend(Offer(it.name, instances + it.instance, it.export) for it in image.offered)
            joined.control.extend(instances + it for it in image.control)
        return joined


def loaded(images):
    """Returns the image that is loaded of these, or says by Fault why none is."""
    return Loader(images).image()


def missing(images):
    """The place of the first image that wants an item of the host's interface that is none of the host's, with that item; or None."""
    for place, image in enumerate(images):
        for entry in image.wanted:
            if entry.face == HOST_FACE and not any(is_wanted(it, entry) for it in HOST):
                return place, f"{entry.face}.{entry.item.name} {entry.stamp:012X}"
    return None
