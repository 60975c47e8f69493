"""Cuts an image into several that may be loaded one behind the other: each wants what those before it offer. What links lead to stands before, so the instances
come in another order; what CONTROL starts stays in its order."""
from collections import namedtuple

from model import spelling as s
from model.objects import TO, is_wanted, needs_of

MOST_INSTANCES, MOST_PARTS = 64, 16
# The parts as bytes, and of each instance the number of its part, from 1.
Cut = namedtuple("Cut", "parts numbers")


class Uncut(Exception):
    """An image that can't be cut so."""


def reached(image):
    """Of each instance, all to which its links lead, over others too, and itself."""
    found = [{number} | {link[1] for link in links if link[0] == TO} for number, links in enumerate(image.links)]
    for _ in found:
        for number, its in enumerate(found):
            found[number] = its.union(*(found[other] for other in its))
    return found


def order_of(image):
    """The instances, each behind all to which its links lead; those that lead to one another stand together. Returns with each the first of those."""
    reach = reached(image)
    first = [min(other for other in its if number in reach[other]) for number, its in enumerate(reach)]
    return sorted(((number, first[number]) for number in range(len(reach))), key=lambda it: (len(reach[it[0]]), it[1], it[0]))


def places_to_cut(image):
    """The places in that order at which the image may be cut: nothing before leads to anything behind, and all that is started before is started first."""
    order = order_of(image)
    found = []
    for place in range(1, len(order)):
        before = {number for number, _ in order[:place]}
        started = [number in before for number in image.control]
        if order[place - 1][1] != order[place][1] and started == sorted(started, reverse=True):
            found.append(place)
    return [number for number, _ in order], found


class Part:
    """Some instances of an image, with what they want and offer."""

    def __init__(self, image, instances):
        self.image, self.instances, self.wanted, self.offered = image, instances, [], []

    def module(self, number):
        return self.image.modules[self.image.instances[number].module]

    def entry(self, need):
        if not any(is_wanted(it, need) for it in self.wanted):
            self.wanted.append(need)
        return s.wanted_link(next(number for number, it in enumerate(self.wanted) if is_wanted(it, need)))

    def link(self, link, need):
        if link[0] != TO:
            return self.entry(self.image.wanted[link[1]])
        return s.bound_link(self.instances.index(link[1]), link[2]) if link[1] in self.instances else self.entry(need)

    def offer(self, link, need):
        """Offers what a link of another part leads to."""
        exports = self.module(link[1]).exports
        found = [number for number, it in enumerate(exports) for item,
                 given in it.given if (it.face.name, it.face.items[item].name, given) == (need.face, need.item.name, link[2])]
        if not found:
            raise Uncut
        offer = need.face, self.instances.index(link[1]), found[0]
        if offer not in self.offered:
            self.offered.append(offer)

    def held(self):
        modules = sorted({self.image.instances[it].module for it in self.instances})
        links = [self.link(*it) for number in self.instances for it in zip(self.image.links[number], needs_of(self.module(number).imports))]
        return s.image_file(
            [self.image.modules[it].spelled for it in modules],
            [s.entry(it.face, it.stamp, s.item_bytes(it.item)) for it in self.wanted],
            [s.instance(self.image.instances[it].path, modules.index(self.image.instances[it].module)) for it in self.instances],
            links, [s.offer(*it) for it in self.offered], [self.instances.index(it) for it in self.image.control if it in self.instances])


def cut(image, order, places):
    """The image cut at these places of the order."""
    parts = [Part(image, order[first:past]) for first, past in zip([0, *places], [*places, len(order)])]
    numbers = {it: number for number, part in enumerate(parts) for it in part.instances}
    for number, links in enumerate(image.links):
        for link, need in zip(links, needs_of(parts[numbers[number]].module(number).imports)):
            if link[0] == TO and numbers[link[1]] != numbers[number]:
                parts[numbers[link[1]]].offer(link, need)
    return Cut([part.held() for part in parts], {it: number + 1 for it, number in numbers.items()})


def cuts_of(image):
    """Yields the ways in which an image is cut: into as many parts as may be, and into two."""
    if len(image.instances) > MOST_INSTANCES:
        return
    order, places = places_to_cut(image)
    ways = [places[: MOST_PARTS - 1], places[len(places) // 2 :][:1], places[:1], places[-1:]]
    for way in [it for number, it in enumerate(ways) if it and it not in ways[:number]]:
        try:
            yield cut(image, order, way)
        except Uncut:
            continue
