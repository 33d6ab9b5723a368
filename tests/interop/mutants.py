"""Changed messages: octets, cuts, lengths, tags and elements that differ from what their maker wrote.

`mutants(cases, count)` gives so many cases of a title, a message and a secret, from a fixed seed. Of each other one that
is still a frame the MAC is made anew, so that the form alone decides.
"""

import random

import reference
from reference import encoded


class Node:
    """An element, with its parts where its content is a row of elements."""

    def __init__(self, tag: int, content: bytes):
        self.tag, self.content, self.parts = tag, content, None
        if tag & 0x20:
            try:
                self.parts = [Node(*item) for item in reference.items(content)]
            except reference.BadForm:
                pass

    def all(self):
        yield self
        for part in self.parts or []:
            yield from part.all()

    def inside(self, spelled) -> bytes:
        """The content, where `spelled` gives the octets of the elements in it."""
        return self.content if self.parts is None else b"".join(spelled(part) for part in self.parts)

    def octets(self, changed: "Node | None" = None, spelled=None) -> bytes:
        """The octets, where `spelled` gives those of the changed element by its content."""
        content = self.inside(lambda part: part.octets(changed, spelled))
        return spelled(content) if self is changed else encoded(self.tag, content)


def loose(tag: int, content: bytes, width: int) -> bytes:
    """An element whose length has so many octets, or the indefinite form where that is 0 (X.690, 8.1.3)."""
    if width == 0:
        return bytes([tag, 0x80]) + content + b"\x00\x00"
    return bytes([tag, 0x80 | width]) + len(content).to_bytes(width, "big") + content


def octets_changed(chance: random.Random, message: bytes) -> bytes:
    changed = bytearray(message)
    for _ in range(chance.choice((1, 1, 1, 2, 4))):
        changed[chance.randrange(len(changed))] ^= chance.randrange(1, 256)
    return bytes(changed)


def bit_flipped(chance: random.Random, message: bytes) -> bytes:
    return flipped(message, chance.randrange(8 * len(message)))


def flipped(message: bytes, bit: int) -> bytes:
    place = bit // 8
    return message[:place] + bytes([message[place] ^ 1 << bit % 8]) + message[place + 1 :]


def cut(chance: random.Random, message: bytes) -> bytes:
    """Cut off, octets lost in the middle, or octets more."""
    place, kind = chance.randrange(len(message)), chance.randrange(3)
    if kind == 0:
        return message[:place]
    if kind == 1:
        return message[:place] + message[place + chance.randrange(1, 9) :]
    return message[:place] + chance.randbytes(chance.randrange(1, 5)) + message[place:]


def chosen(chance: random.Random, message: bytes) -> tuple[Node, Node]:
    """The tree of a message and an element of it: mostly one of the frame and the header."""
    tree = Node(*reference.one(message))
    header = list(tree.parts[0].all())
    return tree, chance.choice(header + tree.parts) if chance.randrange(4) else chance.choice(list(tree.all()))


def length_changed(chance: random.Random, message: bytes) -> bytes:
    """A length that is off by some octets, or in a form that DER doesn't have."""
    tree, node = chosen(chance, message)

    def spelled(content: bytes) -> bytes:
        if chance.randrange(2):
            return loose(node.tag, content, chance.choice((0, 1, 2, 3, 4, 5)) if len(content) < 256 else 3)
        usual = encoded(node.tag, content)
        place = chance.randrange(1, len(usual) - len(content))
        return usual[:place] + bytes([(usual[place] + chance.choice((-2, -1, 1, 2, 128))) % 256]) + usual[place + 1 :]

    return tree.octets(node, spelled)


def tag_changed(chance: random.Random, message: bytes) -> bytes:
    """Another tag: of the next number, primitive for constructed, or any."""
    tree, node = chosen(chance, message)
    tag = chance.choice(((node.tag + 1) % 256, (node.tag - 1) % 256, node.tag ^ 0x20, node.tag ^ 0x80, chance.randrange(256)))
    return tree.octets(node, lambda content: encoded(tag, content))


def element_changed(chance: random.Random, message: bytes) -> bytes:
    """An element left out, doubled, emptied, replaced by one of another place, or with one more in it."""
    tree, node = chosen(chance, message)
    other = chance.choice(list(tree.all())).octets()
    kind = chance.randrange(5)

    def spelled(content: bytes) -> bytes:
        usual = encoded(node.tag, content)
        return (b"", usual * 2, encoded(node.tag, b""), other, encoded(node.tag, content + other))[kind]

    return tree.octets(node, spelled)


def order_changed(chance: random.Random, message: bytes) -> bytes:
    """Two neighbours in the header or the frame the other way round."""
    tree = Node(*reference.one(message))
    row = chance.choice((tree, tree.parts[0], tree.parts[0]))
    place = chance.randrange(len(row.parts) - 1)
    row.parts[place : place + 2] = reversed(row.parts[place : place + 2])
    return tree.octets()


CHANGES = (octets_changed, bit_flipped, cut, length_changed, tag_changed, element_changed, order_changed)


def with_own_mac(message: bytes, secret: bytes) -> bytes:
    """The message with the MAC over its header and body as they stand, where it is a frame under PBMAC1."""
    try:
        found = reference.frame(message)
        if found.mac is None or found.named is None:
            return message
        value = encoded(0xA0, encoded(0x03, b"\x00" + reference.mac_of(found, secret)))
        return reference.sequence(found.header + found.body + value + found.certificates)
    except (reference.BadForm, reference.BadAlg):
        return message


def mutants(cases: list[tuple[str, bytes, bytes]], count: int):
    chance = random.Random(3)
    for number in range(count):
        title, message, secret = chance.choice(cases)
        change = CHANGES[number % len(CHANGES)]
        changed = change(chance, message)
        again = number // len(CHANGES) % 2 == 1
        yield (f"{title}: {change.__name__} {number}", with_own_mac(changed, secret) if again else changed, secret)
