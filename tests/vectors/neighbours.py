"""Prints the octets of the tests of asn_neighbours: general names of every kind (RFC 5280, 4.2.1.6), a name of two relative
names, two extensions, and times. Each as it is, with its last octet cut off, with an octet more behind, and with a length that
has an octet too many. The encoder is a few lines of its own, by X.690, 8.1; the seconds are those of calendar.timegm.
"""

from calendar import timegm


def der(tag, *parts):
    content = b"".join(parts)
    assert len(content) < 128
    return bytes([tag, len(content)]) + content


def oid(*arcs):
    assert all(arc < 128 for arc in arcs[2:])
    return der(0x06, bytes([40 * arcs[0] + arcs[1], *arcs[2:]]))


def utf8(text):
    return der(0x0C, text)


def attribute(last, value):
    return der(0x31, der(0x30, oid(2, 5, 4, last), value))


def extension(last, critical, value):
    flag = der(0x01, b"\xff") if critical else b""
    return der(0x30, oid(2, 5, 29, last), flag, der(0x04, value))


def literal(octets):
    text = b"0123456789Z" if octets[0] in (0x17, 0x18) else b"abcdefghijklmnopqrstuvwxyz@.:/"
    return 'b"' + "".join(chr(o) if o in text else f"\\x{o:02x}" for o in octets) + '"'


def show(name, octets):
    print(name, "as it is  ", literal(octets))
    print(name, "cut       ", literal(octets[:-1]))
    print(name, "one more  ", literal(octets + b"\0"))
    print(name, "too long  ", literal(octets[:1] + b"\x81" + octets[1:]))


short = der(0x30, attribute(3, utf8(b"a")))
show("otherName", der(0xA0, oid(1, 2, 3), der(0xA0, utf8(b"a"))))
show("rfc822Name", der(0x81, b"a@b.c"))
show("dNSName", der(0x82, b"a.b"))
show("x400Address", der(0xA3, der(0x30)))
show("directoryName", der(0xA4, short))
show("ediPartyName", der(0xA5, der(0xA1, utf8(b"a"))))
show("URI", der(0x86, b"a:/b"))
show("iPAddress", der(0x87, bytes([192, 0, 2, 1])))
show("registeredID", der(0x88, oid(1, 2, 3)[2:]))
print("directoryName, its name cut     ", literal(der(0xA4, short[:-1])))
print("directoryName, one more behind  ", literal(der(0xA4, short + b"\0")))
print("directoryName, its name too long", literal(der(0xA4, short[:1] + b"\x81" + short[1:])))

country, common = attribute(6, der(0x13, b"DE")), attribute(3, utf8(b"a"))
show("Name", der(0x30, country, common))
print("Name, the second part cut     ", literal(der(0x30, country, common[:-1])))
print("Name, one more behind         ", literal(der(0x30, country, common, b"\0")))
print("Name, the second part too long", literal(der(0x30, country, common[:1] + b"\x81" + common[1:])))

usage = extension(15, True, der(0x03, b"\x07\x80"))
basic = extension(19, False, der(0x30))
show("Extensions", der(0x30, usage, basic))
print("Extensions, the content           ", literal(usage + basic))
print("Extensions, the second cut        ", literal(usage + basic[:-1]))
print("Extensions, one more behind       ", literal(usage + basic + b"\0"))
print("Extensions, the second too long   ", literal(usage + basic[:1] + b"\x81" + basic[1:]))

for moment in [(1970, 1, 1, 0, 0, 0), (2024, 2, 29, 0, 0, 0), (2049, 12, 31, 23, 59, 59)]:
    text = "%02d%02d%02d%02d%02d%02dZ" % (moment[0] % 100, *moment[1:])
    show(f"UTCTime {timegm(moment)}", der(0x17, text.encode()))
for moment in [(1970, 1, 1, 0, 0, 0), (2024, 2, 29, 0, 0, 0), (2050, 1, 1, 0, 0, 0), (9999, 12, 31, 23, 59, 59)]:
    text = "%04d%02d%02d%02d%02d%02dZ" % moment
    show(f"GeneralizedTime {timegm(moment)}", der(0x18, text.encode()))
print("no day, UTCTime        ", literal(der(0x17, b"230229000000Z")))
print("no day, GeneralizedTime", literal(der(0x18, b"20230229000000Z")))
