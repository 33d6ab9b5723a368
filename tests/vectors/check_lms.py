"""Holds the vectors that LmsVectors.java prints against RFC 8554, written out here with hashlib alone.

Words: the files to check. Every value of each record is computed anew from its seed, and every
changed signature is judged. Ends with status 1 at the first difference.
"""

import hashlib
import struct
import sys

D_PBLC, D_MESG, D_LEAF, D_INTR = b"\x80\x80", b"\x81\x81", b"\x82\x82", b"\x83\x83"
# 4.1, table 1: w, p, ls
OTS = {1: (1, 265, 7), 2: (2, 133, 6), 3: (4, 67, 4), 4: (8, 34, 0)}
# 5.1, table 2: h
TREES = {5: 5, 6: 10, 7: 15, 8: 20, 9: 25}


def sha256(*parts: bytes) -> bytes:
    return hashlib.sha256(b"".join(parts)).digest()


def u32(value: int) -> bytes:
    return struct.pack(">I", value)


def u16(value: int) -> bytes:
    return struct.pack(">H", value)


def u32_at(octets: bytes, place: int) -> int:
    return struct.unpack_from(">I", octets, place)[0]


def coef(text: bytes, i: int, w: int) -> int:
    """3.1.3"""
    return (2**w - 1) & (text[i * w // 8] >> (8 - (w * (i % (8 // w)) + w)))


def checksum(text: bytes, code: int) -> int:
    """4.4, algorithm 2"""
    w, _, ls = OTS[code]
    return sum(2**w - 1 - coef(text, i, w) for i in range(256 // w)) << ls


def chain(identifier: bytes, q: int, i: int, start: int, end: int, value: bytes) -> bytes:
    head = identifier + u32(q) + u16(i)
    for j in range(start, end):
        value = sha256(head, bytes([j]), value)
    return value


def secret(seed: bytes, identifier: bytes, q: int, i: int) -> bytes:
    """Appendix A"""
    return sha256(identifier, u32(q), u16(i), b"\xff", seed)


def public_hash(code: int, seed: bytes, identifier: bytes, q: int) -> bytes:
    """4.3, algorithm 1"""
    w, p, _ = OTS[code]
    ends = (chain(identifier, q, i, 0, 2**w - 1, secret(seed, identifier, q, i)) for i in range(p))
    return sha256(identifier, u32(q), D_PBLC, *ends)


def digits(code: int, identifier: bytes, q: int, c: bytes, text: bytes) -> list[int]:
    w, p, _ = OTS[code]
    hashed = sha256(identifier, u32(q), D_MESG, c, text)
    whole = hashed + u16(checksum(hashed, code))
    return [coef(whole, i, w) for i in range(p)]


def sign_ots(code: int, seed: bytes, identifier: bytes, q: int, text: bytes) -> bytes:
    """4.5, algorithm 3, with C drawn from the seed as a private value of the number 0xfffd"""
    c = secret(seed, identifier, q, 0xFFFD)
    values = [chain(identifier, q, i, 0, a, secret(seed, identifier, q, i))
              for i, a in enumerate(digits(code, identifier, q, c, text))]
    return u32(code) + c + b"".join(values)


def candidate(code: int, identifier: bytes, q: int, text: bytes, signature: bytes) -> bytes | None:
    """4.6, algorithm 4b"""
    if code not in OTS:
        return None
    w, p, _ = OTS[code]
    if len(signature) != 36 + 32 * p or u32_at(signature, 0) != code:
        return None
    ends = [chain(identifier, q, i, a, 2**w - 1, signature[36 + 32 * i : 68 + 32 * i])
            for i, a in enumerate(digits(code, identifier, q, signature[4:36], text))]
    return sha256(identifier, u32(q), D_PBLC, *ends)


def grow(tree: int, ots: int, seed: bytes, identifier: bytes) -> list[bytes]:
    """5.3: the nodes, node r in place r"""
    leaves = 2 ** TREES[tree]
    nodes = [b""] * (2 * leaves)
    for r in range(2 * leaves - 1, 0, -1):
        if r >= leaves:
            nodes[r] = sha256(identifier, u32(r), D_LEAF, public_hash(ots, seed, identifier, r - leaves))
        else:
            nodes[r] = sha256(identifier, u32(r), D_INTR, nodes[2 * r], nodes[2 * r + 1])
    return nodes


GROWN: dict[tuple[int, int, bytes, bytes], list[bytes]] = {}


def grown(*key) -> list[bytes]:
    if key not in GROWN:
        GROWN[key] = grow(*key)
    return GROWN[key]


def public_key(tree: int, ots: int, seed: bytes, identifier: bytes) -> bytes:
    """5.3"""
    return u32(tree) + u32(ots) + identifier + grown(tree, ots, seed, identifier)[1]


def sign_tree(tree: int, ots: int, seed: bytes, identifier: bytes, q: int, text: bytes) -> bytes:
    """5.4.1, algorithm 5"""
    nodes = grown(tree, ots, seed, identifier)
    path, r = b"", 2 ** TREES[tree] + q
    while r > 1:
        path += nodes[r ^ 1]
        r //= 2
    return u32(q) + sign_ots(ots, seed, identifier, q, text) + u32(tree) + path


def signature_length(key: bytes) -> int | None:
    tree, ots = u32_at(key, 0), u32_at(key, 4)
    if tree not in TREES or ots not in OTS:
        return None
    return 44 + 32 * OTS[ots][1] + 32 * TREES[tree]


def tree_ok(key: bytes, text: bytes, signature: bytes) -> bool:
    """5.4.2, algorithms 6 and 6a"""
    length = signature_length(key)
    if len(key) != 56 or length is None or len(signature) != length:
        return False
    tree, ots, identifier = u32_at(key, 0), u32_at(key, 4), key[8:24]
    end = 40 + 32 * OTS[ots][1]
    q = u32_at(signature, 0)
    if q >= 2 ** TREES[tree] or u32_at(signature, end) != tree:
        return False
    value = candidate(ots, identifier, q, text, signature[4:end])
    if value is None:
        return False
    r = 2 ** TREES[tree] + q
    value = sha256(identifier, u32(r), D_LEAF, value)
    for place in range(end + 4, length, 32):
        node = signature[place : place + 32]
        pair = node + value if r % 2 else value + node
        r //= 2
        value = sha256(identifier, u32(r), D_INTR, pair)
    return value == key[24:]


def hss_ok(key: bytes, text: bytes, signature: bytes) -> bool:
    """6.3"""
    if len(key) != 60 or not 1 <= u32_at(key, 0) <= 8 or len(signature) < 4:
        return False
    if u32_at(signature, 0) + 1 != u32_at(key, 0):
        return False
    key, rest = key[4:], signature[4:]
    for _ in range(u32_at(signature, 0)):
        length = signature_length(key)
        if length is None or len(rest) < length + 56:
            return False
        lower = rest[length : length + 56]
        if not tree_ok(key, lower, rest[:length]):
            return False
        key, rest = lower, rest[length + 56 :]
    return tree_ok(key, text, rest)


def flipped(octets: bytes, place: int) -> bytes:
    return octets[:place] + bytes([octets[place] ^ 1]) + octets[place + 1 :]


def require(holds: bool, what: str) -> None:
    if not holds:
        sys.exit(f"differs: {what}")


def check_digits(r: dict[str, str], title: str) -> None:
    w, octets = int(r["w"]), bytes.fromhex(r["octets"])
    code = {1: 1, 2: 2, 4: 3, 8: 4}[w]
    require([coef(octets, i, w) for i in range(8)] == [int(d) for d in r["first_digits"].split()], title)
    require(coef(octets, 256 // w - 1, w) == int(r["last_digit"]), title)
    require(checksum(octets, code) == int(r["checksum"]), title)


def check_ots(r: dict[str, str], title: str) -> None:
    code, q = int(r["ots"]), int(r["q"])
    seed, identifier = bytes.fromhex(r["seed"]), bytes.fromhex(r["id"])
    require(public_hash(code, seed, identifier, q).hex() == r["public_hash"], title)
    if "signature" not in r:
        return
    text = bytes.fromhex(r["text"])
    signature = sign_ots(code, seed, identifier, q, text)
    require(signature.hex() == r["signature"] and len(signature) == int(r["length"]), title)
    require(hashlib.sha256(signature).hexdigest() == r["sha256"], title)
    require(candidate(code, identifier, q, text, signature).hex() == r["public_hash"], title)
    for name, value in r.items():
        words = name.split("_")
        if name.startswith("candidate_with_octet_"):
            given = candidate(code, identifier, q, text, flipped(signature, int(words[3])))
        elif name.startswith("candidate_for_text_"):
            given = candidate(code, identifier, q, bytes.fromhex(words[3]), signature)
        elif name == "candidate_for_q_plus_1":
            given = candidate(code, identifier, q + 1, text, signature)
        else:
            continue
        require(given.hex() == value != r["public_hash"], f"{title}: {name}")


def check_tree(r: dict[str, str], title: str) -> None:
    tree, ots = int(r["tree"]), int(r["ots"])
    seed, identifier = bytes.fromhex(r["seed"]), bytes.fromhex(r["id"])
    key = public_key(tree, ots, seed, identifier)
    require(key.hex() == r["public_key"], title)
    if "signature" not in r:
        return
    text = bytes.fromhex(r["text"])
    signature = sign_tree(tree, ots, seed, identifier, int(r["q"]), text)
    check_signature(r, title, tree_ok, key, text, signature)


def check_levels(r: dict[str, str], title: str) -> None:
    levels = []
    for i in range(int(r["levels"])):
        tree, ots, seed, identifier, q = r[f"level_{i}"].split()
        levels.append((int(tree), int(ots), bytes.fromhex(seed), bytes.fromhex(identifier), int(q)))
    key = u32(len(levels)) + public_key(*levels[0][:4])
    require(key.hex() == r["public_key"], title)
    text, signature = bytes.fromhex(r["text"]), u32(len(levels) - 1)
    for upper, lower in zip(levels, levels[1:]):
        below = public_key(*lower[:4])
        signature += sign_tree(*upper, below) + below
    signature += sign_tree(*levels[-1], text)
    check_signature(r, title, hss_ok, key, text, signature)


def check_signature(r, title, is_ok, key, text, signature) -> None:
    require(signature.hex() == r["signature"] and len(signature) == int(r["length"]), title)
    require(hashlib.sha256(signature).hexdigest() == r["sha256"], title)
    require(is_ok(key, text, signature), title)
    require(not is_ok(key, text + b".", signature), title)
    for place in r["refused_where_xor_1_at"].split():
        require(not is_ok(key, text, flipped(signature, int(place))), f"{title}: octet {place}")
    for wrong in (signature[:-1], signature + b"\x00", signature[1:], b""):
        require(not is_ok(key, text, wrong), f"{title}: {len(wrong)} octets")


def records(path: str):
    title, record = "", {}
    for line in open(path, encoding="ascii"):
        line = line.rstrip("\n")
        if line.startswith("["):
            title, record = line, {}
        elif line and not line.startswith("#"):
            name, _, value = line.partition(" ")
            record[name] = value
        elif not line and record:
            yield title, record
            record = {}
    if record:
        yield title, record


def main() -> None:
    for path in sys.argv[1:]:
        count = 0
        for title, record in records(path):
            if "first_digits" in record:
                check_digits(record, title)
            elif "levels" in record:
                check_levels(record, title)
            elif "tree" in record:
                check_tree(record, title)
            else:
                check_ots(record, title)
            count += 1
        print(f"{path}: {count} records agree")


if __name__ == "__main__":
    main()
