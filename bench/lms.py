"""Joins the timings of LMS as join.py does, and says how they grow with the height and how far they are from the limit.

Words: those of join.py. The limit is the time of the compressions that an operation can't do without, one a step of a
chain: each as long as a hash over 55 octets takes in the same run, or four at once as long as our four lanes take.
"""

import sys

from join import least_of, show

# The trees whose times are compared: three heights over digits of 4 bits, 67 chains of 15 steps (RFC 8554, 4.1).
HEIGHTS = (5, 10, 15)
SET = "w4"
CHAINS, STEPS = 67, 15


def blocks(octets: int) -> int:
    """How many compressions SHA-256 of so many octets takes (FIPS 180-4, 5.1.1)."""
    return (octets + 9 + 63) // 64


# A one-time public hash: each chain's secret and all its steps, and the hash of the ends (RFC 8554, 4.3). A leaf hashes
# that once more, and an inner node hashes the two below it (RFC 8554, 5.3).
PUBLIC_HASH = CHAINS * (1 + STEPS) + blocks(22 + 32 * CHAINS)
LEAF = PUBLIC_HASH + blocks(54)
INNER = blocks(86)


def of_tree(height: int) -> int:
    return LEAF * 2**height + INNER * (2**height - 1)


def growth(titles: list[str], least: list[dict[str, int]]) -> None:
    for operation in ("grow {}", "sign {}, first leaf", "verify {}"):
        for low, high in zip(HEIGHTS, HEIGHTS[1:]):
            first, second = (operation.format(f"h{height} {SET}") for height in (low, high))
            parts = [f"{title} {side[second] / side[first]:.2f} times" for title, side in zip(titles, least)
                     if first in side and second in side]
            if parts:
                print(f"from {first} to {second}: " + ", ".join(parts))


def limit(ours: dict[str, int]) -> None:
    counts = {f"public_hash {SET}": PUBLIC_HASH} | {f"grow h{height} {SET}": of_tree(height) for height in HEIGHTS}
    for name, count in counts.items():
        if name in ours and "compression" in ours:
            least = count * ours["compression"]
            print(f"{name}: {count} compressions of {ours['compression']} ns are {least / 1000:.1f} us;"
                  f" ours takes {ours[name] / least:.2f} times that")
            if "four compressions" in ours:
                least = count / 4 * ours["four compressions"]
                print(f"{name}: four at once in {ours['four compressions']} ns they are {least / 1000:.1f} us;"
                      f" ours takes {ours[name] / least:.2f} times that")


def main() -> None:
    turns = int(sys.argv[1])
    programs = [word.split("=", 1) for word in sys.argv[2:]]
    titles = [title for title, _ in programs]
    least = least_of(turns, programs)
    show(turns, titles, least)
    growth(titles, least)
    limit(least[0])


if __name__ == "__main__":
    main()
