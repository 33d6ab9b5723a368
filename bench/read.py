"""Joins the timings of reading messages, as messages and octets a second.

Words: the folder of the messages, and for each program its title, `=` and its command; ours is the first. Each program is
given the paths of all messages, and prints for each a line of the path, a tab and nanoseconds. They run in turns; of each
message the least time counts.
"""

import shlex
import sys
from pathlib import Path

from join import least_of

TURNS = 3
GOAL = 5


def rates(titles: list[str], least: list[dict[str, int]], files: list[Path]) -> None:
    print(f"least of {TURNS} turns; messages and octets a second, and how many times as fast ours is")
    for file in files:
        octets = file.stat().st_size
        print(f"{file.name}, {octets} octets")
        for title, side in zip(titles, least):
            taken = side.get(str(file))
            if taken is None:
                print(f"  {title:14} doesn't read it")
                continue
            line = f"  {title:14} {1e9 / taken:12,.0f} messages/s {octets * 1e3 / taken:10,.2f} MB/s"
            print(line if side is least[0] else f"{line} {taken / least[0][str(file)]:9.1f} times")


def goal(least: list[dict[str, int]], files: list[Path]) -> None:
    for file in files:
        name = str(file)
        if file.name.startswith("ir") and name in least[1]:
            times = least[1][name] / least[0][name]
            print(f"{file.name}: {times:.1f} times OpenSSL, {'at least' if times >= GOAL else 'less than'} {GOAL}")


def growth(ours: dict[str, int], files: list[Path]) -> None:
    """Nanoseconds an octet: time that grows linearly takes the same for each at every length."""
    rows: dict[str, list[Path]] = {}
    for file in files:
        kind, comma, _ = file.name.partition(", ")
        if file.name.endswith(" empty"):
            rows.setdefault(kind, []).append(file)
    for kind, members in rows.items():
        parts = [f"{file.stat().st_size} octets {ours[str(file)]} ns" for file in members]
        print(f"{kind}, ours: " + ", ".join(parts))
        each = [(ours[str(high)] - ours[str(low)]) / (high.stat().st_size - low.stat().st_size)
                for low, high in zip(members, members[1:])]
        print("  from each to the next, ns an octet: " + ", ".join(f"{value:.2f}" for value in each))


def main() -> None:
    files = sorted(Path(sys.argv[1]).iterdir(), key=lambda file: (not file.name.startswith("ir"), file.name))
    programs = [word.split("=", 1) for word in sys.argv[2:]]
    paths = shlex.join(str(file) for file in files)
    titles = [title for title, _ in programs]
    least = least_of(TURNS, [[title, f"{command} {paths}"] for title, command in programs])
    rates(titles, least, files)
    if "OpenSSL" in titles:
        goal(least, files)
    growth(least[0], files)


if __name__ == "__main__":
    main()
