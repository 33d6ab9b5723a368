"""Runs programs in turns and joins the timings that they print.

Words: the number of turns, and for each program its title, `=` and its command; ours is the first. Each prints
lines of a name, a tab and nanoseconds; of a name that stands in several turns the least counts. Behind the
others' timings stands how many times ours they are.
"""

import shlex
import subprocess
import sys


def timings(command: str) -> dict[str, int]:
    run = subprocess.run(shlex.split(command), stdin=subprocess.DEVNULL, stdout=subprocess.PIPE, text=True, check=True)
    found = {}
    for line in run.stdout.splitlines():
        name, tab, value = line.partition("\t")
        if tab and value.isdigit():
            found[name] = int(value)
    return found


def least_of(turns: int, programs: list[list[str]]) -> list[dict[str, int]]:
    least: list[dict[str, int]] = [{} for _ in programs]
    for _ in range(turns):
        for kept, (_, command) in zip(least, programs):
            for name, value in timings(command).items():
                kept[name] = min(value, kept.get(name, value))
    return least


def show(turns: int, titles: list[str], least: list[dict[str, int]]) -> None:
    ours = least[0]
    heads = [f"{title:>14}" for title in titles]
    print(f"{f'least of {turns} turns':24} " + heads[0] + "".join(f"{head}  times ours" for head in heads[1:]))
    for name in dict.fromkeys(name for side in least for name in side):
        line = f"{name:24} " + column(ours, name)
        for side in least[1:]:
            known = name in side and ours.get(name)
            line += column(side, name) + (f"{side[name] / ours[name]:12.2f}" if known else " " * 12)
        print(line.rstrip())


def column(side: dict[str, int], name: str) -> str:
    return f"{side[name] / 1000:11.1f} us" if name in side else f"{'-':>14}"


def main() -> None:
    turns = int(sys.argv[1])
    programs = [word.split("=", 1) for word in sys.argv[2:]]
    show(turns, [title for title, _ in programs], least_of(turns, programs))


if __name__ == "__main__":
    main()
