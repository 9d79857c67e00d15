#!/usr/bin/env python3
"""Writes a script for the program of ioa_book_rows: bench/events.py EVENTS HANDS

A node ticks, and the hands take turns: each looks at it, proposes its tick and commits that. EVENTS is how many events
there are, HANDS how many hands. Run that program on scripts of two lengths under callgrind, and take the difference.
"""

import sys

TEXT = """| automaton Tick
|   signature internal tick
|   states n: Int := 0
|   transitions internal tick eff n := n + 1
| system node 0: Tick"""


def main():
    events, hands = (int(it) for it in sys.argv[1:])
    print(TEXT)
    print(f"core {hands} 1000000")
    for number in range(events):
        hand = number // 3 % hands
        print(f"hand {hand}", ["look 0", "propose local 0 tick", "commit"][number % 3])


if __name__ == "__main__":
    main()
