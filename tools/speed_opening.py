#!/usr/bin/env python3
"""The opening of Speed, worked out apart from the Rattle code.

Run: python3 tools/speed_opening.py 0 1 4294967295
For each seed it prints the 68 words, eight to a line, as the tests in crates/worked_cases have them.

The pack 0..51 is shuffled from the last place down to place 1: the generator z -> 1664525 z + 1013904223 (mod 2^32)
is stepped, and place i is exchanged with place (z div 65536) mod (i + 1). Then come the hands (places 30 to 34 and
35 to 39), the draw counts 15 and 15, the side count 5, the tops (places 50 and 51) and the parity 0.
"""
import sys


def opening(seed):
    order = list(range(52))
    z = seed
    for i in range(51, 0, -1):
        z = (1664525 * z + 1013904223) % (1 << 32)
        j = (z >> 16) % (i + 1)
        order[i], order[j] = order[j], order[i]
    assert sorted(order) == list(range(52))
    return order + order[30:35] + order[35:40] + [15, 15, 5] + [order[50], order[51]] + [0]


def main():
    for seed in map(int, sys.argv[1:]):
        words = opening(seed)
        assert len(words) == 68
        print(f"// seed {seed}")
        for k in range(0, 68, 8):
            print("    " + " ".join(f"{w}," for w in words[k:k + 8]))


if __name__ == "__main__":
    main()
