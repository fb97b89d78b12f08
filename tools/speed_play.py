#!/usr/bin/env python3
"""A game of Speed, worked out apart from the Rattle code.

Run: python3 tools/speed_play.py 7 300
It opens with the seed, plays that many frames and prints, after every hundredth frame, the digest, whether the game
is over, and the words from 52 on. The codes come from the shuffle's generator, started at the seed: each seat's code
is (z div 65536) mod 12 of the next z, seat 0 before seat 1. tools/speed_opening.py has the opening.
"""
import sys

from speed_opening import opening


def fits(a, b):
    return abs(a % 13 - b % 13) in (1, 12)


class Table:
    def __init__(self, seed):
        words = opening(seed)
        self.order = words[:52]
        self.hands = [words[52:57], words[57:62]]
        self.draws = [15, 15]
        self.sides = 5
        self.tops = words[65:67]
        self.parity = 0

    def words(self):
        return (self.order + self.hands[0] + self.hands[1] + self.draws + [self.sides] + self.tops + [self.parity])

    def digest(self):
        return sum((2 * k + 1) * w for k, w in enumerate(self.words())) % 2**32

    def is_over(self):
        return any(self.draws[s] == 0 and all(c == 52 for c in self.hands[s]) for s in (0, 1))

    def play(self, seat, code):
        if not 1 <= code <= 10:
            return
        slot, pile = divmod(code - 1, 2)
        card = self.hands[seat][slot]
        if card == 52 or not fits(card, self.tops[pile]):
            return
        self.tops[pile] = card
        if self.draws[seat] > 0:
            self.hands[seat][slot] = self.order[15 * (seat + 1) - self.draws[seat]]
            self.draws[seat] -= 1
        else:
            self.hands[seat][slot] = 52

    def frame(self, codes):
        if self.is_over():
            return
        for seat in (self.parity, 1 - self.parity):
            self.play(seat, codes[seat])
        if codes == [11, 11] and self.sides > 0:
            self.tops = [self.order[45 - self.sides], self.order[50 - self.sides]]
            self.sides -= 1
        self.parity = 1 - self.parity


def main():
    seed, frames = int(sys.argv[1]), int(sys.argv[2])
    table = Table(seed)
    z = seed
    for n in range(1, frames + 1):
        codes = []
        for _ in (0, 1):
            z = (1664525 * z + 1013904223) % 2**32
            codes.append((z >> 16) % 12)
        table.frame(codes)
        if n % 100 == 0:
            print(n, table.digest(), "over" if table.is_over() else "", table.words()[52:])


if __name__ == "__main__":
    main()
