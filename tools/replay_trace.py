#!/usr/bin/env python3
"""Replay a trace, worked out apart from the Rattle code.

Run: python3 tools/replay_trace.py < examples/worked.trace
     python3 tools/replay_trace.py check        (tries the worked cases, prints what it tried)

It reads a trace on standard input and prints the report that the replay program has to print, byte for byte. No frame
is ever taken back here: a match is only the lists of true inputs, the counts R and A of each seat and a note of each
send. A seat's newest state is stepped from the opening once, at the end of the trace. So the script shares neither
code nor method with the engine, and serves to hold the engine's reports against.
"""
import sys

MOST_BYTES = 65536
LOG_RECORDS = 512
MOST_FRAMES = 60000
FRAMES_AHEAD = 8
FRAMES_UNACKNOWLEDGED = 32
WORD = 1 << 32


def digest(words):
    return sum((2 * k + 1) * word for k, word in enumerate(words)) % WORD


# Duel

class Duel:
    # What a direction adds to column and row.
    TOWARDS = {1: (0, -1), 2: (1, 0), 3: (0, 1), 4: (-1, 0)}

    @staticmethod
    def reads(code):
        return code % 8 <= 4 and code // 8 <= 1

    @staticmethod
    def opening(seed):
        turned = ((seed << 16) | (seed >> 16)) % WORD
        return [0, 0, 2, 0, 7, 7, 4, 0, seed & ~1, turned & ~(1 << 31)]

    @staticmethod
    def blocked(state, cell):
        """Off the grid, or a wall."""
        column, row = cell
        if not (0 <= column <= 7 and 0 <= row <= 7):
            return True
        return state[8 + row // 4] >> (8 * (row % 4) + column) & 1 == 1

    @classmethod
    def beside(cls, cell, direction):
        return cell[0] + cls.TOWARDS[direction][0], cell[1] + cls.TOWARDS[direction][1]

    @classmethod
    def hits(cls, state, start, facing, target):
        cell = cls.beside(start, facing)
        while not cls.blocked(state, cell):
            if cell == target:
                return True
            cell = cls.beside(cell, facing)
        return False

    @classmethod
    def step(cls, state, codes):
        before = [(state[0], state[1]), (state[4], state[5])]
        facing = [state[2], state[6]]
        score = [state[3], state[7]]
        aims = [None, None]
        for s in (0, 1):
            direction = codes[s] % 8
            if direction != 0:
                facing[s] = direction
                aims[s] = cls.beside(before[s], direction)
        after = list(before)
        for s in (0, 1):
            aim = aims[s]
            if aim is None or aim == aims[1 - s]:
                continue
            if not cls.blocked(state, aim) and aim != before[1 - s]:
                after[s] = aim
        for s in (0, 1):
            if codes[s] // 8 == 1 and cls.hits(state, after[s], facing[s], after[1 - s]):
                score[s] = min(score[s] + 1, 65535)
        return [*after[0], facing[0], score[0], *after[1], facing[1], score[1], state[8], state[9]]


# Speed

class Speed:
    NO_CARD = 52

    @staticmethod
    def reads(code):
        return code <= 11

    @staticmethod
    def opening(seed):
        order = list(range(52))
        z = seed
        for i in range(51, 0, -1):
            z = (1664525 * z + 1013904223) % WORD
            j = (z // 65536) % (i + 1)
            order[i], order[j] = order[j], order[i]
        return order + order[30:35] + order[35:40] + [15, 15, 5, order[50], order[51], 0]

    @staticmethod
    def fits(card, top):
        return abs(card % 13 - top % 13) in (1, 12)

    @classmethod
    def out_of_cards(cls, state, s):
        hand = state[52 + 5 * s:57 + 5 * s]
        return all(card == cls.NO_CARD for card in hand) and state[62 + s] == 0

    @classmethod
    def play(cls, state, s, code):
        """Seat s plays a slot to a pile, where the card fits."""
        slot = 52 + 5 * s + (code - 1) // 2
        pile = 65 + (code - 1) % 2
        card = state[slot]
        if card == cls.NO_CARD or not cls.fits(card, state[pile]):
            return
        state[pile] = card
        left = state[62 + s]
        if left == 0:
            state[slot] = cls.NO_CARD
        else:
            state[slot] = state[15 + 15 * s - left]
            state[62 + s] = left - 1

    @classmethod
    def step(cls, state, codes):
        if cls.out_of_cards(state, 0) or cls.out_of_cards(state, 1):
            return state
        state = list(state)
        first = state[67]
        for s in (first, 1 - first):
            if 1 <= codes[s] <= 10:
                cls.play(state, s, codes[s])
        sides = state[64]
        if codes[0] == 11 and codes[1] == 11 and sides != 0:
            state[65] = state[45 - sides]
            state[66] = state[50 - sides]
            state[64] = sides - 1
        state[67] = 1 - state[67]
        return state


# The plain match

class Side:
    def __init__(self):
        self.inputs = []    # the true ones; their number is P
        self.known = 0      # R
        self.acked = 0      # A
        self.replayed = 0   # over all takes


class Match:
    def __init__(self, game, seed):
        self.game = game
        self.seed = seed
        self.sides = [Side(), Side()]
        self.notes = []     # (seat, P, R) of each send

    def press(self, s, code):
        me = self.sides[s]
        if not self.game.reads(code):
            return 5
        if len(me.inputs) == MOST_FRAMES:
            return 11
        if len(me.inputs) == me.known + FRAMES_AHEAD:
            return 12
        if len(me.inputs) == me.acked + FRAMES_UNACKNOWLEDGED:
            return 13
        me.inputs.append(code)
        return 0

    def send(self, s):
        if len(self.notes) == LOG_RECORDS:
            return 18
        self.notes.append((s, len(self.sides[s].inputs), self.sides[s].known))
        return 0

    def take(self, s, k):
        """The code and the frames replayed."""
        if k >= len(self.notes) or self.notes[k][0] == s:
            return 17, 0
        me = self.sides[s]
        _, its_frames, its_known = self.notes[k]
        before = self.other_inputs(s)
        me.known = max(me.known, its_frames)
        me.acked = max(me.acked, its_known)
        after = self.other_inputs(s)
        replayed = 0
        if before != after:
            lowest = next(f for f, (old, new) in enumerate(zip(before, after)) if old != new)
            replayed = len(me.inputs) - lowest
        me.replayed += replayed
        return 0, replayed

    def other_inputs(self, s):
        """The other seat's input for each frame below P, as seat s has it: known, then guessed."""
        me, other = self.sides[s], self.sides[1 - s]
        frames = len(me.inputs)
        known = other.inputs[:min(me.known, frames)]
        last = other.inputs[me.known - 1] if me.known > 0 else 0
        guess = last if s == 0 else 0   # seat 0 holds, seat 1 is still
        return known + [guess] * (frames - len(known))

    def newest_state(self, s):
        state = self.game.opening(self.seed)
        for own, other in zip(self.sides[s].inputs, self.other_inputs(s)):
            state = self.game.step(state, (own, other) if s == 0 else (other, own))
        return state


# The trace

class Fault(Exception):
    def __init__(self, number, line, byte):
        super().__init__(number, line, byte)
        self.text = b"fault %d line %d byte %d\n" % (number, line, byte)


GAMES = {b"duel": Duel, b"speed": Speed}
# For each first word of a later line, the greatest number that each further word may be.
SHAPES = {b"press": (1, 65535), b"send": (1,), b"take": (1, 65535), b"end": ()}


def number(word, greatest):
    """The number that a word writes, or None."""
    if word == b"" or any(byte not in b"0123456789" for byte in word):
        return None
    if word[0:1] == b"0" and len(word) > 1:
        return None
    if len(word) > 10 or int(word) > greatest:
        return None
    return int(word)


def first_line(text):
    """The line with its byte 10, and the match that it opens."""
    line, newline, _ = text.partition(b"\n")
    words = line.split(b" ")
    if newline == b"" or len(words) != 5 or words[:2] != [b"RBT", b"1"] or words[2] not in GAMES:
        raise Fault(24, 1, 0)
    match_number, seed = number(words[3], 65535), number(words[4], WORD - 1)
    if match_number is None or seed is None:
        raise Fault(24, 1, 0)
    return line + newline, Match(GAMES[words[2]], seed)


def later_lines(text, at):
    """Each turn with its line number, up to `end`; the first fault is raised where it stands."""
    line_number, ended = 2, False
    while at < len(text):
        line, newline, _ = text[at:].partition(b"\n")
        words = line.split(b" ")
        if words[0] not in SHAPES or len(words) != 1 + len(SHAPES[words[0]]):
            raise Fault(25, line_number, at)
        if ended or newline == b"":
            raise Fault(27, line_number, at)
        numbers, place = [], at + len(words[0]) + 1
        for word, greatest in zip(words[1:], SHAPES[words[0]]):
            numbers.append(number(word, greatest))
            if numbers[-1] is None:
                raise Fault(26, line_number, place)
            place += len(word) + 1
        if words[0] == b"end":
            ended = True
        else:
            yield line_number, words[0], numbers
        at += len(line) + 1
        line_number += 1
    if not ended:
        raise Fault(27, line_number, at)


def report(text):
    """The pieces of the report of a trace."""
    if len(text) > MOST_BYTES:
        yield b"fault 28 line 0 byte 0\n"
        return
    try:
        line, match = first_line(text)
        yield line
        for line_number, verb, numbers in later_lines(text, len(line)):
            s, code, replayed = numbers[0], 0, 0
            if verb == b"press":
                code = match.press(s, numbers[1])
            elif verb == b"send":
                code = match.send(s)
            else:
                code, replayed = match.take(s, numbers[1])
            side = match.sides[s]
            yield b"%d %d %d %d %d\n" % (line_number, code, replayed, len(side.inputs), side.known)
    except Fault as fault:
        yield fault.text
        return
    for s, side in enumerate(match.sides):
        frames = len(side.inputs)
        yield b"seat %d %d %d %d %d %d %d\n" % (
            s, frames, side.known, side.acked, min(frames, side.known), digest(match.newest_state(s)), side.replayed)


# The worked cases

WORKED = (
    b"RBT 1 duel 7 0\npress 0 2\npress 0 10\nsend 0\ntake 1 0\npress 1 1\nsend 1\ntake 0 1\nend\n",
    b"RBT 1 duel 7 0\n2 0 0 1 0\n3 0 0 2 0\n4 0 0 2 0\n5 0 0 0 2\n6 0 0 1 2\n7 0 0 1 2\n8 0 2 2 1\n"
    b"seat 0 2 1 2 1 143 2\nseat 1 1 2 0 1 153 0\n")


def seven_ups(firing_frame):
    """Seat 0's score in Duel after seat 1 has gone up seven times and seat 0 has fired in one frame."""
    state = Duel.opening(0)
    for frame in range(7):
        state = Duel.step(state, (8 if frame == firing_frame else 0, 1))
    return state[3]


def held(codes):
    """Frames replayed at seat 0, with three frames played, by a take of seat 1's first inputs."""
    match = Match(Duel, 0)
    for _ in range(3):
        match.press(0, 0)
    for code in codes:
        match.press(1, code)
    match.send(1)
    return match.take(0, 0)


def check():
    def same(what, found, wanted):
        print("ok" if found == wanted else "WRONG", what)
        return found == wanted

    opening = Duel.opening(0)
    moved = Duel.step(opening, (2, 1))
    ahead = Match(Duel, 0)
    return all([
        same("Duel opens", opening, [0, 0, 2, 0, 7, 7, 4, 0, 0, 0]),
        same("its digest", digest(opening), 202),
        same("codes 2 and 1", moved, [1, 0, 2, 0, 7, 6, 1, 0, 0, 0]),
        same("its digest", digest(moved), 153),
        same("fire in frame 6", seven_ups(6), 1),
        same("fire in frame 5", seven_ups(5), 0),
        same("fit on card 0", [c for c in (2, 12, 13, 14) if Speed.fits(c, 0)], [12, 14]),
        same("the ninth press", [ahead.press(0, 0) for _ in range(9)], [0] * 8 + [12]),
        same("hold, codes 0 and 1", held([0, 1]), (0, 2)),
        same("hold, codes 0 and 0", held([0, 0]), (0, 0)),
        same("the worked replay", b"".join(report(WORKED[0])), WORKED[1]),
    ])


if __name__ == "__main__":
    if sys.argv[1:] == ["check"]:
        sys.exit(0 if check() else 1)
    sys.stdout.buffer.write(b"".join(report(sys.stdin.buffer.read())))
