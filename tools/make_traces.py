#!/usr/bin/env python3
"""Make the traces that replays are tried on, with the reports that they have to give.

Run from the repository: python3 tools/make_traces.py

It writes crates/replay_cases/data/NAME.trace and NAME.report for every case, list.txt with the names, and README.md
with a line on each. All draws come from fixed seeds, so a second run writes the same bytes. The reports come from
tools/replay_trace.py, which shares nothing with the engine.
"""
import os
import sys

from replay_trace import Duel, Match, Speed, WORKED, report

FOLDER = os.path.join("crates", "replay_cases", "data")
CASES = []      # (name, what it shows, text)


def case(name, shows, text):
    CASES.append((name, shows, text if isinstance(text, bytes) else text.encode()))


class Draws:
    """A generator of our own, so that the draws do not hang on a library's version."""

    def __init__(self, seed):
        self.z = (seed * 2654435761 + 12345) % (1 << 64)

    def below(self, n):
        self.z = (self.z * 6364136223846793005 + 1442695040888963407) % (1 << 64)
        return (self.z >> 33) % n

    def percent(self, p):
        return self.below(100) < p

    def shuffle(self, items):
        for i in range(len(items) - 1, 0, -1):
            j = self.below(i + 1)
            items[i], items[j] = items[j], items[i]


# Players

class Walker:
    """A Duel player who keeps a direction for some frames and now and then fires."""

    def __init__(self, draws, fire=25):
        self.draws, self.fire, self.direction = draws, fire, 0

    def code(self, match, seat):
        if self.draws.percent(35):
            self.direction = self.draws.below(5)
        return self.direction + (8 if self.draws.percent(self.fire) else 0)


class Dealer:
    """A Speed player who looks at the seat's newest state and mostly plays a card that fits it."""

    def __init__(self, draws, slow=0):
        self.draws, self.slow = draws, slow

    def code(self, match, seat):
        if self.draws.percent(self.slow):
            return 0
        if self.draws.percent(10):
            return self.draws.below(12)
        state = match.newest_state(seat)
        fitting = [1 + 2 * slot + pile for slot in range(5) for pile in (0, 1)
                   if state[52 + 5 * seat + slot] != 52 and Speed.fits(state[52 + 5 * seat + slot], state[65 + pile])]
        return fitting[self.draws.below(len(fitting))] if fitting else 11


# The line

class Recorder:
    """Turns as text, and the match that they make."""

    def __init__(self, game, number, seed):
        self.lines = ["RBT 1 %s %d %d" % (game, number, seed)]
        self.match = Match({"duel": Duel, "speed": Speed}[game], seed)

    def press(self, seat, code):
        self.lines.append("press %d %d" % (seat, code))
        return self.match.press(seat, code)

    def send(self, seat):
        self.lines.append("send %d" % seat)
        return self.match.send(seat)

    def take(self, seat, k):
        self.lines.append("take %d %d" % (seat, k))
        return self.match.take(seat, k)

    def size(self):
        return sum(len(line) + 1 for line in self.lines)

    def text(self, last=("end",)):
        return "".join(line + "\n" for line in [*self.lines, *last])


def play(rec, draws, players, ticks, loss=0, delay=(1, 1), repeat=0, burst=0, cut=None, uneven=0, stray=0, every=None,
         most=None):
    """Both seats press and send at each tick; the line loses, delays, repeats, and hands over in bursts.

    cut (seat, from, to) loses all that this seat sends in those ticks; uneven is the chance that a seat sits a tick
    out, stray that of a turn that has to be refused, every the frames from send to send (else a send follows
    most presses), most the size at which to stop.
    """
    pending = []    # (tick, draw, taking seat, k)
    told = [0, 0]   # each seat's frames at its last send
    for tick in range(ticks):
        if most is not None and rec.size() > most:
            return
        for seat in (0, 1):
            if draws.percent(uneven):
                continue
            waits = rec.press(seat, players[seat].code(rec.match, seat)) != 0
            frames = len(rec.match.sides[seat].inputs)
            if every is None:
                due = draws.percent(80)
            else:
                due = frames >= told[seat] + every or waits and draws.percent(25)
            if len(rec.match.notes) < 512 and due:
                k, told[seat] = len(rec.match.notes), frames
                rec.send(seat)
                away = cut is not None and cut[0] == seat and cut[1] <= tick < cut[2]
                for _ in range(1 + draws.percent(repeat)):
                    wait = delay[0] + draws.below(delay[1] - delay[0] + 1)
                    if not draws.percent(loss) and not away:
                        pending.append((tick + wait, draws.below(1000), 1 - seat, k))
        if draws.percent(stray):
            refused(rec, draws)
        if burst and tick % burst != burst - 1:
            continue
        arrived = [p for p in pending if p[0] <= tick]
        pending = [p for p in pending if p[0] > tick]
        arrived.sort(key=(lambda p: p[1]) if burst else (lambda p: p))
        for _, _, seat, k in arrived:
            rec.take(seat, k)


def refused(rec, draws):
    """A turn that changes nothing: a code that does not read, a datagram not there or the seat's own."""
    seat, sent = draws.below(2), len(rec.match.notes)
    own = [k for k, note in enumerate(rec.match.notes) if note[0] == seat]
    what = draws.below(3)
    if what == 0:
        rec.press(seat, (5, 6, 7, 13, 16, 65535)[draws.below(6)] if rec.match.game is Duel else 12 + draws.below(65524))
    elif what == 1 or not own:
        rec.take(seat, sent + draws.below(3))
    else:
        rec.take(seat, own[draws.below(len(own))])


def duel(name, shows, draw_seed, seed, ticks, number=7, fire=25, **line):
    draws = Draws(draw_seed)
    rec = Recorder("duel", number, seed)
    play(rec, draws, [Walker(draws, fire), Walker(draws, fire)], ticks, **line)
    case(name, shows, rec.text())


def speed(name, shows, draw_seed, seed, ticks, number=7, slow=0, **line):
    draws = Draws(draw_seed)
    rec = Recorder("speed", number, seed)
    play(rec, draws, [Dealer(draws, slow), Dealer(draws, slow)], ticks, **line)
    case(name, shows, rec.text())


# Matches

def matches():
    case("worked", "the worked replay", WORKED[0])
    case("duel_nothing", "a Duel without a turn", "RBT 1 duel 7 0\nend\n")
    case("speed_nothing", "a game of Speed without a turn", "RBT 1 speed 7 0\nend\n")
    duel("duel_calm", "a Duel over a line that loses nothing", 1, 0, 60)
    duel("duel_lossy", "a Duel with walls; four of ten datagrams are lost, the others late", 2, 0x02100840, 240,
         loss=40, delay=(1, 5), repeat=10, stray=5)
    duel("duel_reordered", "late datagrams overtake one another by many frames", 3, 0x10000400, 200,
         loss=10, delay=(1, 14), repeat=30)
    duel("duel_bursts", "datagrams come in bursts, in any order, many twice", 4, 0x00204000, 160,
         loss=15, delay=(1, 3), repeat=60, burst=5, stray=6)
    duel("duel_uneven", "seats that sit frames out, so that now one is ahead, now the other", 5, 0, 160,
         loss=20, delay=(1, 6), repeat=20, uneven=35)
    duel("duel_cut", "seat 1 is cut off for a time, seat 0 has to wait and then catches up", 6, 0x00081000, 120,
         loss=5, delay=(1, 3), cut=(1, 30, 60))
    duel("duel_fire", "both fire in most frames: guesses change scores", 7, 0, 120, fire=70, loss=25, delay=(2, 7))
    duel("duel_walled_in", "walls in every other cell: no seat can move", 8, 4294967295, 40, number=65535,
         loss=20, delay=(1, 4))
    speed("speed_calm", "a game of Speed over a line that loses nothing", 11, 2026, 60)
    speed("speed_lossy", "a game of Speed; four of ten datagrams are lost, the others late", 12, 99, 220,
          slow=40, loss=40, delay=(1, 5), repeat=10, stray=5)
    speed("speed_reordered", "late datagrams overtake one another by many frames", 13, 3000000000, 160,
          slow=50, loss=10, delay=(1, 14), repeat=30)
    speed("speed_bursts", "datagrams come in bursts, in any order, many twice", 14, 5, 140, slow=30,
          loss=15, delay=(1, 3), repeat=60, burst=5, uneven=15)
    speed("speed_last_seed", "the greatest match number and seed", 15, 4294967295, 100, number=65535, slow=30,
          loss=20, delay=(1, 4))
    speed_sides()
    far_ahead()
    refused_turns()
    numbers()
    log_full()
    sizes()


def speed_sides():
    """Both seats call a turn until no side is left and once more, level and then out of step."""
    rec = Recorder("speed", 1, 77)
    for frame in range(9):
        for seat in (0, 1):
            rec.press(seat, 11 if frame != 3 or seat == 0 else 4)
        for seat in (0, 1):
            rec.send(seat)
        for seat in (0, 1):
            rec.take(seat, 2 * frame + 1 - seat)
    for frame in range(8):
        rec.press(0, (11, 1, 2, 11)[frame % 4])
    rec.send(0)
    rec.take(1, 18)
    for frame in range(8):
        rec.press(1, (11, 3, 11, 6)[frame % 4])
        rec.send(1)
    for k in (22, 20, 26, 19, 25):
        rec.take(0, k)
    case("speed_sides", "both call turns until no side is left, and call again", rec.text())


def far_ahead():
    rec = Recorder("duel", 7, 0)
    for frame in range(10):
        rec.press(0, 2)
    rec.press(0, 5)
    rec.send(0)
    for frame in range(3):
        rec.press(1, 1 + frame)
    rec.send(1)
    rec.take(0, 1)
    for frame in range(5):
        rec.press(0, 9)
    rec.take(1, 0)
    for frame in range(14):
        rec.press(1, 4)
    rec.send(1)
    rec.take(0, 2)
    rec.take(0, 2)
    rec.take(0, 1)
    rec.send(0)
    rec.take(1, 3)
    case("far_ahead", "presses eight frames past the known ones, refused with 12; a bad code comes first", rec.text())


def refused_turns():
    lines = ["RBT 1 duel 7 0", "take 0 0", "send 0", "take 0 0", "take 1 1", "take 1 65535", "take 1 0", "take 1 0"]
    lines += ["press %d %d" % (code % 2, code) for code in (*range(18), 24, 256, 264, 32767, 65535)]
    lines += ["send 1", "take 1 1", "take 0 1", "take 0 2", "end"]
    case("duel_refused", "every code up to 17, takes of datagrams not there and of own ones", "\n".join(lines) + "\n")
    lines = ["RBT 1 speed 7 0"]
    lines += ["press %d %d" % (code % 2, code) for code in (*range(16), 256, 65535)]
    lines += ["send 0", "send 1", "take 0 0", "take 1 1", "take 0 1", "take 1 0", "take 1 2", "end"]
    case("speed_refused", "every code up to 15, takes of datagrams not there and of own ones", "\n".join(lines) + "\n")


def numbers():
    case("greatest_numbers", "match number, seed, code and datagram at their greatest",
         "RBT 1 duel 65535 4294967295\npress 1 65535\ntake 1 65535\nsend 1\ntake 0 0\nend\n")


def log_full():
    rec = Recorder("duel", 9, 0)
    for k in range(515):
        if k % 100 == 99:
            rec.press(0, 2)
        rec.send(k % 3 % 2)
    for seat, k in ((0, 510), (0, 511), (1, 511), (0, 512), (1, 512), (0, 499), (1, 509)):
        rec.take(seat, k)
    rec.send(0)
    rec.press(1, 1)
    case("log_full", "the log holds 512 sends, further ones are refused with 18", rec.text())


def sizes():
    """A text of 65,536 bytes, and the same with one byte more."""
    draws = Draws(21)
    rec = Recorder("duel", 21, 0x00200104)
    play(rec, draws, [Walker(draws), Walker(draws)], 100000, loss=5, delay=(0, 2), repeat=70, every=6, most=65200)
    left = 65536 - rec.size() - len("end\n")
    tens = next(t for t in range(left // 10 + 1) if (left - 10 * t) % 11 == 0)
    for i in range(tens):
        rec.press(i % 2, 1)
    for i in range((left - 10 * tens) // 11):
        rec.press(i % 2, 10)
    text = rec.text()
    assert len(text) == 65536
    case("bytes_65536", "a text of the greatest length; the log fills up", text)
    assert text.count("press 0 1\n") > 0
    text = text.replace("press 0 1\n", "press 0 10\n", 1)
    assert len(text) == 65537
    case("bytes_65537", "a text one byte too long, otherwise without fault: 28", text)


# Faults

HEAD = "RBT 1 duel 7 0\n"
TURNS = HEAD + "press 0 2\nsend 0\ntake 1 0\n"


def first_line_faults():
    rest = "press 0 2\nend\n"
    for name, shows, text in (
            ("first_empty_text", "no byte at all", ""),
            ("first_lone_newline", "byte 10 alone", "\n"),
            ("first_missing", "a turn in place of the first line", rest),
            ("first_unterminated", "the first line without byte 10", "RBT 1 duel 7 0"),
            ("first_version", "another version", "RBT 2 duel 7 0\n" + rest),
            ("first_game_word", "another game word", "RBT 1 Duel 7 0\n" + rest),
            ("first_leading_zero", "a seed with a leading zero", "RBT 1 duel 7 00\n" + rest),
            ("first_match_65536", "a match number of 17 bits", "RBT 1 speed 65536 0\n" + rest),
            ("first_seed_33_bits", "a seed of 2 to the 32", "RBT 1 duel 7 4294967296\n" + rest),
            ("first_trailing_space", "a space at the end", "RBT 1 duel 7 0 \n" + rest),
            ("first_double_space", "two spaces in a row", "RBT 1  duel 7 0\n" + rest),
            ("first_crlf", "byte 13 before byte 10", "RBT 1 duel 7 0\r\npress 0 2\r\nend\r\n"),
            ("first_binary", "bytes that are no text", bytes([0, 255, 82, 66, 84, 32, 10, 13, 128, 10, 0]))):
        case(name, "24: " + shows, text)


def shape_faults():
    for name, shows, text in (
            ("line_unknown_word", "no such first word", TURNS + "pres 0 2\nend\n"),
            ("line_too_few_words", "a press without a code", TURNS + "press 0\nend\n"),
            ("line_too_many_words", "a send with three words", TURNS + "send 0 1\nend\n"),
            ("line_trailing_space", "a space at the end of a press", TURNS + "press 0 2 \nend\n"),
            ("line_double_space", "two spaces in a row", TURNS + "take  0 0\nend\n"),
            ("line_empty", "an empty line", TURNS + "\nend\n"),
            ("line_end_crlf", "byte 13 after end", TURNS + "end\r\n"),
            ("line_binary", "bytes that are no text", TURNS.encode() + b"send\x000\n\xff\xfe\n"),
            ("line_misshapen_open", "a misshapen line without byte 10", TURNS + "press 0"),
            ("line_after_end_misshapen", "a misshapen line after end", TURNS + "end\n\n")):
        case(name, "25: " + shows, text)


def number_faults():
    for name, shows, text in (
            ("number_seat_2", "seat 2", TURNS + "send 2\nend\n"),
            ("number_seat_empty", "an empty word for the seat", TURNS + "send \nend\n"),
            ("number_code_empty", "an empty word for the code", TURNS + "press 1 \nend\n"),
            ("number_code_65536", "a code of 17 bits", TURNS + "press 0 65536\nend\n"),
            ("number_k_65536", "a datagram's number of 17 bits", TURNS + "take 0 65536\nend\n"),
            ("number_leading_zero", "a code with a leading zero", TURNS + "press 0 02\nend\n"),
            ("number_crlf", "byte 13 at the end of a turn", TURNS + "send 0\r\nend\r\n"),
            ("number_huge", "more digits than any machine word holds",
             TURNS + "press 0 18446744073709551616184467440737095516160000000000\nend\n"),
            ("number_two_bad", "two bad numbers: the left one is told", TURNS + "press 2 65536\nend\n")):
        case(name, "26: " + shows, text)


def end_faults():
    draws = Draws(31)
    rec = Recorder("speed", 7, 31)
    play(rec, draws, [Dealer(draws, 30), Dealer(draws, 30)], 30, loss=20, delay=(1, 4))
    case("end_missing", "27: a match without end", rec.text(last=()))
    for name, shows, text in (
            ("end_missing_at_once", "nothing after the first line", HEAD),
            ("end_open_turn", "a turn without byte 10", TURNS + "press 1 1"),
            ("end_open_bad_number", "a turn with a bad number, without byte 10", TURNS + "press 2 1"),
            ("end_open", "end without byte 10", TURNS + "end"),
            ("end_then_turn", "a turn after end", TURNS + "end\npress 1 1\n"),
            ("end_then_bad_number", "a turn with a bad number after end", TURNS + "end\nsend 2\n"),
            ("end_twice", "end a second time", TURNS + "end\nend\n")):
        case(name, "27: " + shows, text)


def write():
    os.makedirs(FOLDER, exist_ok=True)
    for old in os.listdir(FOLDER):
        if old.endswith((".trace", ".report")):
            os.remove(os.path.join(FOLDER, old))
    total = 0
    for name, _, text in CASES:
        answer = b"".join(report(text))
        for ending, data in ((".trace", text), (".report", answer)):
            with open(os.path.join(FOLDER, name + ending), "wb") as file:
                file.write(data)
            total += len(data)
    with open(os.path.join(FOLDER, "list.txt"), "w") as file:
        file.writelines(name + "\n" for name, _, _ in CASES)
    with open(os.path.join(FOLDER, "README.md"), "w") as file:
        file.write("# Traces and the reports that they have to give\n\n"
                   "Written by `python3 tools/make_traces.py`; do not edit. `list.txt` has the names, one to a line.\n\n"
                   "| name | shows |\n|---|---|\n")
        file.writelines("| `%s` | %s |\n" % (name, shows) for name, shows, _ in CASES)
    with open(os.path.join(FOLDER, ".gitattributes"), "w") as file:
        file.write("# Byte for byte, on every machine.\n*.trace -text\n*.report -text\n")
    print("%d cases, %d bytes" % (len(CASES), total))


if __name__ == "__main__":
    matches()
    first_line_faults()
    shape_faults()
    number_faults()
    end_faults()
    assert len(set(name for name, _, _ in CASES)) == len(CASES)
    write()
