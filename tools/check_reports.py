#!/usr/bin/env python3
"""Hold a replay program's reports against the filed ones, and against those of drawn traces.

Run from the repository:
     python3 tools/check_reports.py crates/replay/out/replay
     python3 tools/check_reports.py --random 300 crates/replay/out/replay

The words after the options are the program and its arguments. Each trace of crates/replay_cases/data goes to its
standard input, and what it prints has to be the report beside the trace, byte for byte. With --random N it is also
tried on N traces drawn from the seeds 1 to N (whole matches, and matches with a few bytes altered), whose reports
tools/replay_trace.py works out. The exit status is 0 if all agree.
"""
import os
import subprocess
import sys

from make_traces import FOLDER, Dealer, Draws, Recorder, Walker, play
from replay_trace import report


def drawn_trace(seed):
    draws = Draws(seed)
    game = ("duel", "speed")[draws.below(2)]
    rec = Recorder(game, draws.below(65536), draws.below(1 << 31) * 2 + draws.below(2))
    player = (lambda: Walker(draws, draws.below(100))) if game == "duel" else (lambda: Dealer(draws, draws.below(90)))
    low = draws.below(4)
    play(rec, draws, [player(), player()], 5 + draws.below(90), loss=draws.below(60), delay=(low, low + draws.below(12)),
         repeat=draws.below(80), burst=draws.below(3) * draws.below(5), uneven=draws.below(50), stray=draws.below(20))
    text = bytearray(rec.text().encode())
    if draws.percent(50):
        for _ in range(1 + draws.below(2)):
            alter(text, draws)
    return bytes(text)


def alter(text, draws):
    at = draws.below(len(text))
    what = draws.below(5)
    if what == 0:
        del text[at:]
    elif what == 1:
        text.insert(at, b" \n01259x\r"[draws.below(9)])
    elif what == 2:
        del text[at]
    elif what == 3:
        text[at] = b" \n01259x\r"[draws.below(9)]
    else:
        text.extend((b"end\n", b"\n", b"send 0\n", b"send", b"press 0 1")[draws.below(5)])
    if not text:
        text.extend(b"\n")


def printed(program, text):
    done = subprocess.run(program, input=text, stdout=subprocess.PIPE, check=False)
    return done.returncode, done.stdout


def filed():
    with open(os.path.join(FOLDER, "list.txt")) as names:
        for name in names.read().split():
            with open(os.path.join(FOLDER, name + ".trace"), "rb") as trace, \
                    open(os.path.join(FOLDER, name + ".report"), "rb") as wanted:
                yield name, trace.read(), wanted.read()


def drawn(count):
    for seed in range(1, count + 1):
        text = drawn_trace(seed)
        yield "drawn from seed %d" % seed, text, b"".join(report(text))


def main(args):
    count = 0
    if args[:1] == ["--random"]:
        count, args = int(args[1]), args[2:]
    if not args:
        sys.exit(__doc__)
    tried = wrong = 0
    for cases in (filed(), drawn(count)):
        for name, text, wanted in cases:
            status, found = printed(args, text)
            tried += 1
            if found != wanted or status != 0:
                wrong += 1
                print("differs (exit status %d): %s" % (status, name))
    print("%d traces, %d differ" % (tried, wrong))
    return 1 if wrong else 0


if __name__ == "__main__":
    sys.exit(main(sys.argv[1:]))
