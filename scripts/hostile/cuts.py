#!/usr/bin/env python3
"""Cuts the power at each call of the marked lines of scripts, and again at each of the next calls. `scripts/cuts.sh` runs it.

usage: cuts.py [--only SCRIPT] [FIRST LAST [STEP]]      how many calls later the second cut comes: 1 to 80, each, where nothing is
said; and of the scripts this one alone, where one is named
ROWS names the program that runs rows.

Both words are tried at each call: that of which nothing lands of what is under way, and that of which every other sector does.
Of each run it is compared

- that its history is legal, and that both copies are alike at the end;
- that the group comes on at last wherever its making was answered `ok`;
- that each block which is read then holds its last write that was answered `ok`, or one that was asked for since.
"""

import os
import subprocess
import sys

from images import HERE, ROOT, Failed
from refusals import acknowledged, replies_of

ROWS = os.path.realpath(os.environ.get("ROWS", f"{ROOT}/crates/lvm_rows/out/lvm_rows"))
WORDS = ["0000000000000000", "5555555555555555"]
AT_ONCE = 400
# What a run gives back is kept for the next one, and isn't taken from the system page by page again.
KEEP = {"MALLOC_MMAP_THRESHOLD_": "1000000000", "MALLOC_TRIM_THRESHOLD_": "1000000000"}


class Case:
    """A script over disks: what is said of these, its lines, and which of them are marked."""

    def __init__(self, path):
        self.said, self.lines, self.marked = [], [], []
        with open(path, encoding="utf-8") as file:
            for line in file.read().split("\n"):
                if line[:2] in ("> ", "* "):
                    if line[0] == "*":
                        self.marked.append(len(self.lines))
                    self.lines.append(line[2:])
                elif line and not line.startswith(("#", "case")):
                    self.said.append(line)

    def text(self, cuts):
        plans = [f"plan {call} cut {word}" for call, word in cuts]
        return "\n".join(["case", *self.said, *plans, *(f"> {line}" for line in self.lines), "run", ""])

    def run(self, trials):
        """The answers of each run with cuts, and how it ended."""
        for at in range(0, len(trials), AT_ONCE):
            given = "".join(self.text(cuts) for cuts in trials[at : at + AT_ONCE])
            ended = subprocess.run([ROWS], input=given.encode(), stdout=subprocess.PIPE, env={**os.environ, **KEEP}, check=True)
            for printed in ended.stdout.decode().split("case\n")[1:]:
                lines = printed.split("\n")[:-1]
                yield lines[:-1], lines[-1]

    def replies(self, answers):
        """The answers, line by line of the script."""
        found, left, posts = [], list(answers), 0
        for line in self.lines:
            # A `wait` tells of each post since the last one, and then of itself.
            count = posts + 1 if line == "wait" else replies_of(line, left)
            found.append(left[:count])
            left = left[count:]
            posts = 0 if line == "wait" else posts + (found[-1] == ["posted"])
        if left or not all(found):
            raise Failed(f"answers that belong to no line: {answers}")
        return found


def see(case, replies, ending):
    """What is wanted of a run."""
    # (where copies move no case says which sectors are alike)
    says_alike = any(line.startswith("alike ") for line in case.said)
    if not ending.startswith("status ") or says_alike and not ending.endswith(", alike") or ", not " in ending:
        raise Failed(ending)
    last = max(k for k, line in enumerate(case.lines) if line.startswith("varyonvg"))
    made = replies[case.lines.index(next(line for line in case.lines if line.startswith("mkvg")))] == ["ok"]
    if made and replies[last] not in (["ok"], ["refused 3 GroupOn"]):
        raise Failed(f"the group doesn't come on: {replies[last]}")
    told = acknowledged(case.lines[:last], [answer for reply in replies[:last] for answer in reply])
    # (a second cut that comes late meets a read, behind which no group is on)
    on = made
    for line, reply in zip(case.lines[last:], replies[last:]):
        words = line.split()
        if words[0] != "rd":
            continue
        if reply[0].startswith("refused"):
            on = on and reply[0] != "refused 23 Dark"
            if on and told.volumes.get(words[1]):
                raise Failed(f"{line}: {reply[0]}")
            continue
        for k, answer in enumerate(reply):
            held, since = told.blocks.get((words[1], int(words[2]) + k), ("0" * 16, set()))
            if answer.split()[1] not in {held} | since:
                raise Failed(f"{line}: {answer}, not {held} nor one of {sorted(since)}")


def calls_of(case):
    """The calls of the disks at which a cut hits a marked line, and none before."""
    (answers, _), = case.run([[]])
    whole = case.replies(answers)
    found, first = [], 1
    while True:
        for k, (answers, ending) in enumerate(case.run([[(call, WORDS[0])] for call in range(first, first + AT_ONCE)])):
            replies = case.replies(answers)
            see(case, replies, ending)
            hit = next((at for at, (is_, was) in enumerate(zip(replies, whole)) if is_ != was), None)
            if hit is not None and hit in case.marked:
                found.append(first + k)
            elif hit is None or hit > max(case.marked):
                return found
        first += AT_ONCE


def cut(name, case, first, last, step=1):
    calls = calls_of(case)
    tried, twice = 0, 0
    for call in calls:
        for word in WORDS:
            trials = [[(call, word), (call + later, word)] for later in range(first, last + 1, step)]
            for cuts, (answers, ending) in zip(trials, case.run(trials)):
                try:
                    replies = case.replies(answers)
                    see(case, replies, ending)
                except Failed as failed:
                    raise Failed(f"{name}: cuts {cuts}: {failed}") from None
                tried += 1
                twice += sum("refused 23 Dark" in reply for reply in replies) > 1
    return f"{name}: {len(calls)} calls, two words, a second cut {first} to {last} calls later in steps of {step}: {tried} runs, in {twice} of which both cuts met a line"


def main(words):
    only = words[1] if words[:1] == ["--only"] else None
    distances = [int(word) for word in (words[2:] if only else words)] or [1, 80]
    folder = f"{HERE}/cuts"
    names = [name for name in sorted(os.listdir(folder)) if only in (None, name.removesuffix(".case"))]
    if not names:
        print(f"there is no script {only}", file=sys.stderr)
        return 2
    try:
        for name in names:
            print(cut(name.removesuffix(".case"), Case(f"{folder}/{name}"), *distances), flush=True)
    except Failed as failed:
        print(f"FAILED: {failed}", file=sys.stderr)
        return 1
    return 0


if __name__ == "__main__":
    sys.exit(main(sys.argv[1:]))
