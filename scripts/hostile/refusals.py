#!/usr/bin/env python3
"""What the program answers, and leaves on its images, where one of its calls is refused. `scripts/refusals.sh` runs it.

  allocations  each allocation of a run is refused in turn
  calls        each call on an image file fails in turn: once, from then on for that file, from then on for all, or half way
  deaths       the program ends at each call on an image file, and in the middle of each write
  loads        the same calls fail, or end the program, while `lvm load` goes on

After each run the images are looked at by runs to which nothing is refused: a group that was made comes on, and each block
holds its last write that was answered `ok`, or one that was asked for since.
"""

import os
import subprocess
import sys

from images import LVM, ROOT, Failed, Folder, made

sys.path.insert(0, f"{ROOT}/scripts")
from kill_load import GROUP, Words  # noqa: E402

SO = os.environ.get("REFUSE_SO", "")
COUNTS = "refuse.counts"
BLANK = bytes(2**23)


def run(folder, words, lines, refuse=None):
    """The answers to words and a script, the status, and how many calls of each kind there were."""
    counts = f"{folder.path}/{COUNTS}"
    said = {**os.environ, "LD_PRELOAD": SO, "REFUSE_COUNTS": counts}
    if refuse:
        said["REFUSE"] = refuse
    ended = subprocess.run(
        [LVM, *words],
        cwd=folder.path,
        env=said,
        input="".join(f"{line}\n" for line in lines).encode(),
        stdout=subprocess.PIPE,
        stderr=subprocess.PIPE,
        timeout=120,
    )
    folder.runs += 1
    with open(counts, encoding="utf-8") as file:
        found = {name: int(count) for name, count in (line.split() for line in file)}
    os.remove(counts)
    return ended.stdout.decode().split("\n")[:-1], ended.returncode, found


def fresh(folder, images):
    """Makes the files these images, whatever stands in them."""
    folder.images = []
    folder.put(images)


# ---- what a script asks for, and what a run of it has acknowledged


def replies_of(line, answers):
    """How many of the answers are the reply to a line."""
    words = line.split()
    if words[0] == "rd" and answers and not answers[0].startswith("refused"):
        return int(words[3])
    if words[0] == "wait":
        return next((k + 1 for k, answer in enumerate(answers) if answer == "ok" and k == len(answers) - 1), len(answers))
    return 1


class Acknowledged:
    """What the answers so far have acknowledged: the groups and volumes that are there or may be, and of each block what it
    holds and what it may hold since."""

    def __init__(self):
        self.group, self.volumes, self.blocks, self.posted = None, {}, {}, []

    def write(self, words, well):
        for k in range(int(words[3])):
            at, value = (words[1], int(words[2]) + k), f"{int(words[4], 16) + k:016x}"
            held, since = self.blocks.get(at, ("0" * 16, set()))
            self.blocks[at] = (value, set()) if well else (held, since | {value})

    def take(self, line, reply):
        """Takes the reply to a line; None where the run ended before it."""
        words, well = line.split(), reply == "ok"
        if words[0] == "mkvg" and well:
            self.group = words[words.index("-y") + 1]
        elif words[0] == "mklv" and (well or reply is None or not reply.startswith("refused")):
            self.volumes[words[words.index("-y") + 1]] = well
        elif words[0] == "mklv" and reply.split()[1] in ("9", "22"):
            self.volumes[words[words.index("-y") + 1]] = False
        elif words[0] == "wr" and not (reply or "").startswith(("refused 2 ", "refused 12 ")):
            self.write(words, well)
        elif words[0] == "post":
            if reply == "posted":
                self.posted.append(words)
            elif reply is None:
                self.write(words, False)


def acknowledged(lines, answers, before=None):
    """What the answers to a script acknowledge. `wait` stands last among the posts of a script, if it has any."""
    told, left = before or Acknowledged(), list(answers)
    for line in lines:
        if not left:
            told.take(line, None)
            continue
        if line == "wait":
            for words in told.posted:
                told.write(words, bool(left) and left[0] == "ok")
                left = left[1:]
            told.posted, left = [], left[1:]
            continue
        count = replies_of(line, left)
        told.take(line, left[0])
        left = left[count:]
    for words in told.posted:
        told.write(words, False)
    told.posted = []
    return told


def see_kept(folder, told, what):
    """That nothing which was acknowledged is lost."""
    if not told.group:
        return
    answers, _, _ = run(folder, ["script"], [f"varyonvg {told.group}", f"lsvg -l {told.group}"])
    if answers[:1] != ["ok"]:
        raise Failed(f"{what}: the group doesn't come on: {answers}")
    there = {answer.split()[0] for answer in answers[1:]}
    lost = [name for name, well in told.volumes.items() if well and name not in there]
    if lost or there - set(told.volumes):
        raise Failed(f"{what}: of the volumes {told.volumes} there are {there}")
    asked = [at for at in sorted(told.blocks) if at[0] in there]
    for _ in range(2):
        lines = [f"varyonvg {told.group}"] + [f"rd {volume} {block} 1" for volume, block in asked]
        answers, _, _ = run(folder, ["script"], lines)
        for (volume, block), answer in zip(asked, answers[1:]):
            held, since = told.blocks[(volume, block)]
            if answer not in {f"{block} {value}" for value in {held} | since}:
                raise Failed(f"{what}: block {block} of {volume} is {answer[:60]}, not {held} nor one of {sorted(since)}")
        if len(answers) != 1 + len(asked):
            raise Failed(f"{what}: {answers[:3]}")


# ---- allocations

MIRROR = [
    "mkvg -y datavg -s 1 hdisk0 hdisk1",
    "mklv -y lv00 -c 2 datavg 1",
    "wr lv00 255 256 00000000000000a0",
    "rd lv00 255 2",
    "rd lv00 510 2",
]
RESYNC = [
    "mkvg -y datavg -s 1 hdisk0 hdisk1",
    "mklv -y lv00 -c 1 -w a datavg 1",
    "mklvcopy lv00 2",
    *[f"post lv00 {256 * k} 1 {0x21 + k:016x}" for k in range(8)],
    "syncvg -l lv00",
    "wait",
    "lslv -m lv00",
    "rd lv00 1792 1",
]


def see_refused(answers, status, wanted, what):
    """The answers are the wanted ones, or a front of them and status 5; or the first that differs is the refusal."""
    if status == 5:
        if answers != wanted[: len(answers)]:
            raise Failed(f"{what}: status 5 after {answers}")
        return "status 5"
    if answers == wanted:
        if status:
            raise Failed(f"{what}: all is answered, with status {status}")
        return "the same answers"
    differs = next((answer for answer, want in zip(answers, wanted + [None] * len(answers)) if answer != want), None)
    if differs != "refused 29 Memory" or status != 1:
        raise Failed(f"{what}: {differs}, status {status}, {answers[:12]}")
    return "refused 29"


def allocations(folder):
    """A line for each run."""
    for name, words, lines, before in (
        ("a mirrored write, over files", ["script"], MIRROR, []),
        ("a resync beside posts, over files", ["script"], RESYNC, []),
        ("a mirrored write, in memory", ["sim", "2", "8"], MIRROR, []),
        ("a workload, in memory", ["weave", "3", "8", "16", "1000", "7"], [], []),
        ("a workload of threads, over files", ["load", "--own", "datavg", "lv00", "2", "2", "1"], [], MIRROR[:2]),
    ):
        if words[0] in words_of_the_program():
            yield refuse_allocations(folder, name, words, lines, before)


def words_of_the_program():
    """The first words that the program's help names."""
    text = subprocess.run([LVM, "--help"], stdout=subprocess.PIPE, check=True).stdout.decode()
    return {line.split()[0] for line in text.split("\n") if line.startswith("  ")}


def refuse_allocations(folder, name, words, lines, before):
    files = words[0] in ("script", "load")
    fresh(folder, [BLANK] * 2)
    images = made(folder, before + ["varyoffvg datavg"]) if before else folder.images
    fresh(folder, images)
    wanted, status, calls = run(folder, words, lines)
    if status:
        raise Failed(f"{name}: {wanted}, status {status}")
    ends = {}
    for k in range(1, calls["alloc"] + 1):
        fresh(folder, images)
        what = f"{name}, allocation {k}"
        answers, status, _ = run(folder, words, lines, f"alloc {k} once")
        end = see_refused(answers, status, wanted, what)
        ends[end] = ends.get(end, 0) + 1
        if files:
            told = acknowledged(before, ["ok"] * len(before))
            see_kept(folder, acknowledged(lines, answers, told), what)
    said = ", ".join(f"{count} {end}" for end, count in sorted(ends.items()))
    return f"allocations: {name}: {calls['alloc']} refused in turn: {said}"


# ---- calls on image files

BEFORE = [
    "mkvg -y datavg -s 1 hdisk0 hdisk1 hdisk2",
    "mklv -y lv00 -c 2 datavg 2",
    "wr lv00 0 8 0000000000000100",
    "wr lv00 250 12 0000000000000200",
]
DURING = [
    "varyonvg datavg",
    "rd lv00 0 2",
    "wr lv00 4 8 0000000000000300",
    "mklv -y lv01 -c 3 -w n datavg 1",
    "wr lv01 0 4 0000000000000400",
    "rd lv01 0 1",
    "wr lv00 300 2 0000000000000500",
    "mklvcopy lv00 3",
    "syncvg -l lv00",
    "wr lv00 0 1 0000000000000600",
    "rd lv00 0 1",
]
# What a line may be refused with where a call on an image fails: what it says of disks, and what follows from that.
MAY = {
    "varyonvg": {7, 9, 11},
    "rd": {2, 12, 20, 21, 22},
    "wr": {2, 12, 19, 21, 22},
    "mklv": {2, 9, 15, 22},
    "mklvcopy": {2, 9, 15, 16, 22},
    "syncvg": {2, 12, 21, 22, 28, 31},
}


def see_answers(lines, answers, status, what):
    left = list(answers)
    for line in lines:
        if not left:
            raise Failed(f"{what}: no answer to {line}")
        if left[0].startswith("refused") and int(left[0].split()[1]) not in MAY[line.split()[0]]:
            raise Failed(f"{what}: {line} is answered by {left[0]}")
        left = left[replies_of(line, left) :]
    refused = sum(answer.startswith("refused") for answer in answers)
    if left or status != int(refused > 0):
        raise Failed(f"{what}: status {status}, {left}")


def prepared(folder, disks=3):
    """Images with a group and what was written to it, and what they hold."""
    fresh(folder, [BLANK] * disks)
    answers, status, _ = run(folder, ["script"], BEFORE)
    if status:
        raise Failed(f"the images aren't made: {answers}")
    images = []
    for disk in range(disks):
        with open(folder.file(disk), "rb") as file:
            images.append(file.read())
    return images


def again(folder, images):
    fresh(folder, images)
    return acknowledged(BEFORE, ["ok"] * len(BEFORE))


def each_call(folder, hows, kinds, see):
    """Lets each call of these kinds go wrong in each of these ways."""
    images = prepared(folder)
    again(folder, images)
    wanted, status, counts = run(folder, ["script"], DURING)
    if status:
        raise Failed(f"nothing is refused: {wanted}, status {status}")
    done = {}
    for kind in kinds:
        for how in hows:
            for k in range(1, counts[kind] + 1):
                told = again(folder, images)
                what = f"{kind} {k} {how}"
                answers, status, _ = run(folder, ["script"], DURING, what)
                see(answers, status, what)
                see_kept(folder, acknowledged(DURING, answers, told), what)
                done[kind] = done.get(kind, 0) + 1
    return done


def numbered(done):
    return ", ".join(f"{count} of {kind}" for kind, count in done.items())


def calls(folder):
    done = each_call(
        folder,
        ["once", "gone", "lost"],
        ["open", "lock", "stat", "seek", "read", "write", "sync"],
        lambda answers, status, what: see_answers(DURING, answers, status, what),
    )
    halves = each_call(folder, ["half"], ["read", "write"], lambda answers, status, what: see_answers(DURING, answers, status, what))
    yield f"calls: that failed once, from then on for a file, or for all: {numbered(done)}; half way: {numbered(halves)}"


def see_death(answers, status, what):
    if status != 137:
        raise Failed(f"{what}: status {status}, {answers}")


def deaths(folder):
    done = each_call(folder, ["die"], ["any"], see_death)
    torn = each_call(folder, ["torn"], ["write"], see_death)
    yield f"deaths: the program ended at {numbered(done)}; in the middle of {numbered(torn)}"


# ---- loads

SEED = 7


class Load:
    """A load over a volume of one logical partition, its threads' requests drawn from the seed."""

    def __init__(self, name, copies, threads, requests, own):
        self.name, self.copies, self.threads, self.requests, self.own = name, copies, threads, requests, own
        self.words = ["load", *["--own"] * own, "datavg", "lv00", str(threads), str(requests), str(SEED)]

    def requests_of(self, client):
        """The writes of a client, None for a read: the first block, how many, and the first word."""
        words = Words(SEED + client)
        mine = self.requests // self.threads + (client <= self.requests % self.threads)
        for number in range(mine):
            at, count, kind = words.next(), words.next(), words.next()
            at = at % GROUP + GROUP * (client - 1) if self.own else at % 2048
            count = min(1 + count % 8, GROUP - at % GROUP)
            yield (at, count, (client << 32) + 8 * number) if self.own or kind % 2 else None

    def most_done(self, client, blocks, lost):
        """How many of a client's first requests may have been done, the blocks being so, but for so many in any place that
        were lost; None where the blocks show no front of them."""
        states = [(lost, [0] * len(blocks))]
        requests, best = list(self.requests_of(client)), None
        mine = range(GROUP * (client - 1), GROUP * client) if self.own else range(len(blocks))
        for number in range(len(requests) + 1):
            request, later = requests[number] if number < len(requests) else None, []
            for left, state in states:
                odd = [k for k in mine if blocks[k] != state[k]]
                if all(request and request[0] <= k < request[0] + request[1] and blocks[k] == request[2] + k - request[0] for k in odd):
                    best = number
                after = list(state)
                if request:
                    at, count, word = request
                    after[at : at + count] = range(word, word + count)
                    if left:
                        # (a write that was lost may have landed on any of its blocks)
                        later.append((left - 1, [blocks[k] if at <= k < at + count and blocks[k] == word + k - at else old for k, old in enumerate(state)]))
                later.append((left, after))
            states = later
        return best


LOADS = [
    Load("one thread that writes two copies", 2, 1, 8, True),
    Load("one thread that writes one copy", 1, 1, 6, True),
    Load("four threads that write two copies", 2, 4, 16, True),
    Load("one thread that reads and writes two copies", 2, 1, 12, False),
]


def counts_of(answers, what):
    names = ["begun", "done", "got", "lost", "refused", "unbegun"]
    if [answer.split()[0] for answer in answers] != names:
        raise Failed(f"{what}: answered {answers}")
    return {name: int(answer.split()[1]) for name, answer in zip(names, answers)}


def see_load(load, answers, status, what, how):
    """What a load over disks that fail is answered; how many requests were done and how many were lost, if it ran."""
    if how in ("die", "torn"):
        if status != 137 or answers:
            raise Failed(f"{what}: status {status}, {answers}")
        return None
    if answers and answers[0].startswith("refused"):
        if len(answers) != 1 or status != 1 or int(answers[0].split()[1]) not in MAY["varyonvg"]:
            raise Failed(f"{what}: {answers}, status {status}")
        return (0, 0)
    counts = counts_of(answers, what)
    landed = counts["done"] + counts["got"]
    if counts["begun"] + counts["unbegun"] != load.requests or landed + counts["lost"] + counts["refused"] != counts["begun"]:
        raise Failed(f"{what}: {counts}")
    if status != int(landed < load.requests):
        raise Failed(f"{what}: {counts}, status {status}")
    # Of two copies one is left where one disk fails.
    if landed < load.requests and load.copies > 1 and how != "lost":
        raise Failed(f"{what}: {counts}")
    return landed, counts["lost"] + counts["refused"]


def see_blocks(folder, load, ended, what):
    """The blocks show what was done; copies that aren't stale are alike."""
    lines = ["varyonvg datavg", "lslv -m lv00", "rd lv00 0 2048"]
    answers, status, _ = run(folder, ["script"], lines)
    if answers[:1] != ["ok"] or status or len(answers) != 2050:
        raise Failed(f"{what}: the group is {answers[:3]}")
    try:
        blocks = [int(answer.split()[1], 16) for answer in answers[2:]]
    except ValueError:
        raise Failed(f"{what}: a block that no write gives") from None
    landed, lost = ended or (0, 0)
    shown = [load.most_done(client, blocks, min(lost, 1) if load.threads == 1 else 0) for client in range(1, load.threads + 1)]
    if None in shown or sum(shown) < landed:
        raise Failed(f"{what}: {landed} were done, and the blocks show {shown}")
    places = answers[1].split()[1:]
    if len(places) == 4:
        contents = []
        for pp, disk in (places[:2], places[2:]):
            with open(f"{folder.path}/{disk}.img", "rb") as file:
                file.seek(512 * (4096 + 2048 * (int(pp) - 1)))
                contents.append(file.read(512 * 2048))
        if contents[0] != contents[1]:
            raise Failed(f"{what}: the copies differ")


def loads(folder):
    """A line for each load."""
    for load in LOADS:
        fresh(folder, [bytes(512 * 6144)] * 3)
        images = made(folder, ["mkvg -y datavg -s 1 hdisk0 hdisk1 hdisk2", f"mklv -y lv00 -c {load.copies} datavg 1", "varyoffvg datavg"])
        fresh(folder, images)
        answers, status, counts = run(folder, load.words, [])
        if status or see_load(load, answers, status, load.name, "once") != (load.requests, 0):
            raise Failed(f"{load.name}: {answers}, status {status}")
        see_blocks(folder, load, (load.requests, 0), load.name)
        failed, ended = {}, {}
        kinds = [(kind, how) for kind in ("open", "lock", "stat", "seek", "read", "write", "sync") for how in ("once", "gone", "lost")]
        kinds += [(kind, "half") for kind in ("read", "write")] + [("any", "die"), ("write", "torn")]
        for kind, how in kinds:
            for k in range(1, counts[kind] + 1):
                what = f"{load.name}, {kind} {k} {how}"
                fresh(folder, images)
                answers, status, _ = run(folder, load.words, [], f"{kind} {k} {how}")
                # (of more than one thread a run may make fewer calls than the one that was counted)
                if how in ("die", "torn") and status != 137 and load.threads > 1:
                    continue
                found = see_load(load, answers, status, what, how)
                see_blocks(folder, load, found, what)
                end = "ended" if found is None else "refused" if answers[0].startswith("refused") else "all done" if found[0] == load.requests else "some lost"
                ended[end] = ended.get(end, 0) + 1
                failed[kind] = failed.get(kind, 0) + 1
        yield f"loads: {load.name}: {numbered(failed)}: " + ", ".join(f"{count} {end}" for end, count in ended.items())


def main(words):
    tables = {"allocations": allocations, "calls": calls, "deaths": deaths, "loads": loads}
    folder = Folder()
    try:
        for word in words or list(tables):
            for line in tables[word](folder):
                print(line, flush=True)
    except Failed as failed:
        print(f"FAILED: {failed}", file=sys.stderr)
        return 1
    finally:
        folder.away()
    return 0


if __name__ == "__main__":
    sys.exit(main(sys.argv[1:]))
