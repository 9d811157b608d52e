#!/usr/bin/env python3
"""Kills `lvm load --own` over image files at random moments, and looks at what it leaves.

    scripts/kill_load.py PROGRAM [ROUNDS [SEED]]

In each round, 200 where nothing else is said, a group of two fresh images and a mirrored volume are made, a load of eight
threads begins, and is ended by SIGKILL within two seconds. Then the group is varied on, and the volume is read.

A thread writes to a track group of its own, one request after the other, and begins a request only once the one before was
acknowledged. So the blocks of a thread are to be those of its first requests, however many, and of the next one any part.
Anything else is an acknowledged write that was lost. The two copies are to be equal. What the script can't see is the loss
of the request that was acknowledged last before the kill, where the next one had written nothing.

Its end is 0 where nothing was lost, and 1 else. The kernel goes on, so that no power cut is tried: `cut` of a script over
disks in memory does that.
"""
import os, random, re, signal, subprocess, sys, tempfile, time

THREADS = 8
LPS = 2
BLOCKS = 2048 * LPS
GROUP = 256
REQUESTS = 50_000
MUL = 6364136223846793005
INC = 11634580027462260723
MASK = (1 << 64) - 1


def output(state):
    shifted = (((state >> 18) ^ state) >> 27) & 0xFFFFFFFF
    turn = state >> 59
    return ((shifted >> turn) | (shifted << (32 - turn))) & 0xFFFFFFFF


class Words:
    """The generator of `rand_pcg` that a number seeds."""

    def __init__(self, seed):
        words, state = [], seed & MASK
        for _ in range(4):
            state = (state * MUL + INC) & MASK
            words.append(output(state))
        self.step = (words[2] | (words[3] << 32)) | 1
        self.state = ((words[0] | (words[1] << 32)) + self.step) & MASK
        self.state = (self.state * MUL + self.step) & MASK

    def next(self):
        state = self.state
        self.state = (state * MUL + self.step) & MASK
        return output(state)


def requests_of(client, seed):
    """The writes of a client: where each begins within its track group, how many blocks it has, and its first word."""
    words = Words(seed + client)
    for number in range(REQUESTS):
        at, count, _kind = words.next(), words.next(), words.next()
        at %= GROUP
        yield at, min(1 + count % 8, GROUP - at), (client << 32) + 8 * number


def front_of(client, seed, found):
    """How many whole requests the blocks show, or None where they show no front of them."""
    state = [0] * GROUP
    for number, (at, count, word) in enumerate(requests_of(client, seed)):
        odd = [k for k in range(GROUP) if found[k] != state[k]]
        if all(at <= k < at + count and found[k] == word + k - at for k in odd):
            return number
        for k in range(count):
            state[at + k] = word + k
    return None


class Lvm:
    def __init__(self, program, folder):
        self.program, self.folder = os.path.abspath(program), folder

    def run(self, words, script=""):
        return subprocess.run([self.program, *words], cwd=self.folder, input=script, capture_output=True, text=True)

    def script(self, *lines):
        ran = self.run(["script"], "\n".join(lines) + "\n")
        if ran.returncode:
            sys.exit(f"kill_load: {lines[0]}: {ran.stdout[:200]}{ran.stderr[:200]}")
        return ran.stdout.splitlines()

    def make(self):
        for disk in range(2):
            self.run(["image", str(disk), "8"])
        self.script("mkvg -y datavg -s 1 hdisk0 hdisk1", f"mklv -y lv00 -c 2 -w a datavg {LPS}", "varyoffvg datavg")

    def killed_load(self, seed, seconds):
        words = ["load", "--own", "datavg", "lv00", str(THREADS), str(REQUESTS), str(seed)]
        load = subprocess.Popen([self.program, *words], cwd=self.folder, stdout=subprocess.DEVNULL, stderr=subprocess.PIPE)
        time.sleep(seconds)
        ended = load.poll()
        if ended is not None:
            sys.exit(f"kill_load: the load has ended by itself: status {ended} {load.stderr.read()[:200]}")
        load.send_signal(signal.SIGKILL)
        load.wait()

    def blocks(self):
        lines = self.script("varyonvg datavg", *(f"rd lv00 {at} 1024" for at in range(0, BLOCKS, 1024)), "varyoffvg datavg")
        return [int(line.split()[1], 16) for line in lines if re.fullmatch(r"\d+ [0-9a-f]{16}", line)]

    def copies_are_equal(self):
        lines = self.script("varyonvg datavg", "lslv -m lv00", "varyoffvg datavg")
        for line in lines:
            found = re.fullmatch(r"\d+ (\d+) hdisk(\d+) (\d+) hdisk(\d+)", line)
            if found:
                one, first, other, second = map(int, found.groups())
                if self.partition(first, one) != self.partition(second, other):
                    return False
        return True

    def partition(self, disk, number):
        with open(f"{self.folder}/hdisk{disk}.img", "rb") as image:
            image.seek(512 * (4096 + 2048 * (number - 1)))
            return image.read(512 * 2048)


def main(program, rounds=200, seed=1):
    chance = random.Random(seed)
    shown, lost = 0, 0
    for k in range(rounds):
        with tempfile.TemporaryDirectory() as folder:
            lvm = Lvm(program, folder)
            lvm.make()
            lvm.killed_load(seed + k, chance.uniform(0.02, 2))
            blocks = lvm.blocks()
            if len(blocks) != BLOCKS:
                sys.exit(f"kill_load: {len(blocks)} blocks were read")
            for client in range(1, THREADS + 1):
                first = GROUP * ((client - 1) % (BLOCKS // GROUP))
                front = front_of(client, seed + k, blocks[first:first + GROUP])
                if front is None:
                    lost += 1
                    print(f"round {k}: client {client} has lost a write", flush=True)
                else:
                    shown += front
            if not lvm.copies_are_equal():
                lost += 1
                print(f"round {k}: the copies differ", flush=True)
    print(f"{rounds} kills, {shown} acknowledged requests shown, {lost} losses")
    return 1 if lost else 0


if __name__ == "__main__":
    if len(sys.argv) < 2:
        sys.exit(__doc__)
    sys.exit(main(sys.argv[1], *map(int, sys.argv[2:4])))
