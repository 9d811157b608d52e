#!/usr/bin/env python3
"""Random scripts in which copies move beside posts, failing disks and power cuts, and what another program answers.

    moves.py cases SEED COUNT                   writes the scripts as cases of lvm_rows
    moves.py compare SEED COUNT OTHER ANSWERS   runs them by OTHER, a program with the words of lvm, and compares
                                                what lvm_rows has printed; each that differs is printed
    moves.py run SEED COUNT OTHER PROGRAM       the same with what PROGRAM, an lvm, answers

A `wait` stands behind each `migratepv`: before each commit this program ends the posts that may end, which another one may leave for later.
"""
import random, subprocess, sys
from concurrent.futures import ThreadPoolExecutor

BLOCKS = [0, 1, 2, 7, 255, 256, 257, 511, 1023, 2046, 2047]
WORDS = ["0000000000000000", "5555555555555555", "ffffffffffffffff", "0000000000000007"]


class Script:
    def __init__(self, seed):
        self.draw = random.Random(seed)
        self.disks = self.draw.choice([2, 3, 3, 4, 4, 5])
        self.mib = self.draw.choice([6, 7, 8])
        self.lines = []
        self.names = ["lv00", "lv01", "lv02"]
        self.lps = {}
        self.word = 0

    def disk(self):
        return f"hdisk{self.draw.randrange(self.disks)}"

    def name(self):
        there = [n for n in self.names if n in self.lps]
        return self.draw.choice(there) if there and self.draw.random() < 0.99 else self.draw.choice(self.names)

    def range(self, name):
        lps = self.lps.get(name, 1)
        at = self.draw.choice(BLOCKS) + 2048 * self.draw.randrange(lps)
        return f"{at} {self.draw.choice([1, 1, 1, 2, 3])}"

    def next_word(self):
        self.word += 1
        return f"{self.word:016x}"

    def make(self):
        mode = self.draw.choice(["", " -w a", " -w p", " -w n"])
        policy = self.draw.choice(["", "", " -d s", " -d ps", " -d pr"])
        copies = self.draw.choice([1, 1, 2, 2, 2, 3])
        lps = self.draw.choice([1, 1, 2])
        name = self.draw.choice(self.names)
        self.lps.setdefault(name, lps)
        self.lines.append(f"mklv -y {name} -c {copies}{mode}{policy} datavg {lps}")

    def post(self):
        name = self.name()
        self.lines.append(f"post {name} {self.range(name)} {self.next_word()}")

    def request(self):
        name = self.name()
        if self.draw.random() < 0.5:
            self.post()
        elif self.draw.random() < 0.6:
            self.lines.append(f"wr {name} {self.range(name)} {self.next_word()}")
        else:
            self.lines.append(f"rd {name} {self.range(name)}")

    def move(self):
        for _ in range(self.draw.choice([0, 1, 1, 2, 3])):
            self.post()
        one, other = self.disk(), self.disk()
        if one == other and self.draw.random() < 0.9:
            other = f"hdisk{(int(one[5:]) + 1) % self.disks}"
        volume = f" -l {self.name()}" if self.draw.random() < 0.4 else ""
        self.lines.append(f"migratepv{volume} {one} {other}")
        self.lines.append("wait")

    def look(self):
        name = self.name()
        self.lines.append(self.draw.choice([f"lslv -m {name}", "lsvg datavg", "lsvg -l datavg", f"lspv {self.disk()}", f"rd {name} {self.range(name)}"]))

    def trouble(self):
        kind = self.draw.random()
        if kind < 0.45:
            self.lines.append(f"fail {self.disk()}")
        elif kind < 0.75:
            self.lines.append(f"heal {self.disk()}")
        else:
            self.lines.append(f"cut {self.draw.choice(WORDS)}")
            if self.draw.random() < 0.95:
                self.lines.append("varyonvg datavg")

    def group(self):
        kind = self.draw.random()
        if kind < 0.5:
            self.lines.append("varyoffvg datavg")
            self.lines.append("varyonvg datavg")
        elif kind < 0.8:
            self.lines.append("varyonvg datavg")
        else:
            self.lines.append(f"chvg -Q {self.draw.choice('yn')} datavg")

    def change(self):
        name = self.name()
        self.lines.append(self.draw.choice([
            f"syncvg -l {name}", "syncvg -v datavg", f"mklvcopy {name} {self.draw.choice([2, 2, 3])}",
            f"rmlvcopy {name} {self.draw.choice([1, 2])}", f"rmlv {name}", f"splitlvcopy -y lv02 {name} 1",
        ]))

    def turn(self):
        self.lines.append(self.draw.choice(["wait", f"step {self.draw.choice([1, 2, 3, 5, 9, 17])}"]))

    def text(self):
        members = " ".join(f"hdisk{d}" for d in range(self.disks))
        self.lines.append(f"mkvg -y datavg -s 1 {members}")
        for _ in range(self.draw.choice([1, 2, 2])):
            self.make()
        steps = [(self.request, 30), (self.move, 24), (self.look, 12), (self.trouble, 14), (self.group, 6), (self.change, 7), (self.turn, 10), (self.make, 3)]
        for _ in range(self.draw.randrange(8, 24)):
            self.draw.choices([s for s, _ in steps], [w for _, w in steps])[0]()
        self.lines.append("wait")
        for name in self.names:
            if name in self.lps:
                self.lines += [f"lslv -m {name}", f"rd {name} 0 3", f"rd {name} 255 3"]
        return self.lines


def scripts(seed, count):
    for k in range(count):
        script = Script(seed * 1_000_003 + k)
        yield script, script.text()


def cases(seed, count):
    for k, (script, lines) in enumerate(scripts(seed, count)):
        print(f"case {k}\nsim {script.disks} {script.mib}\ntable 64\npool 64\nentries 4096\nbytes 4194304")
        print("\n".join(f"> {line}" for line in lines))
        print("run")


def answered(text):
    """The answers of each case that lvm_rows has printed, without its last line."""
    found, now = {}, None
    for line in text.splitlines():
        if line.startswith("case "):
            now = found.setdefault(int(line[5:]), [])
        elif now is not None and not line.startswith("status "):
            now.append(line)
    return found


def answers_of(program, script, lines):
    run = subprocess.run([program, "sim", str(script.disks), str(script.mib)], input="\n".join(lines) + "\n", capture_output=True, text=True)
    return run.stdout.splitlines()


def compare(seed, count, other, mine):
    """`mine` tells the answers to a script by its number, or None where there are none."""

    def one(item):
        k, (script, lines) = item
        return k, lines, mine(k, script, lines), answers_of(other, script, lines)

    same = different = moved = 0
    words = {}
    with ThreadPoolExecutor(4) as pool:
        for k, lines, here, wanted in pool.map(one, enumerate(scripts(seed, count))):
            if here is None:
                continue
            for line in lines:
                words[line.split()[0]] = words.get(line.split()[0], 0) + 1
            moved += sum(1 for it in here if it.startswith("migrated ") and it != "migrated 0")
            if here == wanted:
                same += 1
                continue
            different += 1
            print(f"--- {k}\n" + "\n".join(lines) + f"\n  here   {here}\n  there  {wanted}")
    print(f"{same} same, {different} different; {moved} lines moved copies")
    print(", ".join(f"{n} {w}" for w, n in sorted(words.items(), key=lambda it: -it[1])))


if __name__ == "__main__":
    if len(sys.argv) == 4 and sys.argv[1] == "cases":
        cases(int(sys.argv[2]), int(sys.argv[3]))
    elif len(sys.argv) == 6 and sys.argv[1] == "compare":
        printed = answered(open(sys.argv[5], encoding="utf-8").read())
        compare(int(sys.argv[2]), int(sys.argv[3]), sys.argv[4], lambda k, script, lines: printed.get(k))
    elif len(sys.argv) == 6 and sys.argv[1] == "run":
        compare(int(sys.argv[2]), int(sys.argv[3]), sys.argv[4], lambda k, script, lines: answers_of(sys.argv[5], script, lines))
    else:
        sys.exit(__doc__)
