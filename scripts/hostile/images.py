#!/usr/bin/env python3
"""Bad images: brings a group on over image files of which bytes were changed, and compares what the program answers and
writes with what records.py says.

usage: images.py [--bits] [rows] [flips] [torn] [lengths] [notes] [random] [largest]      without a name: all of them
LVM names the program; ROWS another folder whose stdin and stdout have the rows.

  rows    the cases of the folder rows: a group is made, and brought on over its images with one edit after the other
  flips   each byte of the sectors that hold records of a group of three disks is turned over, one after the other; and so
          is each other byte below the data, those of one place in each sector at once, and each other sector of the first
          disk's record areas, one after the other; with --bits each of the eight bits of a byte too
  torn    each set of the sectors of a record's write, on each disk of a group of eight
  lengths each front of the write of a record of each length, and all of it but one sector, on a group of one disk
  notes   notes that name volumes and track groups at the limits of both
  random  bytes that are drawn, over the sectors that hold records
  largest groups of as many members, partitions and volumes as there may be
"""

import os
import random
import shutil
import subprocess
import sys
import tempfile
import time

import records
from records import DATA, DESCRIPTOR, NOTE, SECTOR, STATUS

HERE = os.path.dirname(os.path.abspath(__file__))
ROOT = os.path.dirname(os.path.dirname(HERE))
LVM = os.path.realpath(os.environ.get("LVM", f"{ROOT}/crates/lvm/out/lvm"))
ROWS = os.environ.get("ROWS", f"{HERE}/rows")
# How many images a program is asked about before the next one begins, and how many bytes are compared at once.
ASKED = 1000
# The sectors of the record areas.
AREAS = {NOTE} | set(range(64, 192)) | set(range(512, 2816))
CHUNK = 128 * SECTOR


class Failed(Exception):
    pass


class Front:
    """What stands first in an image, behind which are zeros."""

    def __init__(self, data, behind):
        self.data, self.behind = data, behind

    def __len__(self):
        return len(self.data) + self.behind

    def __getitem__(self, part):
        first, last, _ = part.indices(len(self))
        found = self.data[first:last]
        return found + bytes(last - first - len(found))


class Folder:
    """A folder of image files, what stands in them, and a program that has them open. Behind what is told of each image
    there may be zeros, which aren't looked at."""

    def __init__(self):
        memory = "/dev/shm"
        self.path = tempfile.mkdtemp(dir=memory if os.path.isdir(memory) else None)
        self.images = []
        self.runs = 0
        self.live = None
        self.asked = 0
        self.rooms = {}
        self.behind = 0

    def away(self):
        self.end()
        shutil.rmtree(self.path)

    def file(self, disk):
        return f"{self.path}/hdisk{disk}.img"

    def put(self, images):
        """Makes the files these images, by writing the sectors that differ."""
        if [len(image) for image in images] != [len(image) for image in self.images]:
            self.end()
        for disk in range(max(len(images), len(self.images))):
            if disk >= len(images):
                os.remove(self.file(disk))
            elif disk >= len(self.images) or len(images[disk]) != len(self.images[disk]):
                with open(self.file(disk), "wb") as file:
                    file.write(images[disk])
                    file.truncate(len(images[disk]) + self.behind)
            elif images[disk] != self.images[disk]:
                with open(self.file(disk), "r+b") as file:
                    for sector in changed(self.images[disk], images[disk]):
                        file.seek(sector * SECTOR)
                        file.write(images[disk][sector * SECTOR : (sector + 1) * SECTOR])
        self.images = list(images)

    def look(self):
        """Reads what stands in the files."""
        before, self.images = self.images, []
        while os.path.exists(self.file(len(self.images))):
            disk = len(self.images)
            with open(self.file(disk), "rb") as file:
                count = os.fstat(file.fileno()).st_size - self.behind
                room = self.rooms.setdefault((disk, count), bytearray(count))
                file.readinto(room)
            # (what is as it was stays one value, so that it is compared at once)
            old = before[disk] if disk < len(before) else None
            self.images.append(old if room == old else bytes(room))

    def run(self, lines):
        """The answers of a run of its own to a script, and its status; what it leaves stands in `images`."""
        self.end()
        ended = subprocess.run(
            [LVM, "script"],
            cwd=self.path,
            input="".join(f"{line}\n" for line in lines).encode(),
            stdout=subprocess.PIPE,
            stderr=subprocess.PIPE,
            timeout=60,
        )
        self.runs += 1
        self.look()
        return ended.stdout.decode().split("\n")[:-1], ended.returncode

    def ask(self, lines):
        """The answers to lines of one reply each, by a program that goes on; what they leave stands in `images`."""
        if self.live and self.asked == ASKED:
            self.end()
        if not self.live:
            self.live = subprocess.Popen([LVM, "script"], cwd=self.path, stdin=subprocess.PIPE, stdout=subprocess.PIPE)
            self.asked = 0
        self.asked += 1
        self.runs += 1
        self.live.stdin.write("".join(f"{line}\n" for line in lines).encode())
        self.live.stdin.flush()
        answers = [self.live.stdout.readline().decode() for _ in lines]
        if not answers[-1].endswith("\n"):
            raise Failed(f"the program ended: {answers}, status {self.live.wait()}")
        self.look()
        return [answer[:-1] for answer in answers]

    def end(self):
        """Ends the program that has the files open."""
        if self.live:
            self.live.stdin.close()
            rest, status = self.live.stdout.read(), self.live.wait()
            self.live = None
            if rest or status > 1:
                raise Failed(f"the program ends with status {status}, and says {rest[:100]}")


def changed(before, after):
    """The sectors in which two images of one length differ."""
    if before is after:
        return []
    found = []
    for at in range(0, len(before), CHUNK):
        old, new = before[at : at + CHUNK], after[at : at + CHUNK]
        if old != new:
            found += [(at + k) // SECTOR for k in range(0, len(old), SECTOR) if old[k : k + SECTOR] != new[k : k + SECTOR]]
    return found


def edited(image, at, data):
    return image[:at] + data + image[at + len(data) :]


def blank(folder, disks, sectors):
    folder.put([bytes(SECTOR * sectors)] * disks)


def made(folder, lines):
    """The images that a script leaves, each line of which is answered well."""
    answers, status = folder.run(lines)
    if status or any(answer.startswith("refused") for answer in answers):
        raise Failed(f"the images aren't made: {answers}")
    return folder.images


# ---- what the program has to make of images


def blocks_of(images, wanted, volume, block):
    """What a read of a block may give: what stands on the copies that can be used."""
    row = next((row for row in wanted.group.volumes if row.name == volume), None)
    if row is None:
        return {"refused 12 NoVolume"}
    size = 2048 * wanted.group.mib
    found = set()
    for disk, pp in row.places[block // size]:
        missing, stale = wanted.status.rows[disk]
        if not missing and pp not in stale:
            at = (DATA + size * pp + block % size) * SECTOR
            found.add(shown(block, images[disk][at : at + SECTOR]))
    return found or {f"refused 21 NoFresh {block // size + 1}"}


def shown(block, content):
    word = content[:8]
    return f"{block} {word.hex() if content == word * 64 else content.hex()}"


def judge(folder, images, name="datavg", volume="lv00"):
    """Brings the group on over these images, and compares the answers and what stands afterwards with what is wanted."""
    folder.put(images)
    whole = [Front(image, folder.behind) for image in images]
    wanted = records.varyon(whole, name, time.time_ns() // 1000)
    disks = range(len(images))
    # An edit may have renamed the group in its newest descriptor, by which it is on then.
    called = wanted.group.name if wanted.answer == "ok" else name
    lines = [f"varyonvg {name}"] + [f"lspv hdisk{disk}" for disk in disks] + [f"rd {volume} 0 1", f"varyoffvg {called}"]
    answers = folder.ask(lines)
    after = folder.images
    if answers[0] != wanted.answer:
        raise Failed(f"answered {answers[0]}, not {wanted.answer}")
    if wanted.answer != "ok":
        if answers[1:] != ["refused 2 NoGroup"] * (len(images) + 2):
            raise Failed(f"after a refusal: {answers}")
        if after != list(images):
            raise Failed("a refused varyonvg wrote")
        return wanted.answer
    listed = [records.listing(wanted, disk) for disk in disks]
    if answers[1:-2] != listed:
        raise Failed(f"listed {answers[1:-2]}, not {listed}")
    see_images(images, after, wanted)
    read = blocks_of([Front(image, folder.behind) for image in after], wanted, volume, 0)
    if answers[-2] not in read:
        raise Failed(f"read {answers[-2][:80]}, not one of {read}")
    if answers[-1] != "ok":
        raise Failed(f"varied off: {answers[-1]}")
    return "ok"


def see_images(before, after, wanted):
    """What a varyonvg that was answered ok leaves on each disk."""
    for disk, (old, new) in enumerate(zip(before, after)):
        if disk not in wanted.answering:
            if old != new:
                raise Failed(f"hdisk{disk} doesn't answer and was written")
            continue
        touched = changed(old, new)
        copied = set()
        for first, found in wanted.data.get(disk, {}).items():
            if new[first * SECTOR : first * SECTOR + len(found)] != found:
                raise Failed(f"the data of hdisk{disk} from sector {first} on")
            copied |= set(range(first, first + len(found) // SECTOR))
        others = [sector for sector in touched if sector >= DATA and sector not in copied]
        if others:
            raise Failed(f"the data of hdisk{disk}: sectors {others[-3:]}")
        see_records(disk, old, new, wanted, [sector for sector in touched if sector < DATA])


def see_records(disk, old, new, wanted, touched):
    """That its records are the new ones, each in the slot that didn't hold the newest, and that nothing else was written."""
    may = {NOTE}
    for kind, starts, value in (("descriptor", DESCRIPTOR, wanted.group), ("status", STATUS, wanted.status)):
        was = records.newest(old, kind)
        slots = [slot for slot in (0, 1) if not was or slot != was[2]]
        found = [(slot, it) for slot in slots if (it := records.in_slot(new, kind, slot)) and it[1] == value]
        if not found:
            raise Failed(f"the {kind} of hdisk{disk} isn't {value} in a slot of {slots}")
        slot, (stamp, _) = found[0]
        # (a record of another group may have any stamp, since bytes of it were turned over)
        if was and was[1].id == value.id and stamp <= was[0]:
            raise Failed(f"the {kind} of hdisk{disk} is older than what was there")
        may |= set(range(starts[slot], starts[slot] + (1152 if kind == "descriptor" else 64)))
    if records.note_of(new):
        raise Failed(f"the note of hdisk{disk} names {records.note_of(new)}")
    others = [sector for sector in touched if sector not in may]
    if others:
        raise Failed(f"hdisk{disk} was written in sectors {others[:3]}")


# ---- the tables


def counted(counts):
    return ", ".join(f"{number} {answer}" for answer, number in sorted(counts.items(), key=lambda it: -it[1])[:12])


class Table:
    """Counts the answers of a table, and says at which trial it failed."""

    def __init__(self, name, folder):
        self.name, self.folder, self.counts, self.tried = name, folder, {}, 0

    def judge(self, what, images, name="datavg", volume="lv00"):
        try:
            answer = judge(self.folder, images, name, volume)
        except Failed as failed:
            raise Failed(f"{self.name}: {what}: {failed}") from None
        answer = " ".join(answer.split()[:3])
        self.counts[answer] = self.counts.get(answer, 0) + 1
        self.tried += 1
        return answer

    def told(self, of):
        return f"{self.name}: {self.tried} {of}: {counted(self.counts)}"


def three(folder):
    """A group of three disks with a mirrored volume, whose two copies differ in its second track group."""
    blank(folder, 3, 6144)
    images = made(
        folder,
        [
            "mkvg -y datavg -s 1 hdisk0 hdisk1 hdisk2",
            "mklv -y lv00 -c 2 datavg 1",
            "wr lv00 0 2 00000000000000a0",
            "wr lv00 256 2 00000000000000b0",
            "varyoffvg datavg",
        ],
    )
    word = bytes(7) + b"\xcc"
    return [images[0], edited(images[1], (DATA + 256) * SECTOR, word * 64), images[2]]


def looked_at(image):
    """The sectors of a disk that hold its note and its records."""
    found = [NOTE]
    for kind, starts in (("descriptor", DESCRIPTOR), ("status", STATUS)):
        for slot in (0, 1):
            held = records.read_slot(image, kind, slot)
            if held:
                found += range(starts[slot], starts[slot] + (len(held[1]) + 499) // 496)
    return found


def flips(folder, bits):
    images = three(folder)
    table, places = Table("flips", folder), 0
    masks = [255] + [1 << k for k in range(8)] if bits else [255]
    for disk, image in enumerate(images):
        for sector in looked_at(image):
            for at in range(sector * SECTOR, (sector + 1) * SECTOR):
                places += 1
                for mask in masks:
                    bad = edited(image, at, bytes([image[at] ^ mask]))
                    table.judge(f"hdisk{disk}, byte {at} of sector {sector}, {mask:02x}", images[:disk] + [bad] + images[disk + 1 :])
    told = table.told(f"runs, each with one of {places} bytes turned over")
    beside, others = Table("flips", folder), 0
    for offset in range(SECTOR):
        bad = []
        for image in images:
            left = set(range(DATA)) - set(looked_at(image))
            front = bytearray(image[: DATA * SECTOR])
            for sector in left:
                front[sector * SECTOR + offset] ^= 255
            others += len(left)
            bad.append(bytes(front) + image[DATA * SECTOR :])
        beside.judge(f"byte {offset} of each sector that holds nothing", bad)
    whole = Table("flips", folder)
    for sector in sorted(AREAS - set(looked_at(images[0]))):
        at = sector * SECTOR
        bad = edited(images[0], at, bytes(255 - byte for byte in images[0][at : at + SECTOR]))
        whole.judge(f"hdisk0, sector {sector} that holds nothing", [bad] + images[1:])
    for told_of in (beside, whole):
        if set(told_of.counts) != {"ok"}:
            raise Failed(f"flips: bytes that no rule looks at: {told_of.counts}")
    return "\n".join(
        [
            told,
            beside.told(f"runs, with {others} bytes that no rule looks at turned over"),
            whole.told("runs, each with one sector of the first disk's record areas that holds nothing turned over"),
        ]
    )


def eight(folder):
    """A group of eight disks, whose status and descriptor have three sectors each."""
    blank(folder, 8, DATA + 4 * 2048)
    lines = ["mkvg -y datavg -s 1 " + " ".join(f"hdisk{disk}" for disk in range(8)), "mklv -y lv00 -c 2 datavg 1", "wr lv00 0 1 00000000000000a0"]
    lines += [f"mklv -y lv{k:02} -w n datavg 1" for k in range(1, 27)]
    # It comes on once more, so that both slots of a status hold one.
    return made(folder, lines + ["varyoffvg datavg", "varyonvg datavg", "varyoffvg datavg"])


def torn(folder):
    """The write of a later record of each kind, of which some sectors have landed on one disk, and all on those before it."""
    before = eight(folder)
    table = Table("torn", folder)
    content = {kind: records.newest(before[0], kind) for kind in ("descriptor", "status")}
    for kind, starts in (("descriptor", DESCRIPTOR), ("status", STATUS)):
        (epoch, sequence), value, _ = content[kind]
        slot = records.newest(before[0], kind)[2]
        held = records.read_slot(before[0], kind, slot)[1]
        # The later record: a group whose first member is a spare, and a status by which the second copy of lv00 is stale.
        later = bytearray(held)
        later[52 if kind == "descriptor" else 16 + 132 + 4] |= 1
        sectors = records.frame(kind, bytes(later), epoch, sequence + 9)
        count = len(sectors) // SECTOR
        at = starts[1 - slot] * SECTOR
        for disk in range(8):
            for landed in range(2**count):
                images = []
                for other, image in enumerate(before):
                    for k in range(count):
                        if other < disk or other == disk and landed >> k & 1:
                            image = edited(image, at + k * SECTOR, sectors[k * SECTOR : (k + 1) * SECTOR])
                    images.append(image)
                table.judge(f"{kind}, hdisk{disk}, the sectors {landed:b} have landed", images)
    if set(table.counts) != {"ok"}:
        raise Failed(f"torn: {table.counts}")
    return table.told("writes of a record, of which some sectors have landed")


def long_descriptor(count, name):
    """A group of one disk of 1,016 partitions whose descriptor fills so many sectors, up to 25."""
    room = 496 * count - 4 - 56
    volumes = min(255, room // 36)
    group = records.Descriptor(50, name, 1, True, False, False, [(0, 1016, False)], [])
    left = list(range(1016))
    for number in range(1, volumes + 1):
        lps = 1 if number < volumes else 1 + min(len(left) - 1, (room - 36 * volumes) // 4)
        group.volumes.append(records.Volume(number, 1, 0, "p", lps, f"lv{number - 1:02}", [[(0, pp)] for pp in left[:lps]]))
        left = left[lps:]
    return records.encode_descriptor(group)


def long_status(count, stale):
    """A status of so many sectors, up to 9, by which the first partition of hdisk0 is stale, or isn't."""
    rows = min(32, (496 * count - 4 - 16) // 132)
    return records.encode_status(records.Status(50, {disk: (False, {0} if stale and disk == 0 else set()) for disk in range(rows)}, []), False)


def lengths(folder):
    """The write of a later record of each length, which is broken off: each front of it has landed, or all but one sector."""
    folder.put([])
    folder.behind = 2048 * 1016 * SECTOR
    table, told = Table("lengths", folder), []
    for kind, starts, most in (("descriptor", DESCRIPTOR, 25), ("status", STATUS, 9)):
        before = table.tried
        for count in range(1, most + 1):
            # The later descriptor gives the group another name; the later status calls a partition stale.
            contents = [long_descriptor(count, name) for name in ("datavg", "other")] if kind == "descriptor" else [long_status(count, it) for it in (False, True)]
            later = records.frame(kind, contents[1], 50, 9)
            if len(later) != count * SECTOR:
                raise Failed(f"lengths: a {kind} of {len(later)} bytes, not of {count} sectors")
            older = records.frame(kind, (long_descriptor(count + 1, "older") if kind == "descriptor" else long_status(count + 1, False)), 40, 3)
            for left in (b"", older):
                image = bytearray(DATA * SECTOR)
                image[starts[1] * SECTOR : starts[1] * SECTOR + len(left)] = left
                first = contents[0] if kind == "descriptor" else long_descriptor(2, "datavg")
                status = contents[0] if kind == "status" else long_status(1, False)
                for place, content, sequence, of in ((DESCRIPTOR[0], first, 1, "descriptor"), (STATUS[0], status, 2, "status")):
                    sectors = records.frame(of, content, 50, sequence)
                    image[place * SECTOR : place * SECTOR + len(sectors)] = sectors
                fronts = [set(range(k)) for k in range(count + 1)]
                for landed in fronts + [set(range(count)) - {k} for k in range(count - 1)]:
                    bad = bytearray(image)
                    for k in landed:
                        at = (starts[1] + k) * SECTOR
                        bad[at : at + SECTOR] = later[k * SECTOR : (k + 1) * SECTOR]
                    what = f"a {kind} of {count} sectors over {len(left)} bytes, {len(landed)} have landed"
                    name = "other" if kind == "descriptor" and len(landed) == count else "datavg"
                    if table.judge(what, [bytes(bad)], name) != "ok":
                        raise Failed(f"lengths: {what}: the group doesn't come on")
        told.append(f"{table.tried - before} writes of a {kind} of 1 to {most} sectors")
    folder.put([])
    folder.behind = 0
    return f"lengths: {', '.join(told)}, of which a front or all but one sector has landed: each came on"


def note(entries, begin, end):
    body = b"".join(v.to_bytes(2, "big") + z.to_bytes(2, "big") + g.to_bytes(4, "big") for v, z, g in entries)
    return begin.to_bytes(8, "big") + body + bytes(496 - len(body)) + end.to_bytes(8, "big")


def notes(folder):
    images = three(folder)
    table = Table("notes", folder)
    volumes, groups = [0, 1, 2, 9, 255, 256, 511, 65535], [0, 1, 2, 7, 8, 2**16, 2**32 - 1]
    entries = [(v, z, g) for v in volumes for z in (0, 1, 65535) for g in groups]
    lists = [[entry] for entry in entries]
    lists += [[(0, 0, 0)] * k + [(1, 0, 1)] for k in range(62)]
    lists += [[(1, 0, g) for g in range(k, k + 62)] for k in (0, 2, 8)]
    lists += [[(1, 0, 1)] * 62, [(65535, 65535, 2**32 - 1)] * 62]
    for named in lists:
        for begin, end in ((7, 7), (0, 0), (2**64 - 1, 2**64 - 1), (7, 8)):
            for disk in range(3):
                bad = edited(images[disk], NOTE * SECTOR, note(named, begin, end))
                table.judge(f"hdisk{disk}, {begin} {end}, {named[:2]}", images[:disk] + [bad] + images[disk + 1 :])
    if set(table.counts) != {"ok"}:
        raise Failed(f"notes: {table.counts}")
    return table.told("notes")


def drawn(folder, seed, count):
    """Up to eight bytes at a time, drawn from the bytes of the records, and sectors that are swapped."""
    images = three(folder)
    table, draw = Table("random", folder), random.Random(seed)
    values = [0, 1, 2, 3, 4, 127, 128, 254, 255]
    for k in range(count):
        bad = list(images)
        for _ in range(draw.randint(1, 8)):
            disk = draw.randrange(3)
            sector = draw.choice(looked_at(images[disk]))
            if draw.random() < 0.15:
                other = draw.choice(looked_at(images[disk]))
                taken = images[draw.randrange(3)][other * SECTOR : (other + 1) * SECTOR]
                bad[disk] = edited(bad[disk], sector * SECTOR, taken)
            else:
                at = sector * SECTOR + (draw.randrange(110) if draw.random() < 0.9 else draw.randrange(SECTOR))
                bad[disk] = edited(bad[disk], at, bytes([draw.choice(values)]))
        table.judge(f"seed {seed}, trial {k}", bad)
    return table.told(f"images, of which up to eight bytes or sectors were drawn from the seed {seed}")


# ---- the largest records


def largest_group(big):
    """A group of as many members, partitions and volumes as there may be, all partitions of which are used."""
    members, volumes = (128, 511) if big else (32, 255)
    group = records.Descriptor(50, "datavg", 1, True, False, big, [(disk, 1016, False) for disk in range(members)], [])
    places = [(k % members, k // members) for k in range(members * 1016)]
    for number in range(1, volumes):
        group.volumes.append(records.Volume(number, 1, 1, "p", 1, f"lv{number:03}", [[places[number - 1]]]))
    left = places[volumes - 1 :]
    copies = 2 if len(left) % 2 == 0 else 1
    pairs = [left[k : k + copies] for k in range(0, len(left), copies)]
    group.volumes.append(records.Volume(volumes, copies, 1, "p", len(pairs), "last", pairs))
    stale = {disk: (False, {0, 1015} if disk == 1 else set()) for disk in range(members)}
    return group, records.Status(50, stale, [])


def largest(folder):
    """Brings on the largest groups over sparse images, and compares the listings and the records that are written."""
    told = []
    for big in (False, True):
        group, status = largest_group(big)
        content, marks = records.encode_descriptor(group), records.encode_status(status, big)
        if records.decode_descriptor(content) != group or records.decode_status(marks) != status:
            raise Failed("largest: what is encoded isn't what is decoded")
        members, volumes = len(group.members), len(group.volumes)
        pps = 1016 * members
        for disk in range(members):
            with open(folder.file(disk), "wb") as file:
                file.truncate((DATA + 2048 * 1016) * SECTOR)
                file.seek(DESCRIPTOR[0] * SECTOR)
                file.write(records.frame("descriptor", content, 50, 1))
                file.seek(STATUS[1] * SECTOR)
                file.write(records.frame("status", marks, 50, 2))
        lines = ["varyonvg datavg", "lsvg datavg", "lspv hdisk1", f"lspv hdisk{members - 1}", "mklv -y more datavg 1", "rd last 0 1"]
        ended = subprocess.run([LVM, "script"], cwd=folder.path, input="\n".join(lines).encode(), stdout=subprocess.PIPE, check=False)
        wanted = ["ok", "VOLUME GROUP datavg", "PP SIZE 1", f"PVs {members}", "MISSING PVs 0", f"LVs {volumes}", f"PPs {pps}", "FREE PPs 0"]
        wanted += ["STALE PPs 2", f"VGDAs {members}", f"QUORUM {members // 2 + 1}", "hdisk1 datavg active pps 1016 free 0 stale 2"]
        wanted += [f"hdisk{members - 1} datavg active pps 1016 free 0 stale 0", f"refused 14 TooMany {volumes}", "0 " + "0" * 16]
        if ended.stdout.decode().split("\n")[:-1] != wanted:
            raise Failed(f"largest: {ended.stdout.decode()}")
        for disk in range(members):
            with open(folder.file(disk), "rb") as file:
                front = file.read(DATA * SECTOR)
            if records.read_slot(front, "descriptor", 1)[1] != content or records.read_slot(front, "status", 0)[1] != marks:
                raise Failed(f"largest: the records of hdisk{disk}")
            os.remove(folder.file(disk))
        told.append(f"{members} members of 1,016 partitions and {volumes} volumes, a descriptor of {len(content)} bytes and a status of {len(marks)}")
    return "largest: " + "; ".join(told)


# ---- the rows of the stored run


def cases(path):
    """The cases of lines, each by its name."""
    found = {}
    with open(path, encoding="utf-8") as file:
        for line in file.read().split("\n"):
            if line.startswith("case "):
                last = found.setdefault(line, [])
            elif found and line and not line.startswith("#"):
                last.append(line)
    return found


def patched(images, text):
    """The images with the edit that a line says."""
    verb, *words = text.split(" ")
    images = list(images)
    disk = int(words[0].removeprefix("hdisk"))
    image, numbers = images[disk], words[1:]
    if verb == "put":
        images[disk] = edited(image, int(numbers[0]) * SECTOR + int(numbers[1]), bytes.fromhex(numbers[2]))
    elif verb == "fill":
        images[disk] = edited(image, int(numbers[0]) * SECTOR, bytes.fromhex(numbers[2]) * SECTOR * int(numbers[1]))
    elif verb == "copy":
        first, count, to, at = int(numbers[0]), int(numbers[1]), int(numbers[2].removeprefix("hdisk")), int(numbers[3])
        images[to] = edited(images[to], at * SECTOR, image[first * SECTOR : (first + count) * SECTOR])
    elif verb == "resize":
        size = int(numbers[0]) * SECTOR
        images[disk] = image[:size] + bytes(max(0, size - len(image)))
    else:
        raise Failed(f"no edit: {text}")
    return images


def wrote(before, after):
    """Which areas of the disks differ."""
    areas = {records.area(sector) for old, new in zip(before, after) for sector in changed(old, new)}
    names = [name for name in ("note", "status", "descriptor", "data", "elsewhere") if name in areas]
    return "wrote " + (" ".join(names) or "nothing")


def row(folder, lines):
    """What a case prints that says `disks`, runs scripts and probes images, over files."""
    images, script, printed = None, [], []
    for line in lines:
        verb, _, rest = line.partition(" ")
        if verb == "disks":
            images = [bytes(SECTOR * int(sectors)) for sectors in rest.split()]
        elif verb == "sim":
            disks, mib = map(int, rest.split())
            images = [bytes(2**20 * mib)] * disks
        elif verb == ">":
            script.append(rest)
        elif verb in ("put", "fill", "copy", "resize"):
            images = patched(images, line)
        elif verb in ("run", "probe"):
            tried = images
            for edit in rest.split(", ") if verb == "probe" else []:
                tried = patched(tried, edit)
            folder.put(tried)
            answers, status = folder.run(script)
            if verb == "probe":
                printed.append(f"{rest}: {', '.join(answers)}; {wrote(tried, folder.images)}")
            else:
                refused = sum(answer.startswith("refused") for answer in answers)
                printed += answers + [f"status {status}, refused {refused}"]
                images, script = folder.images, []
        else:
            return None
    return printed


def rows(folder):
    given, wanted = cases(f"{ROWS}/stdin"), cases(f"{ROWS}/stdout")
    count, probes = 0, 0
    for name, lines in given.items():
        if not any(line.startswith("probe") for line in lines):
            continue
        printed = row(folder, lines)
        if printed is None:
            continue
        for said, want in zip(printed + [None], wanted[name] + [None]):
            if said != want:
                raise Failed(f"rows: {name}: {said}, not {want}")
        count += 1
        probes += sum(line.startswith("probe") for line in lines)
    return f"rows: {count} cases with {probes} edits of images, each answered as its row says"


def main(words):
    bits = "--bits" in words
    words = [word for word in words if word != "--bits"] or ["rows", "flips", "torn", "lengths", "notes", "random", "largest"]
    tables = {
        "rows": rows,
        "flips": lambda folder: flips(folder, bits),
        "torn": torn,
        "lengths": lengths,
        "notes": notes,
        "largest": largest,
        "random": lambda folder: drawn(folder, int(os.environ.get("SEED", "1")), int(os.environ.get("COUNT", "3000"))),
    }
    folder = Folder()
    try:
        for word in words:
            print(tables[word](folder), flush=True)
    except Failed as failed:
        print(f"FAILED: {failed}", file=sys.stderr)
        return 1
    finally:
        folder.away()
    return 0


if __name__ == "__main__":
    sys.exit(main(sys.argv[1:]))
