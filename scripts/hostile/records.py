"""The records of docs/FORMATS.md, read and written apart from the program, and what `varyonvg` has to make of images.

The rules are written anew from docs/FORMATS.md and docs/COMMANDS.md, and share nothing with the program.
"""

import struct
from dataclasses import dataclass, field

SECTOR = 512
NOTE = 8
STATUS = (64, 128)
DESCRIPTOR = (512, 1664)
DATA = 4096
LAYOUT = {"status": (b"VS", STATUS, 31_740), "descriptor": (b"VD", DESCRIPTOR, 571_388)}
POLICIES = ("p", "s", "ps", "pr")


def area(sector):
    """The area of a disk that a sector is in."""
    if sector == NOTE:
        return "note"
    if 64 <= sector < 192:
        return "status"
    if 512 <= sector < 2816:
        return "descriptor"
    return "elsewhere" if sector < DATA else "data"


# ---- frames


def frame(kind, content, epoch, sequence):
    """The sectors of a record."""
    magic = LAYOUT[kind][0]
    payload = struct.pack(">I", len(content)) + content
    payload += bytes(-len(payload) % 496)
    return b"".join(
        magic + struct.pack(">HIQ", k, sequence, epoch) + payload[496 * k : 496 * k + 496] for k in range(len(payload) // 496)
    )


def read_slot(image, kind, slot):
    """The stamp and the content that a slot holds, if it holds a record."""
    magic, starts, most = LAYOUT[kind]
    at = starts[slot] * SECTOR
    head = image[at : at + SECTOR]
    if len(head) < SECTOR or head[:2] != magic or head[2:4] != b"\0\0":
        return None
    stamp = head[4:16]
    length = struct.unpack(">I", head[16:20])[0]
    sequence, epoch = struct.unpack(">IQ", stamp)
    if length > most or not sequence or not epoch:
        return None
    count = (length + 4 + 495) // 496
    payload = b""
    for k in range(count):
        sector = image[at + k * SECTOR : at + (k + 1) * SECTOR]
        if len(sector) < SECTOR or sector[:2] != magic or sector[2:4] != struct.pack(">H", k) or sector[4:16] != stamp:
            return None
        payload += sector[16:]
    if any(payload[4 + length :]):
        return None
    return (epoch, sequence), payload[4 : 4 + length]


# ---- contents


def is_name(text):
    return (
        1 <= len(text) <= 15
        and text[:1].isalpha()
        and all(byte < 128 and (chr(byte).isalnum() or byte == 95) for byte in text)
        and text[:5] != b"hdisk"
    )


def name_in(field_):
    """The name in sixteen bytes, if they are a name and zeros."""
    text = field_.rstrip(b"\0")
    return text.decode() if is_name(text) else None


@dataclass
class Volume:
    number: int
    copies: int
    mode: int
    policy: str
    lps: int
    name: str
    places: list = field(default_factory=list)  # for each logical partition its copies, each (disk, partition)


@dataclass
class Descriptor:
    id: int
    name: str
    mib: int
    quorum: bool
    even: bool
    big: bool
    members: list  # (disk, partitions, spare)
    volumes: list

    def votes(self):
        """The votes of each member."""
        disks = [row[0] for row in self.members]
        if len(disks) == 1:
            return {disks[0]: 2}
        if len(disks) == 2 and not self.even:
            return {disks[0]: 2, disks[1]: 1}
        return {disk: 1 for disk in disks}

    def is_enough(self, have):
        total = sum(self.votes().values())
        return 2 * have > total if self.quorum else have >= total


def encode_descriptor(group):
    """The bytes of a descriptor."""
    content = b"VGD2" if group.big else b"VGD1"
    content += struct.pack(">Q16sHBBHH12x", group.id, group.name.encode(), group.mib, group.quorum, group.even, len(group.members), len(group.volumes))
    content += b"".join(struct.pack(">HHB3x", *row) for row in group.members)
    for row in group.volumes:
        content += struct.pack(">HBBB3xI16s4x", row.number, row.copies, row.mode, POLICIES.index(row.policy), row.lps, row.name.encode())
    return content + b"".join(struct.pack(">HH", *place) for row in group.volumes for copies in row.places for place in copies)


def encode_status(status, big):
    """The bytes of a status of which no volume is dirty."""
    content = (b"VGS2" if big else b"VGS1") + struct.pack(">QHH", status.id, len(status.rows), 0)
    for disk, (missing, stale) in sorted(status.rows.items()):
        bits = bytearray(127)
        for pp in stale:
            bits[pp // 8] |= 1 << pp % 8
        content += struct.pack(">HBx127sx", disk, missing, bytes(bits))
    return content


class Reader:
    def __init__(self, content):
        self.content, self.at = content, 0

    def take(self, count):
        if self.at + count > len(self.content):
            raise ValueError
        self.at += count
        return self.content[self.at - count : self.at]

    def number(self, count, least=0, most=2**64 - 1):
        value = int.from_bytes(self.take(count), "big")
        if not least <= value <= most:
            raise ValueError
        return value

    def zeros(self, count):
        if any(self.take(count)):
            raise ValueError

    def name(self):
        name = name_in(self.take(16))
        if name is None:
            raise ValueError
        return name


def decode_descriptor(content):
    """The descriptor that these bytes are, if they are one."""
    try:
        return read_descriptor(Reader(content))
    except ValueError:
        return None


def read_descriptor(it):
    magic = it.take(4)
    if magic not in (b"VGD1", b"VGD2"):
        raise ValueError
    big = magic == b"VGD2"
    id_, name, mib = it.number(8, 1), it.name(), it.number(2, 1, 1024)
    if mib & (mib - 1):
        raise ValueError
    quorum, even = bool(it.number(1, 0, 1)), bool(it.number(1, 0, 1))
    count, volumes = it.number(2, 1, 128 if big else 32), it.number(2, 0, 511 if big else 255)
    if even and count != 2:
        raise ValueError
    it.zeros(12)
    members = []
    for _ in range(count):
        members.append((it.number(2, 0, 127), it.number(2, 1, 1016), bool(it.number(1, 0, 1))))
        it.zeros(3)
    if len({row[0] for row in members}) != count:
        raise ValueError
    rows, names, last = [], set(), 0
    for _ in range(volumes):
        number, copies, mode = it.number(2, last + 1, 511 if big else 255), it.number(1, 1, 3), it.number(1, 0, 2)
        policy = POLICIES[it.number(1, 0, 3)]
        it.zeros(3)
        lps, called = it.number(4, 1), it.name()
        it.zeros(4)
        if called in names:
            raise ValueError
        names.add(called)
        rows.append(Volume(number, copies, mode, policy, lps, called))
        last = number
    sizes, used = {row[0]: row[1] for row in members}, set()
    for row in rows:
        for _ in range(row.lps):
            copies = []
            for _ in range(row.copies):
                place = (it.number(2), it.number(2))
                if place[0] not in sizes or place[0] in {disk for disk, _ in copies} or place[1] >= sizes[place[0]] or place in used:
                    raise ValueError
                used.add(place)
                copies.append(place)
            row.places.append(copies)
    if it.at != len(it.content):
        raise ValueError
    return Descriptor(id_, name, mib, quorum, even, big, members, rows)


@dataclass
class Status:
    id: int
    rows: dict  # disk: (missing, the stale partitions)
    dirty: list


def decode_status(content):
    """The status that these bytes are, if they are one."""
    try:
        return read_status(Reader(content))
    except ValueError:
        return None


def read_status(it):
    version = {b"VGS1": 1, b"VGS2": 2, b"VGS3": 3}.get(it.take(4))
    if version is None:
        raise ValueError
    id_, count, big = it.number(8, 1), it.number(2, 1, 32 if version == 1 else 128), it.number(2, 0, int(version == 3))
    if version == 3 and not big and count > 32:
        raise ValueError
    rows, last = {}, -1
    for _ in range(count):
        disk, missing = it.number(2, last + 1, 127), bool(it.number(1, 0, 1))
        it.zeros(1)
        bits = it.take(127)
        it.zeros(1)
        rows[disk] = (missing, {k for k in range(1016) if bits[k // 8] >> (k % 8) & 1} if any(bits) else set())
        last = disk
    dirty = []
    if version == 3:
        for _ in range(it.number(2, 1, 511)):
            dirty.append(it.number(2, (dirty or [0])[-1] + 1, 511))
    if it.at != len(it.content):
        raise ValueError
    return Status(id_, rows, dirty)


def in_slot(image, kind, slot):
    """The stamp and the content of the record in a disk's slot, if there is one."""
    held = read_slot(image, kind, slot)
    value = held and (decode_descriptor if kind == "descriptor" else decode_status)(held[1])
    return (held[0], value) if value else None


def newest(image, kind):
    """The stamp, the content and the slot of a disk's newest record, if it has one."""
    if len(image) // SECTOR < DATA:
        return None
    found = [(it[0], -slot, it[1]) for slot in (0, 1) if (it := in_slot(image, kind, slot))]
    if not found:
        return None
    stamp, slot, value = max(found, key=lambda it: it[:2])
    return stamp, value, -slot


def note_of(image):
    """What a disk's note names: (volume, track group) each."""
    sector = image[NOTE * SECTOR : (NOTE + 1) * SECTOR]
    if len(image) // SECTOR < DATA or sector[:8] != sector[504:]:
        return []
    entries = [struct.unpack(">HHI", sector[at : at + 8]) for at in range(8, 504, 8)]
    return [(volume, group) for volume, zeros, group in entries if volume and not zeros]


# ---- what varyonvg makes of images


@dataclass
class Wanted:
    """What `varyonvg` has to answer, and where that is `ok` what it leaves."""

    answer: str
    group: Descriptor = None
    status: Status = None
    answering: list = None
    data: dict = None  # disk: {first sector: bytes} that is copied there


def newest_of(found):
    """The record of the greatest stamp, of the lowest disk where several have it."""
    return max(found.items(), key=lambda it: (it[1][0], -it[0]))[1]


def varyon(images, name, moment):
    """What `varyonvg NAME` has to make of these images, one for each disk, at a moment of the clock."""
    descriptors = {disk: it for disk, image in enumerate(images) if (it := newest(image, "descriptor"))}
    statuses = {disk: it for disk, image in enumerate(images) if (it := newest(image, "status"))}
    ids = {it[1].id for it in descriptors.values() if it[1].name == name}
    groups = {id_: group_of(images, descriptors, statuses, id_) for id_ in ids}
    if not any(status for _, _, status in groups.values()):
        return Wanted("refused 11 NoRecord")
    if len(ids) > 1:
        return Wanted("refused 10 Ambiguous")
    group, voters, status = groups[ids.pop()]
    votes = group.votes()
    have, total = sum(votes[disk] for disk in voters), sum(votes.values())
    if not group.is_enough(have):
        return Wanted(f"refused 7 NoQuorum {have} {total}")
    seen = max(it[0][0] for found in (descriptors, statuses) for it in found.values() if it[1].id == group.id)
    if moment <= seen:
        return Wanted(f"refused 8 ClockBack {seen}")
    status = renewed(group, voters, status)
    return Wanted("ok", group, status, voters, copied(images, group, voters, status))


def group_of(images, descriptors, statuses, id_):
    """The newest descriptor of a group, its members that answer, and the newest status among them."""
    group = newest_of({disk: it for disk, it in descriptors.items() if it[1].id == id_})[1]
    voters = [
        disk
        for disk, partitions, _ in group.members
        if disk in descriptors
        and descriptors[disk][1].id == id_
        and len(images[disk]) // SECTOR >= DATA + 2048 * group.mib * partitions
    ]
    found = {disk: statuses[disk] for disk in voters if disk in statuses and statuses[disk][1].id == id_}
    return group, voters, newest_of(found)[1] if found else None


def renewed(group, voters, status):
    """The status that is written: copies on members that don't answer are stale where another one is fresh."""
    rows = {disk: (disk not in voters, set(status.rows.get(disk, (False, set()))[1])) for disk, _, _ in group.members}
    for volume in group.volumes:
        for copies in volume.places:
            if any(disk in voters and pp not in rows[disk][1] for disk, pp in copies):
                for disk, pp in copies:
                    if disk not in voters:
                        rows[disk][1].add(pp)
    passive = {volume.number for volume in group.volumes if volume.mode == 2}
    return Status(group.id, rows, [number for number in status.dirty if number in passive])


def copied(images, group, voters, status):
    """What is copied: the track groups that notes name, from the first fresh copy that answers to the others."""
    named = {it for disk in voters for it in note_of(images[disk])}
    data = {}
    for volume in group.volumes:
        for lp, copies in enumerate(volume.places):
            fresh = [(disk, pp) for disk, pp in copies if disk in voters and pp not in status.rows[disk][1]]
            for k in range(8 * group.mib):
                if volume.mode == 1 and len(fresh) > 1 and (volume.number, 8 * group.mib * lp + k) in named:
                    at = [(disk, DATA + 2048 * group.mib * pp + 256 * k) for disk, pp in fresh]
                    source = images[at[0][0]][at[0][1] * SECTOR : (at[0][1] + 256) * SECTOR]
                    for disk, first in at[1:]:
                        data.setdefault(disk, {})[first] = source
    return data


def listing(wanted, disk):
    """The line of `lspv` for a disk once the group is on."""
    row = next((row for row in wanted.group.members if row[0] == disk), None)
    if row is None:
        return f"refused 5 NoDisk hdisk{disk}"
    used = {pp for volume in wanted.group.volumes for copies in volume.places for at, pp in copies if at == disk}
    missing, stale = wanted.status.rows[disk]
    state = "missing" if missing else "active"
    return f"hdisk{disk} {wanted.group.name} {state} pps {row[1]} free {row[1] - len(used)} stale {len(stale & used)}"
