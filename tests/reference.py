"""Document 01's rules for headers, images, status bytes, flags and power-up, document 02's for mending, for what the digest covers, for
tags that must be understood, for erase counts, for an update there and back and for sealed headers, and the rules of the release sheet,
once more: written from the papers, with no code of the library.

The scripts in this folder compare what the library's programs print with what this module says.
"""
import hashlib
import re

HEADER = 256
MAGIC = bytes([0x43, 0x45, 0x52, 0x54])
LENGTHS = {0x0001: 4, 0x0002: 8, 0x0003: 32, 0x0020: 64, 0x0030: 2, 0x1000: 32}
DIGEST, OPTIONAL = 0x0003, 0x1000
# From here up a type that is not known is refused, and not skipped (document 02, five).
CRITICAL = 0x8000


class Refused(Exception):
    def __init__(self, number, place=0):
        super().__init__(f"refused {number} at {place}")
        self.number = number
        self.place = place


def little(data):
    return int.from_bytes(data, "little")


def tags(data):
    """Each tag of the header as place, type and length, of every type, up to the end; or Refused."""
    if len(data) < HEADER:
        raise Refused(16)
    h = data[:HEADER]
    p = 8
    while True:
        if p == HEADER:
            raise Refused(7, HEADER)
        if h[p] == 0xFF:
            p += 1
            continue
        if p + 1 == HEADER:
            raise Refused(4, p)
        kind = little(h[p : p + 2])
        if kind == 0:
            return
        if p + 4 > HEADER:
            raise Refused(4, p)
        length = little(h[p + 2 : p + 4])
        if p + 4 + length > HEADER:
            raise Refused(4, p)
        yield p, kind, length
        p += 4 + length


def walk(data):
    """A line for each call of the walker, up to the end or a refusal, and one more: asked again it says the same."""
    lines = []
    try:
        for place, kind, length in tags(data):
            lines.append(f"place {place} type {kind} length {length}")
        last = "end"
    except Refused as refused:
        last = str(refused)
    return "".join(line + "\n" for line in [*lines, last, last])


def read_header(data):
    """The values of the header, by name, or Refused."""
    if len(data) < HEADER:
        raise Refused(16)
    h = data[:HEADER]
    if h[:4] != MAGIC:
        raise Refused(2)
    size = little(h[4:8])
    if size == 0:
        raise Refused(3, 4)
    found = {}
    for p, kind, length in tags(h):
        if kind not in LENGTHS:
            if kind >= CRITICAL:
                raise Refused(18, p)
            continue
        if length != LENGTHS[kind]:
            raise Refused(5, p)
        if kind in found:
            raise Refused(6, p)
        found[kind] = h[p + 4 : p + 4 + length]
    for kind in sorted(LENGTHS):
        if kind != OPTIONAL and kind not in found:
            raise Refused(8, kind)
    return {
        "size": size,
        "version": little(found[0x0001]),
        "timestamp": little(found[0x0002]),
        "digest": found[DIGEST],
        "signature": found[0x0020],
        "auth": little(found[0x0030]),
        "hint": found.get(OPTIONAL),
    }


def write_header(h):
    """The header of these values: the tags in the table's order, the end, and FF up to 256."""
    values = {
        0x0001: h["version"].to_bytes(4, "little"),
        0x0002: h["timestamp"].to_bytes(8, "little"),
        DIGEST: h["digest"],
        0x0020: h["signature"],
        0x0030: h["auth"].to_bytes(2, "little"),
    }
    if h["hint"] is not None:
        values[OPTIONAL] = h["hint"]
    out = MAGIC + h["size"].to_bytes(4, "little")
    for kind in sorted(values):
        out += kind.to_bytes(2, "little") + len(values[kind]).to_bytes(2, "little") + values[kind]
    return (out + bytes(2)).ljust(HEADER, b"\xff")


def listing(data):
    """What the listing program prints."""
    try:
        h = read_header(data)
    except Refused as refused:
        return f"{refused}\n"
    lines = [f"{name} {h[name]}" for name in ("size", "version", "timestamp", "auth")]
    lines.append("hint " + ("no" if h["hint"] is None else "yes"))
    return "".join(line + "\n" for line in lines)


# ---- sealed headers (document 02, nine)

# Where the tags of the written form stand, with a hint, and where it ends (document 01, marked case 7).
WRITTEN = {8: 0x0001, 16: 0x0002, 28: 0x0003, 64: 0x0020, 132: 0x0030, 138: 0x1000}
HINT_AT, END_AT, FF_FROM = 138, 174, 176


def is_sealed(data):
    """Whether the profile holds of a header that reads: the six tags in the table's order, no padding, no other tag, FF from 176 on."""
    h = data[:HEADER]
    tags_there = {p: kind for p, kind, _ in tags(h)} == WRITTEN
    return tags_there and h[END_AT:FF_FROM] == bytes(2) and h[FF_FROM:] == b"\xff" * (HEADER - FF_FROM)


def read_sealed(data):
    """The values of a sealed header, or Refused: by the ordinary reader, or with 21."""
    h = read_header(data)
    differing = [p for p, (there, due) in enumerate(zip(data, write_header(h))) if there != due]
    if h["hint"] is None:
        # "Nothing earlier" is nothing before it, whatever differs behind.
        differing.append(HINT_AT)
    if differing:
        raise Refused(21, min(differing))
    return h


def write_sealed(h, out):
    """The output with the sealed header of these values in its first 256 bytes, or Refused."""
    if len(out) < HEADER:
        raise Refused(16)
    if h["size"] == 0:
        raise Refused(3, 4)
    if h["hint"] is None:
        raise Refused(21, HINT_AT)
    return write_header(h) + out[HEADER:]


def sealing(data):
    """What the program sealed_headers prints of a header."""
    try:
        read_sealed(data)
    except Refused as refused:
        return f"{refused}\n"
    return "sealed\n"


# ---- images


def digest_of(data, size):
    """What a header that reads has to state: the digest over its bytes before the digest tag, whatever they are, and then over the firmware
    (document 02, three)."""
    before = next(p for p, kind, _ in tags(data) if kind == DIGEST)
    return hashlib.sha256(data[:before] + data[HEADER : HEADER + size]).digest()


def geometry_fits(n, s):
    m = n - 1
    trailer = 1 + (m // 2 if m % 2 == 0 else m // 2 + 1)
    return 2 <= n <= 512 and 256 <= s <= 131072 and s % 256 == 0 and trailer <= s


def check_image(n, s, partition):
    """The header's values of a good image, or Refused."""
    if not geometry_fits(n, s) or len(partition) != n * s:
        raise Refused(1)
    h = read_header(partition)
    if h["size"] > (n - 1) * s - HEADER:
        raise Refused(3, 4)
    if digest_of(partition, h["size"]) != h["digest"]:
        raise Refused(9, HEADER)
    return h


def check_firmware(data):
    """The header's values of a good image in a file, whose bytes stand for the firmware sectors, or Refused."""
    h = read_header(data)
    if h["size"] > len(data) - HEADER:
        raise Refused(3, 4)
    if digest_of(data, h["size"]) != h["digest"]:
        raise Refused(9, HEADER)
    return h


# ---- the release sheet


def below(bits):
    """Decimal digits, leading zeros taken, of a number below 2^bits. A value that is not allowed has no reading."""

    def read(value):
        if re.fullmatch(b"[0-9]+", value):
            digits = value.lstrip(b"0") or b"0"
            if len(digits) <= 20 and int(digits) < 1 << bits:
                return [int(digits)]
        return []

    return read


def digits_of(count):
    """Hex digits, so many and in either case."""
    return lambda value: [bytes.fromhex(value.decode())] if re.fullmatch(b"[0-9a-fA-F]{%d}" % count, value) else []


def hint(value):
    return [None] if value == b"no" else digits_of(64)(value)


# How a line's value is read, and the type of the header that it is for.
SHEET = {
    b"version": (below(32), 0x0001),
    b"timestamp": (below(64), 0x0002),
    b"signature": (digits_of(128), 0x0020),
    b"auth": (below(16), 0x0030),
    b"hint": (hint, 0x1000),
}


def read_sheet(text):
    """What a release sheet states, by name, or Refused with the line; 105 has the type of what is missing there."""
    stated = {}
    for number, line in enumerate(text.split(b"\n"), 1):
        if line == b"" or line.startswith(b"#"):
            continue
        name, space, value = line.partition(b" ")
        if not space:
            raise Refused(101, number)
        if name not in SHEET:
            raise Refused(102, number)
        reading = SHEET[name][0](value)
        if not reading:
            raise Refused(103, number)
        if name in stated:
            raise Refused(104, number)
        stated[name] = reading[0]
    missing = [kind for name, (_, kind) in SHEET.items() if name not in stated]
    if missing:
        raise Refused(105, min(missing))
    return {name.decode(): value for name, value in stated.items()}


def make_image(sheet, firmware):
    """The image of a firmware with what a sheet states, or Refused."""
    if len(firmware) == 0 or len(firmware) >= 1 << 32:
        raise Refused(3, 4)
    values = {**sheet, "size": len(firmware)}
    # Which digest stands there has no say in the bytes before its tag.
    unstated = write_header({**values, "digest": bytes(32)}) + firmware
    return write_header({**values, "digest": digest_of(unstated, len(firmware))}) + firmware


def make_sealed(sheet, firmware):
    """The same with a sealed header, or Refused."""
    image = make_image(sheet, firmware)
    return write_sealed(read_header(image), image)


# ---- status bytes and flags

# The status bytes that BOOT and UPDATE may hold.
STATUSES = {
    "BOOT": {0xFF: "NEW", 0x10: "TESTING", 0x00: "SUCCESS"},
    "UPDATE": {0xFF: "NEW", 0x70: "UPDATING"},
}

# The leg that a flag other than 0 shows.
LEGS = {"f": "UPDATE to SWAP", "7": "BOOT to UPDATE", "3": "SWAP to BOOT"}


def flags(m, trailer):
    """What the flags of m firmware sectors show, at the end of a trailer: its last byte is the status."""
    read = "".join(f"{trailer[-2 - i // 2] >> 4 * (i % 2) & 0xF:x}" for i in range(m))
    if not re.fullmatch("0*[73]?f*", read):
        return "not well formed"
    if read == "f" * m:
        return "all F"
    if read == "0" * m:
        return "all 0"
    first = len(read) - len(read.lstrip("0"))
    return f"sector {first} {LEGS[read[first]]}"


# ---- power-up, of a flash whose statuses and flags are allowed


class Flash:
    """BOOT, UPDATE and SWAP, as three lists of sectors; the last of BOOT and of UPDATE is the trailer sector."""

    def __init__(self, n, s, boot, update, swap):
        self.n, self.s, self.m = n, s, n - 1
        cut = lambda data: [bytearray(data[i : i + s]) for i in range(0, len(data), s)]
        self.areas = {"BOOT": cut(boot), "UPDATE": cut(update), "SWAP": cut(swap)}

    def partition(self, area):
        return b"".join(self.areas[area])

    def status(self, area):
        return self.areas[area][self.m][-1]

    def flag(self, i):
        return self.areas["UPDATE"][self.m][-2 - i // 2] >> 4 * (i % 2) & 0xF

    def flags(self):
        return [self.flag(i) for i in range(self.m)]

    def perform(self, operation):
        what, area, i, value = operation
        if what == "erase":
            self.areas[area][i][:] = b"\xff" * self.s
        elif what == "copy":
            self.areas[area][i][:] = value()
        elif what == "flag":
            trailer, half = self.areas["UPDATE"][self.m], 4 * (i % 2)
            trailer[-2 - i // 2] = trailer[-2 - i // 2] & ~(0xF << half) | value << half
        else:
            self.areas[area][self.m][-1] = value

    def legs(self):
        """The operations that exchange what the flags show as not exchanged, each leg from its top."""
        sector = lambda area, i: lambda: bytes(self.areas[area][i])
        for i in range(self.m):
            table = [
                (0xF, ("SWAP", 0), ("UPDATE", i), 0x7),
                (0x7, ("UPDATE", i), ("BOOT", i), 0x3),
                (0x3, ("BOOT", i), ("SWAP", 0), 0x0),
            ]
            for flag, to, source, moved in table:
                if self.flag(i) >= flag:
                    yield ("erase", *to, None)
                    yield ("copy", *to, sector(*source))
                    yield ("flag", None, i, moved)


def refusal_of(n, s, partition):
    try:
        check_image(n, s, partition)
    except Refused as refused:
        return refused
    return None


def plan(f):
    """The operations of a power-up, its outcome once they are done, and why an update is turned down; or Refused."""
    n, s = f.n, f.s
    boot, update = f.status("BOOT"), f.status("UPDATE")
    if update == 0xFF and boot != 0x10:
        return [], "run", None
    legs = list(f.legs())
    untouched = all(flag == 0xF for flag in f.flags())
    if update == 0xFF:
        if untouched and refusal_of(n, s, f.partition("UPDATE")):
            raise Refused(13)
        return legs + [("status", "BOOT", f.m, 0x00)], "run, fallen back", None
    if untouched and boot != 0x10:
        down = [("erase", "UPDATE", f.m, None)]
        bad = refusal_of(n, s, f.partition("UPDATE"))
        if bad:
            return down, "run", bad
        if refusal_of(n, s, f.partition("BOOT")):
            raise Refused(12)
        if read_header(f.partition("UPDATE"))["version"] <= read_header(f.partition("BOOT"))["version"]:
            return down, "run", Refused(15)
    end = [("erase", "BOOT", f.m, None)] if boot == 0x00 else []
    end += [("status", "BOOT", f.m, 0x10)] if boot != 0x10 else []
    return legs + end + [("erase", "UPDATE", f.m, None)], "run on test", None


def power_up(f, budget):
    """What a power-up answers: its outcome, how many operations, why an update is turned down, and the operation that is next."""
    try:
        operations, outcome, reason = plan(f)
    except Refused as refused:
        side = "BOOT" if refused.number == 12 else "UPDATE"
        inner = refusal_of(f.n, f.s, f.partition(side))
        return f"refused {refused.number} for {inner.number} at {inner.place}", 0, None, None
    done = operations[:budget]
    for operation in done:
        f.perform(operation)
    if len(done) < len(operations):
        return "cut", len(done), reason, operations[len(done)]
    bad = refusal_of(f.n, f.s, f.partition("BOOT"))
    if bad:
        return f"refused 12 for {bad.number} at {bad.place}", len(done), reason, None
    return outcome, len(done), reason, None


# ---- mending (document 02, two)

# The table of places: by a sector's flag, where the old sector of BOOT and that of UPDATE are.
PLACES = {0xF: ("BOOT", "UPDATE"), 0x7: ("BOOT", "SWAP"), 0x3: ("UPDATE", "SWAP"), 0x0: ("UPDATE", "BOOT")}


def marks(m):
    """Every mark in its order: its sector, the flag there, and the flags of all sectors. All 0 is named sector m."""
    for i in range(m):
        for flag in (0xF, 0x7, 0x3):
            yield i, flag, [0x0] * i + [flag] + [0xF] * (m - 1 - i)
    yield m, 0x0, [0x0] * m


def old_image(f, flags, old):
    """The partition that BOOT (old 0) or UPDATE (old 1) was before the update, by these flags; its trailer is left blank."""
    sectors = []
    for i, flag in enumerate(flags):
        area = PLACES[flag][old]
        sectors.append(f.areas[area][0 if area == "SWAP" else i])
    return b"".join(sectors) + b"\xff" * f.s


def fits(f, flags):
    try:
        boot, update = (check_image(f.n, f.s, old_image(f, flags, old)) for old in (0, 1))
    except Refused:
        return False
    return update["version"] > boot["version"]


def mend(n, s, boot, update, swap):
    """The mark's sector and flag, how many flag bytes differ from before, and UPDATE as it is left; or Refused."""
    if not geometry_fits(n, s) or [len(boot), len(update), len(swap)] != [n * s, n * s, s]:
        raise Refused(1)
    if boot[-1] not in STATUSES["BOOT"] or update[-1] not in STATUSES["UPDATE"]:
        raise Refused(10)
    if update[-1] != 0x70 or boot[-1] == 0x10:
        raise Refused(14)
    f = Flash(n, s, boot, update, swap)
    for sector, flag, every in marks(f.m):
        if fits(f, every):
            for i, value in enumerate(every):
                f.perform(("flag", None, i, value))
            left = f.partition("UPDATE")
            return sector, flag, sum(a != b for a, b in zip(update, left)), left
    raise Refused(17)


# ---- erase counts (document 02, seven)

MOST = 4294967295


class CountedFlash(Flash):
    """A flash that notes each sector which it erases, as it does."""

    def __init__(self, *given):
        super().__init__(*given)
        self.erased = []

    def perform(self, operation):
        super().perform(operation)
        if operation[0] == "erase":
            self.erased.append(operation[1:3])


def places(n):
    """The sector that each place of the row is for."""
    return [("BOOT", i) for i in range(n)] + [("UPDATE", i) for i in range(n)] + [("SWAP", 0)]


def counted_flash(n, s, boot, update, swap, row, total):
    """The flash, where 1, 19 and 20 do not refuse: the checks that come first."""
    if not geometry_fits(n, s) or [len(boot), len(update), len(swap)] != [n * s, n * s, s] or len(row) != 2 * n + 1:
        raise Refused(1)
    if total != sum(row):
        raise Refused(19)
    if max(row) > MOST - (n - 1):
        raise Refused(20)
    return CountedFlash(n, s, boot, update, swap)


def row_after(f, row):
    """The row with one more for each erase that was completed."""
    return [count + f.erased.count(place) for place, count in zip(places(f.n), row)]


def left_by(f, answer, row):
    """What a counted call answers, the three areas, the row, and the total that goes out."""
    row = row_after(f, row)
    return answer, [f.partition(area) for area in ("BOOT", "UPDATE", "SWAP")], row, sum(row)


def may_power_up(f):
    """Refusals 10 and 11, which power_up takes for looked at."""
    boot, update = f.status("BOOT"), f.status("UPDATE")
    if boot not in STATUSES["BOOT"] or update not in STATUSES["UPDATE"]:
        return 10
    if update == 0x70 or boot == 0x10:
        shown = flags(f.m, f.areas["UPDATE"][f.m])
        if shown == "not well formed" or update == 0x70 and boot == 0x10 and shown != "all 0":
            return 11
    return None


def power_up_counted(n, s, boot, update, swap, budget, row, total):
    """power_up's answer (outcome, count, reason, next operation), the areas, the row and the total, as they are left."""
    try:
        f = counted_flash(n, s, boot, update, swap, row, total)
    except Refused as refused:
        return (f"refused {refused.number}", 0, None, None), [boot, update, swap], row, total
    number = may_power_up(f)
    if number:
        return left_by(f, (f"refused {number}", 0, None, None), row)
    return left_by(f, power_up(f, budget), row)


def arm_counted(n, s, boot, update, swap, row, total):
    """The number of the refusal, or 0, and the count; the areas, the row and the total, as they are left."""
    try:
        f = counted_flash(n, s, boot, update, swap, row, total)
    except Refused as refused:
        return (refused.number, 0), [boot, update, swap], row, total
    if boot[-1] not in STATUSES["BOOT"] or update[-1] not in STATUSES["UPDATE"]:
        return left_by(f, (10, 0), row)
    if update[-1] != 0xFF or boot[-1] == 0x10:
        return left_by(f, (14, 0), row)
    for operation in (("erase", "UPDATE", f.m, None), ("status", "UPDATE", f.m, 0x70)):
        f.perform(operation)
    return left_by(f, (0, 2), row)


# ---- there and back (document 02, eight)


def firmware_sectors(f):
    """The firmware sectors of BOOT and of UPDATE, by area and number."""
    return {(area, i): bytes(f.areas[area][i]) for area in ("BOOT", "UPDATE") for i in range(f.m)}


def is_back(before, f):
    """Whether these are the firmware sectors again, and the trailers end as the request says: BOOT SUCCESS, UPDATE NEW, flags all 0."""
    trailers = f.status("BOOT"), f.status("UPDATE"), flags(f.m, f.areas["UPDATE"][f.m])
    return firmware_sectors(f) == before and trailers == (0x00, 0xFF, "all 0")


def most_operations(m, early_ends):
    """Of an update and its fallback: demand 3's 9m + 3 and 9m + 1, and two for each early end in either."""
    return (9 * m + 3) + (9 * m + 1) + 2 * early_ends
