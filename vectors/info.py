#!/usr/bin/env python3
"""info.py STREAM..: makes STREAM.info and STREAM.json anew beside each stream, where such stand: what `avcdec info` and `info --json` must
write of it. Read from the standard alone (7.3.2.1.1, 7.3.2.2, 7.3.3, 7.4.1.2.4, E.1.1), with what refuses the parameter sets and slice
headers of other profiles; a unit that is faulty otherwise is beyond it."""
import json
import os
import sys
from fractions import Fraction

PROFILES = {66: "Baseline", 77: "Main", 88: "Extended"}
SHAPES = "1:1 12:11 10:11 16:11 40:33 24:11 20:11 32:11 80:33 18:11 15:11 64:33 160:99 4:3 3:2 2:1".split()  # Table E-1 from 1 on
MOST = 2**64 - 1
MOST_SIZES = 8
CHROMA_FORMATS = (100, 110, 122, 244, 44, 83, 86, 118, 128, 138, 139, 134, 135)  # profiles whose sets say one


class Refused(Exception):
    """By a fault's number and name."""


class Bits:
    """An RBSP, element by element (7.2, 9.1)."""

    def __init__(self, rbsp):
        self.bits = "".join(f"{byte:08b}" for byte in rbsp)
        self.at = 0

    def u(self, count):
        self.at += count
        return int(self.bits[self.at - count : self.at] or "0", 2)

    def ue(self):
        zeros = self.bits.index("1", self.at) - self.at
        self.at += zeros
        return self.u(zeros + 1) - 1

    def se(self):
        code = self.ue()
        return (code + 1) // 2 if code % 2 else -(code // 2)

    def more(self):
        """more_rbsp_data"""
        return self.at < self.bits.rindex("1")


def units(stream):
    """The bytes of each unit (Annex B)."""
    parts = stream.split(b"\0\0\1")[1:]
    return [part.rstrip(b"\0") for part in parts]


def rbsp(unit):
    """Without the bytes that prevent start codes (7.3.1)."""
    out, zeros = bytearray(), 0
    for byte in unit[1:]:
        if zeros >= 2 and byte == 3:
            zeros = 0
            continue
        zeros = zeros + 1 if byte == 0 else 0
        out.append(byte)
    return bytes(out)


def hrd(bits):
    count = bits.ue() + 1
    bits.u(8)
    for _ in range(count):
        bits.ue(), bits.ue(), bits.u(1)
    bits.u(20)


def vui(bits, s):
    """E.1.1"""
    if bits.u(1):
        s["shape"] = bits.u(8)
        if s["shape"] == 255:
            s["own_shape"] = bits.u(16), bits.u(16)
    if bits.u(1):
        bits.u(1)
    if bits.u(1):
        bits.u(3)
        s["full"] = bits.u(1)
        if bits.u(1):
            s["colour"] = bits.u(8), bits.u(8), bits.u(8)
    if bits.u(1):
        s["place"] = bits.ue()
        bits.ue()
    if bits.u(1):
        s["clock"] = bits.u(32), bits.u(32)
        bits.u(1)
    schedules = [hrd(bits) for _ in range(2) if bits.u(1)]
    if schedules:
        bits.u(1)
    bits.u(1)
    if bits.u(1):
        bits.u(1)
        for _ in range(4):
            bits.ue()
        s["reordered"] = bits.ue()


def sequence_set(bits):
    """7.3.2.1.1"""
    s = {"profile": bits.u(8), "flags": bits.u(8), "level": bits.u(8), "crop": (0, 0, 0, 0)}
    if s["profile"] not in PROFILES:
        raise Refused(10, "Profile")
    number = bits.ue()
    s["frame_num_bits"] = bits.ue() + 4
    s["order_type"] = bits.ue()
    if s["order_type"] == 0:
        s["order_bits"] = bits.ue() + 4
    elif s["order_type"] == 1:
        s["no_deltas"] = bits.u(1)
        bits.se(), bits.se()
        for _ in range(bits.ue()):
            bits.se()
    s["references"] = bits.ue()
    bits.u(1)
    s["coded"] = 16 * (bits.ue() + 1), 16 * (bits.ue() + 1)
    if not bits.u(1):
        raise Refused(13, "Interlaced")
    bits.u(1)
    if bits.u(1):
        s["crop"] = tuple(2 * bits.ue() for _ in range(4))
    if bits.u(1):
        vui(bits, s)
    return number, s


def scaling_list(bits, entries):
    """7.3.2.1.1.1"""
    last = 8
    for _ in range(entries):
        last = (last + bits.se() + 256) % 256
        if last == 0:
            return


def any_size(bits):
    """The size before cropping that a set of any profile says (7.3.2.1.1, 7.4.2.1.1); none where its bits end before."""
    try:
        profile = bits.u(8)
        bits.u(16), bits.ue()
        if profile in CHROMA_FORMATS:
            chroma = bits.ue()
            bits.u(chroma == 3), bits.ue(), bits.ue(), bits.u(1)
            if bits.u(1):
                for number in range(12 if chroma == 3 else 8):
                    if bits.u(1):
                        scaling_list(bits, 16 if number < 6 else 64)
        bits.ue()
        kind = bits.ue()
        if kind == 0:
            bits.ue()
        elif kind == 1:
            bits.u(1), bits.se(), bits.se()
            for _ in range(bits.ue()):
                bits.se()
        bits.ue(), bits.u(1)
        width, height = bits.ue() + 1, bits.ue() + 1
        fields = 2 - bits.u(1)
    except ValueError:
        return None
    return (16 * width, 16 * height * fields) if bits.at <= bits.bits.rindex("1") else None


def picture_set(bits):
    """7.3.2.2"""
    number, sequence, cabac = bits.ue(), bits.ue(), bits.u(1)
    if cabac:
        raise Refused(14, "Cabac")
    bottom = bits.u(1)
    if bits.ue():
        raise Refused(15, "SliceGroups")
    bits.ue(), bits.ue(), bits.u(3), bits.se(), bits.se(), bits.se(), bits.u(3)
    if bits.more():
        raise Refused(17, "PpsExtension")
    return number, {"sequence": sequence, "bottom": bottom}


def slice_header(header, bits, sequences, pictures):
    """What tells where a picture begins (7.3.3, 7.4.1.2.4), whether it is the slice with a picture's first macroblock, before which no
    other of its slices comes in this profile (7.4.3), and the set that it is read under."""
    is_first = bits.ue() == 0
    if bits.ue() % 5 not in (0, 2):
        raise Refused(19, "SliceType")
    number = bits.ue()
    if number not in pictures or pictures[number]["sequence"] not in sequences:
        raise Refused(30, "NoParameterSet")
    s = sequences[pictures[number]["sequence"]]
    idr = header % 32 == 5
    fields = [number, bits.u(s["frame_num_bits"]), header // 32 % 4 == 0, idr]
    fields.append(bits.ue() if idr else None)
    if s["order_type"] == 0:
        fields += [bits.u(s["order_bits"]), bits.se() if pictures[number]["bottom"] else 0]
    elif s["order_type"] == 1 and not s["no_deltas"]:
        fields += [bits.se(), bits.se() if pictures[number]["bottom"] else 0]
    return fields, is_first, s


class Facts:
    def __init__(self, stream):
        self.bytes = len(stream)
        self.first, self.last = None, None
        self.first_set, self.refused_set = None, None
        self.pictures = self.sequences = self.slices = self.most = 0
        self.refusals = []
        self.sizes = []
        sets, picture_sets = {}, {}
        for index, unit in enumerate(units(stream)):
            kind = unit[0] % 32
            try:
                bits = Bits(rbsp(unit))
                if kind == 7:
                    number, s = self.note_set(bits)
                    sets[number] = s
                elif kind == 8:
                    number, p = picture_set(bits)
                    picture_sets[number] = p
                elif kind in (2, 3, 4):
                    raise Refused(18, "DataPartition")
                elif kind in (1, 5):
                    self.take(*slice_header(unit[0], bits, sets, picture_sets))
            except Refused as fault:
                self.refusals.append((index, *fault.args))

        self.first = self.first or self.first_set

    def kinds(self):
        """Of each fault, in the order in which they came first: its number and name, how many units have it, and the first of them."""
        units = {}
        for unit, *fault in self.refusals:
            units.setdefault(tuple(fault), []).append(unit)
        return [(*fault, len(of_it), min(of_it)) for fault, of_it in units.items()]

    def note_set(self, bits):
        try:
            number, s = sequence_set(bits)
        except Refused:
            if self.refused_set is None and len(bits.bits) >= 24:
                bits.at = 0
                self.refused_set = int(bits.bits[:8], 2), int(bits.bits[16:24], 2), any_size(bits)
            raise
        self.first_set = self.first_set or s
        return number, s

    def take(self, fields, is_first, s):
        self.first = self.first or s
        if size(s) not in self.sizes:
            self.sizes.append(size(s))
        begins = is_first or fields != self.last
        self.pictures += begins
        self.sequences += begins and fields[3]
        self.slices = 1 if begins else self.slices + 1
        self.most = max(self.most, self.slices)
        self.last = fields

    def rate(self):
        """Frames in a second: a frame takes two ticks (E.2.1)."""
        tick, scale = (self.first or {}).get("clock", (0, 0))
        return Fraction(scale, 2 * tick) if tick else None

    def bit_rate(self):
        rate = self.rate()
        return min(MOST, int(8 * self.bytes * rate / self.pictures)) if rate and self.pictures else None

    def milliseconds(self):
        rate = self.rate()
        return min(MOST, int(1000 * self.pictures / rate)) if rate else None


def shape(s):
    """The sample aspect ratio (Table E-1)."""
    number = s.get("shape", 0)
    if number == 255:
        return s["own_shape"] if all(s["own_shape"]) else None
    return tuple(map(int, SHAPES[number - 1].split(":"))) if 1 <= number <= len(SHAPES) else None


def size(s):
    left, right, top, bottom = s["crop"]
    return s["coded"][0] - left - right, s["coded"][1] - top - bottom


def profile(s):
    return ("Constrained " if s["profile"] == 66 and s["flags"] & 0x40 else "") + PROFILES[s["profile"]]


def level(s):
    return "1b" if s["level"] == 9 or s["level"] == 11 and s["flags"] & 0x10 else f"{s['level'] // 10}.{s['level'] % 10}"


def said(value, form="{}"):
    return "not given" if value is None else form.format(value)


def thousandths(value):
    return said(value if value is None else f"{value // 1000}.{value % 1000:03}")


def info(f):
    lines, s = [], f.first
    if s:
        rate = f.rate()
        rounded = thousandths(None if rate is None else int(1000 * rate))
        lines.append(f"size {size(s)[0]}x{size(s)[1]}, profile {profile(s)}, level {level(s)}, frame rate {rounded}")
        lines.append(f"reference frames {s['references']}, reorder number {said(s.get('reordered'))}")
    lines.append(f"pictures {f.pictures}, sequences {f.sequences}, slices a picture {f.most}")
    first = ", the first unit {}: {} {}".format(*f.refusals[0]) if f.refusals else ""
    lines.append(f"refused {len(f.refusals)}{first}")
    if len(f.kinds()) > 1:
        lines += ["refused as {} {}: {}, the first unit {}".format(*kind) for kind in f.kinds()]
    if f.refused_set:
        number, level_idc, coded = f.refused_set
        told = f"{coded[0]}x{coded[1]}" if coded else "size not given"
        lines.append(f"refused sequence: profile_idc {number}, level_idc {level_idc}, {told}")
    if s:
        left, right, top, bottom = s["crop"]
        lines.append(f"coded {s['coded'][0]}x{s['coded'][1]}, crop left {left}, right {right}, top {top}, bottom {bottom}")
        ratio = shape(s)
        full = s.get("full")
        full_name = "not given" if full is None else "full" if full else "limited"
        named = said(ratio and f"{ratio[0]}:{ratio[1]}")
        lines.append(f"sample aspect ratio {named}, range {full_name}, chroma place {said(s.get('place'))}")
        primaries, transfer, matrix = s.get("colour", (None, None, None))
        lines.append(f"colour primaries {said(primaries)}, transfer {said(transfer)}, matrix {said(matrix)}")
        lines.append(f"bit rate {said(f.bit_rate())}, duration {thousandths(f.milliseconds())}")
    if len(f.sizes) > 1:
        others = " and others" if len(f.sizes) > MOST_SIZES else ""
        lines.append("sizes " + " ".join(f"{width}x{height}" for width, height in f.sizes[:MOST_SIZES]) + others)
    return "".join(line + "\n" for line in lines)


def ratio_object(pair):
    return pair and {"numerator": pair[0], "denominator": pair[1]}


def sequence_object(f):
    s, rate = f.first, f.rate()
    colour = s.get("colour")
    return {
        "chroma_sample_loc_type_top_field": s.get("place"),
        "coded_size": dict(zip(("width", "height"), s["coded"])),
        "colour": colour and dict(zip(("colour_primaries", "transfer_characteristics", "matrix_coefficients"), colour)),
        "crop": dict(zip(("left", "right", "top", "bottom"), s["crop"])),
        "frame_rate": ratio_object(None if rate is None else rate.as_integer_ratio()),
        "height": size(s)[1],
        "level": level(s),
        "max_num_ref_frames": s["references"],
        "max_num_reorder_frames": s.get("reordered"),
        "profile": profile(s),
        "sample_aspect_ratio": ratio_object(shape(s)),
        "video_full_range_flag": None if "full" not in s else bool(s["full"]),
        "width": size(s)[0],
    }


def refused_object(number, level_idc, coded):
    return {"profile_idc": number, "level_idc": level_idc, "coded_size": coded and dict(zip(("width", "height"), coded))}


def told_as_json(f):
    members = {
        "bits_per_second": f.bit_rate(),
        "coded_video_sequences": f.sequences,
        "duration_in_milliseconds": f.milliseconds(),
        "first_refusal": dict(zip(("unit", "number", "name"), f.refusals[0])) if f.refusals else None,
        "more_sizes": len(f.sizes) > MOST_SIZES,
        "pictures": f.pictures,
        "refusals": [dict(zip(("number", "name", "count", "first_unit"), kind)) for kind in f.kinds()],
        "refused_sequence": f.refused_set and refused_object(*f.refused_set),
        "refused_units": len(f.refusals),
        "sequence": f.first and sequence_object(f),
        "sizes": [dict(zip(("width", "height"), one)) for one in f.sizes[:MOST_SIZES]],
        "slices_per_picture": f.most,
    }
    return json.dumps(members, sort_keys=True, separators=(",", ":")) + "\n"


for path in sys.argv[1:]:
    with open(path, "rb") as file:
        facts = Facts(file.read())
    for end, form in ((".info", info), (".json", told_as_json)):
        target = path.removesuffix(".264") + end
        if os.path.exists(target):
            with open(target, "w", encoding="ascii") as file:
                file.write(form(facts))
