"""tune.py IN.ll OUT.ll wasm64|wasm32: rewrites the optimized module where WebAssembly has something better than what its back end makes of it.

1. An address that lies a constant below 65,536 behind another: the sum does not pass the end of addresses ("nuw"), so that the constant can
   stand in the instruction that reads or writes. It holds because nothing lies in the first 65,536 bytes, where the stack ends (link.sh has
   stack.py see that the stack does not come there): a place that is read or written, less the constant, is above 0.
2. Up to 256 bytes, a constant number, that are set, copied or moved: by vectors and numbers in place of memory.fill and memory.copy, each of which
   is a call out of the module in engines. All is read before any is written.
3. The order of 8 bytes turned round: by i8x16.swizzle in place of 21 shifts and masks.
4. The low bytes of the lanes of a half or a quarter of a vector: by i8x16.narrow_i16x8_u and i16x8.narrow_i32x4_u of what is below 256, or
   65,536, of each, in place of i8x16.shuffle, for which engines make a vector of places each time.

Only the back end comes behind it, so no optimizer draws anything from this."""
import math
import re
import sys

source, target, kind = sys.argv[1:4]
BELOW, MOST = 65536, 256
index = {"wasm64": "i64", "wasm32": "i32"}[kind]
kinds = {16: "<16 x i8>", 8: "i64", 4: "i32", 2: "i16", 1: "i8"}
REVERSED = ", ".join(f"i8 {it}" for it in [7, 6, 5, 4, 3, 2, 1, 0] * 2)
SWIZZLE = "<16 x i8> @llvm.wasm.swizzle(<16 x i8>"
VECTOR = 128  # bits
# of lanes of so many bits, from two vectors into one
NARROW = {16: "<16 x i8> @llvm.wasm.narrow.unsigned.v16i8.v8i16(<8 x i16>", 32: "<8 x i16> @llvm.wasm.narrow.unsigned.v8i16.v4i32(<4 x i32>"}

behind = re.compile(r"(\s+%\S+ = getelementptr )((?:inbounds |nusw )*)(i8, ptr [^,]+, i(?:32|64) (\d+)(?:, !.*)?)$")
moves = re.compile(
    r"\s+(?:tail )?call void @llvm\.(memset|memcpy|memmove)\.\S+\((ptr [^,]*), ((?:ptr|i8) [^,]*), i(?:32|64) (\d+), i1 false\)(?:, !.*)?(?: #\d+)?$")
shortened = re.compile(r"(\s+%\S+ = )trunc ((?:nuw |nsw )*)<([248]) x i(16|32)> (%\S+) to <[248] x i(8|16)>(?:, !.*)?$")
turned = re.compile(r"(\s+%\S+ = )(?:tail )?call (?:noundef )?i64 @llvm\.bswap\.i64\(i64 (?:noundef )?(%\S+)\)(?: #\d+)?$")
lines, fresh, done = [], 0, {"addresses": 0, "moves": 0, "turned": 0, "shortened": 0}


def name():
    global fresh
    fresh += 1
    return f"%tuned.{fresh}"


def parts(size):
    """Places and sizes that make up so many bytes."""
    at = 0
    while at < size:
        wide = next(it for it in kinds if it <= size - at)
        yield at, wide
        at += wide


class Place:
    """An argument of a call that names an address."""

    def __init__(self, words):
        self.base = words.split()[-1]
        told = re.search(r"\balign (\d+)", words)
        self.align = int(told[1]) if told else 1

    def at(self, distance, lines):
        """The words of an address behind it, with what is known of it."""
        where = self.base
        if distance:
            where = name()
            lines.append(f"  {where} = getelementptr nuw i8, ptr {self.base}, {index} {distance}")
        return f"ptr {where}, align {math.gcd(self.align, distance)}"


def moved(to, given, size):
    """Copies so many bytes."""
    read, write = [], []
    for at, wide in parts(size):
        there, value = given.at(at, read), name()
        read.append(f"  {value} = load {kinds[wide]}, {there}")
        here = to.at(at, write)
        write.append(f"  store {kinds[wide]} {value}, {here}")
    return read + write


def filled(to, byte, size):
    """Sets so many bytes to one; nothing where that is not 0 and not a multiple of 16 bytes."""
    write, value = [], "zeroinitializer"
    if byte != "0":
        if size % 16:
            return None
        first, value = name(), name()
        write.append(f"  {first} = insertelement <16 x i8> poison, i8 {byte}, i64 0")
        write.append(f"  {value} = shufflevector <16 x i8> {first}, <16 x i8> poison, <16 x i32> zeroinitializer")
    for at, wide in parts(size):
        here = to.at(at, write)
        write.append(f"  store {kinds[wide]} {value if wide == 16 else 0}, {here}")
    return write


def reversed_bytes(before, number):
    first, as_bytes, turned, whole = name(), name(), name(), name()
    return [
        f"  {first} = insertelement <2 x i64> zeroinitializer, i64 {number}, i64 0",
        f"  {as_bytes} = bitcast <2 x i64> {first} to <16 x i8>",
        f"  {turned} = call {SWIZZLE} {as_bytes}, <16 x i8> <{REVERSED}>)",
        f"  {whole} = bitcast <16 x i8> {turned} to <2 x i64>",
        f"{before}extractelement <2 x i64> {whole}, i64 0",
    ]


def picked(before, kind, number, lanes):
    """The lanes at these places of a vector; None where nobody reads one."""
    places = ", ".join("i32 poison" if it is None else f"i32 {it}" for it in lanes)
    return f"{before}shufflevector {kind} {number}, {kind} poison, <{len(lanes)} x i32> <{places}>"


def low_parts(before, fits, count, bits, number, to):
    """The lowest `to` bits of so many lanes, which are at most a vector; `fits` says that there is nothing above these."""
    made, lanes = [], VECTOR // bits
    if count < lanes:
        wide = name()
        made.append(picked(f"  {wide} = ", f"<{count} x i{bits}>", number, [*range(count)] + [None] * (lanes - count)))
        number = wide
    if not fits:
        low = name()
        made.append(f"  {low} = and <{lanes} x i{bits}> {number}, splat (i{bits} {2 ** to - 1})")
        number = low
    while bits > to:
        short, words = name(), NARROW[bits]
        made.append(f"  {short} = call {words} {number}, {words.split('(')[1]} {number})")
        number, bits = short, bits // 2
    return made + [picked(before, f"<{VECTOR // bits} x i{bits}>", number, range(count))]


def tuned(line):
    """What stands in place of a line, and what is counted; nothing where it stays."""
    found = behind.match(line)
    if found and 0 < int(found[4]) < BELOW:
        return [f"{found[1]}{found[2]}nuw {found[3]}"], "addresses"
    found = moves.match(line)
    if found and 0 < int(found[4]) <= MOST:
        to, size = Place(found[2]), int(found[4])
        if found[1] == "memset":
            return filled(to, found[3].split()[-1], size), "moves"
        return moved(to, Place(found[3]), size), "moves"
    found = turned.match(line)
    if found:
        return reversed_bytes(found[1], found[2]), "turned"
    found = shortened.match(line)
    if found and int(found[3]) * int(found[4]) <= VECTOR:
        return low_parts(found[1], "nuw" in found[2], int(found[3]), int(found[4]), found[5], int(found[6])), "shortened"
    return None, None


text = open(source).read()
for line in text.split("\n"):
    instead, what = tuned(line)
    if instead is None:
        lines.append(line)
    else:
        done[what] += 1
        lines += instead
if not re.search(r"^declare .*@llvm\.wasm\.swizzle\(", text, re.M):
    lines.append(f"declare {SWIZZLE}, <16 x i8>)")
lines += [f"declare {words}, {words.split('(')[1]})" for words in NARROW.values()]
open(target, "w").write("\n".join(lines) + "\n")
print("tuned:", ", ".join(f"{count} {what}" for what, count in done.items()))
