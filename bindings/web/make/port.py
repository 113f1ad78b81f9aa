"""port.py IN.ll OUT.ll wasm64|wasm32 [--stack-check]: the LLVM module that the toolchain makes of the proved
library for Linux, as a module for WebAssembly. It stops where the module has something of its processor.

It changes no instruction of the code but one (below), the target, and the attributes that name a processor. It adds what the toolchain's
own modules for wasm64 have: an export around each exported function, which traps for good once a call has trapped; and with
--stack-check a look at the stack's pointer as each function begins. Without it stack.py bounds the stack of the linked module."""
import re
import sys

source, target, kind = sys.argv[1:4]
text = open(source).read()
bits = {"wasm64": 64, "wasm32": 32}[kind]

# The one instruction of a processor: bytes by their indices. PSHUFB, TBL and i8x16.swizzle agree on indices below 16, and its one caller,
# avc_deblock's thresholds::looked_up, requires that. A new caller of swizzle_dyn has to be looked at.
text = text.replace("@llvm.x86.ssse3.pshuf.b.128", "@llvm.wasm.swizzle").replace("@llvm.aarch64.neon.tbl1.v16i8", "@llvm.wasm.swizzle")

for bad in (r"@llvm\.(x86|aarch64)\.[\w.]*", r" asm (?:sideeffect )?\"", r"\bthread_local\b", r"\baddrspace\b"):
    found = re.search(bad, text)
    if found:
        sys.exit(f"{source}: {found.group()}: not for WebAssembly")
for call in set(re.findall(r"^declare .*? @\"?([\w.: ]+)", text, re.M)):
    if not call.startswith("llvm.") and call not in ("rattle_alloc", "rattle_realloc", "rattle_dealloc"):
        sys.exit(f"{source}: {call}: a function that nobody defines")

text = re.sub(
    r'^target datalayout = .*$',
    f'target datalayout = "e-m:e-p:{bits}:{bits}-p10:8:8-p20:8:8-i64:64-i128:128-n32:64-S128-ni:1:10:20"',
    text, flags=re.M)
text = re.sub(r'^target triple = .*$', f'target triple = "{kind}-unknown-unknown"', text, flags=re.M)
if bits == 32:
    # An address has 4 bytes here, and its place in memory stays the 8 bytes that it has in the proved library: the code names places
    # by bytes alone but for local places of one address, which become those of an integer of 64 bits, and aggregates with an address, which
    # become ones with such an integer, whose upper half nobody reads.
    text = re.sub(r"(= alloca )ptr\b", r"\1i64", text)
    if re.search(r"= alloca [^,\n]*\bptr\b|^@[^\n]*= [^\n]*(?:global|constant) ptr\b", text, re.M):
        sys.exit(f"{source}: a place of addresses")
    aggregate = re.compile(r"\{[^{}\n\"=;]*\bptr\b[^{}\n\"=;]*\}")
    text = re.sub(r"\bptrtoaddr (ptr %[\w.]+ to i64)", r"ptrtoint \1", text)
    lines, fresh = [], 0
    for line in text.split("\n"):
        taken = re.match(r"(\s+%[\w.]+ = )extractvalue (\{[^{}]*\}) (%[\w.]+), (\d+)$", line)
        if taken and taken[2].strip("{} ").split(", ")[int(taken[4])] == "ptr":
            fresh += 1
            lines.append(f"  %as.int.{fresh} = extractvalue {taken[2].replace('ptr', 'i64')} {taken[3]}, {taken[4]}")
            lines.append(f"{taken[1]}inttoptr i64 %as.int.{fresh} to ptr")
            continue
        if aggregate.search(line) and not re.search(r"= load |^\s+ret |^define |^declare |= (tail )?call |extractvalue|= phi ", line):
            sys.exit(f"{source}: an aggregate with an address: {line}")
        lines.append(aggregate.sub(lambda it: it.group().replace("ptr", "i64"), line))
    text = "\n".join(lines)
    # the upper half may be undefined, so such an aggregate is not wholly defined
    text = re.sub(r"\bnoundef (\{[^{}\n\"=;]*\})", r"\1", text)
    if re.search(r"\[\d+ x ptr\]", text):
        sys.exit(f"{source}: an array of addresses")

text = re.sub(r' "(target-cpu|target-features|tune-cpu|probe-stack|stack-probe-size|frame-pointer)"(="[^"]*")?', "", text)

if "--stack-check" in sys.argv:
    # behind the first instruction's place in each function: allocas may stand behind it, since it stays in the first block
    text = re.sub(r"^(define [^\n]*\{\nstart:\n)", r"\1  call void @rattle_look_at_stack()\n", text, flags=re.M)
    text += f'''
define internal void @rattle_look_at_stack() alwaysinline nounwind {{
start:
  %frame = call ptr @llvm.frameaddress.p0(i32 0)
  %place = ptrtoint ptr %frame to i{bits}
  %below = icmp slt i{bits} %place, 16
  br i1 %below, label %trap, label %ok
ok:
  ret void
trap:
  call void @llvm.trap()
  unreachable
}}
declare ptr @llvm.frameaddress.p0(i32 immarg)
'''

exports = re.findall(r"^define (?!internal)([^\n]*?)@(\w+)\(([^\n]*?)\)([^\n]*)\{$", text, re.M)
print(f"{len(exports)} exports:", ", ".join(name for _, name, _, _ in exports))
text += "declare noundef zeroext i1 @rattle_enter()\ndeclare void @rattle_leave()\n"
if "declare void @llvm.trap()" not in text:
    text += "declare void @llvm.trap()\n"
for gives, name, takes, _ in exports:
    text = text.replace(f"define {gives}@{name}(", f'define internal {gives}@"run {name}"(', 1)
    plain = re.sub(r"\b(noundef|zeroext|signext|dso_local)\b ?", "", gives).strip()
    passed = re.sub(r"\b(noundef|zeroext|signext|captures\(\w+\)|nonnull)\b ?", "", takes)
    call = f'call {plain} @"run {name}"({passed})'
    text += f'''
define {gives}@{name}({takes}) nounwind "wasm-export-name"="{name}" {{
start:
  %spent = call i1 @rattle_enter()
  br i1 %spent, label %over, label %run
over:
  call void @llvm.trap()
  unreachable
run:
  {call if plain == "void" else f"%answer = {call}"}
  call void @rattle_leave()
  ret {plain}{"" if plain == "void" else " %answer"}
}}
'''
open(target, "w").write(text)
