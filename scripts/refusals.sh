#!/bin/sh
# Sees that want of memory is made of an allocator's refusal alone. `OutOfMemory` has a private field, so that only its own file makes one; here
# it is seen that no other file makes up what an allocator answers (AllocError, AllocFailed), or an error that tells callers of it and holds
# none (DecodeError, RunFault, and C's Status); and none of the other faults that end a run (RunFault, CompareFault). Each line that names
# one of them as a value stands below, with the reason why it may.
set -eu
export LC_ALL=C
cd "$(dirname "$0")/.."
work=$(mktemp -d)
trap 'rm -rf "$work"' EXIT

sed '/^#/d; /^$/d' >"$work/known" <<'LINES'
# C's status, of what the decoder answered and of what was refused to a call
avc_c_picture/src/status.rt: Err(DecodeError::OutOfMemory) => Status::OutOfMemory,
avc_c_picture/src/status.rt: Err(DecodeError::OutOfMemory) => Status::OutOfMemory,
avc_c_picture/src/status.rt: Err(DecodeError::OutOfMemory) => Status::OutOfMemory,
avc_c_picture/src/status.rt: Status::OutOfMemory
# the words of the command line: clap tells of a refusal by its kind
avc_program/src/words.rt: if error.kind() == ErrorKind::OutOfMemory {
avc_program/src/words.rt: return Err(RunFault::Memory);
# a text that found no memory
avc_macroblocks/src/program.rt: Err(_) => fail(RunFault::Memory, &console.names, &mut console.errors),
# of OutOfMemory, through what reads a stream and what writes it
avc_shell/src/from_piece.rt: Err(io::Error::from(ErrorKind::OutOfMemory))
avc_program/src/writing.rt: fault_status(RunFault::Memory)
avc_shell/src/output.rt: Err(_) => return Err(io::Error::from(ErrorKind::OutOfMemory)),
# of OutOfMemory, and of what an allocator answers
avc_console/src/fault.rt: RunFault::Memory
avc_console/src/fault.rt: RunFault::Memory
avc_console/src/fault.rt: RunFault::Memory
# a decoder that is fed and not at its end refuses for want of memory alone
avc_replay/src/feeding.rt: Err(_) => Err(RunFault::Memory),
# of OutOfMemory
avc_decoder/src/error.rt: DecodeError::OutOfMemory
# of what the decoder answered, which is fed nothing after the end
avc_events/src/calls.rt: Err(_) => Err(RunFault::Memory),
avc_events/src/calls.rt: Err(_) => Err(RunFault::Memory),
avc_events/src/calls.rt: Err(_) => Err(RunFault::Memory),
# the system gave no memory for the words of the command line
avc_request/src/reading.rt: Err(error) if error.kind() == io::ErrorKind::OutOfMemory => Err(AllocError.into()),
# a read answered an error
avc_console/src/read.rt: Err(_) => Err(RunFault::Read),
# the input, or the other's, is no file that can be opened
avc_cli/src/explaining.rt: Err(_) => Err(RunFault::Read),
avc_cli/src/comparing.rt: fail(RunFault::Read, &names, &mut console.errors)
avc_program/src/running.rt: let ending = fail(RunFault::Read, &names_of(request), &mut rt.stderr());
# the file of frame times can't be made or written
avc_program/src/running.rt: let ending = fail(RunFault::Write, &names, &mut rt.stderr());
# the system did not take the words of the help
avc_program/src/words.rt: Err(_) => Err(RunFault::Write),
# a write answered an error, or took no byte
avc_console/src/fault.rt: RunFault::Write
# more reads, or events, than a run may take
avc_console/src/streaming.rt: Err(RunFault::Endless)
avc_run/src/decoding.rt: Err(RunFault::Endless)
avc_compare/src/stream.rt: Err(RunFault::Endless)
avc_compare/src/comparison.rt: Err(CompareFault::Ours(RunFault::Endless))
avc_compare/src/looking.rt: Err(CompareFault::Ours(RunFault::Endless))
avc_replay/src/feeding.rt: Err(RunFault::Endless)
avc_replay/src/replay.rt: Err(RunFault::Endless)
# a picture has not the size that the head says
avc_formats/src/headed.rt: return Err(RunFault::Size);
# nothing is shown of a picture, or more columns or rows than PNG has
avc_formats/src/png.rt: return Err(RunFault::Size);
# a read of the other's pictures answered an error, which is told as a read fault
avc_compare/src/meeting.rt: Err(_) => Err(CompareFault::Theirs),
avc_compare/src/samples.rt: Err(_) => return Err(CompareFault::Theirs),
avc_compare/src/program.rt: tell(Err(RunFault::Read), tally, &named, errors)
# of a fault of the run itself
avc_compare/src/verdict.rt: CompareFault::Ours(fault)
# of what could not be written
avc_compare/src/program.rt: (Err(fault), _) => Err(CompareFault::Ours(fault)),
LINES

# without the tests, the file that makes OutOfMemory, imports under their own names, types, and what stands in patterns
grep -rE 'AllocError|AllocFailed|alloc::\*|(DecodeError|ErrorKind|Status)::OutOfMemory|RunFault::(Read|Endless|Write|Memory|Size)|CompareFault::(Ours|Theirs)|(DecodeError|RunFault|CompareFault|Status) as ' \
    crates/*/src --include='*.rt' |
    grep -vE '^crates/avc_((syntax|sample|stream)_)?tests/|^crates/avc_types/src/memory\.rt:|^[^:]*:(ghost|//)' |
    sed -E 's|^crates/||; s|: *|: |' |
    awk '{
        rest = $0
        sub(/^[^:]*: /, "", rest)
        if (rest ~ /^(pub )?use / && rest !~ / as |\*/) next
        gsub(/Result<[^=]*, AllocError>|From<(AllocError|AllocFailed<T>)>|_error: (AllocError|AllocFailed<T>)/, "", rest)
        if (rest ~ /=>/ && rest !~ / if /) sub(/^.*=> */, "", rest)
        if (rest ~ /AllocError|AllocFailed|::\*|::OutOfMemory|RunFault::[A-Z]|CompareFault::[A-Z]| as /) print
    }' | sort >"$work/found"
sort "$work/known" >"$work/sorted"
if ! diff "$work/sorted" "$work/found" >"$work/differs"; then
    echo "want of memory, or a fault, is told where it was not (>), or no longer where it was (<):" >&2
    cat "$work/differs" >&2
    exit 1
fi
