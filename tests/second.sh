#!/bin/sh
# The second program, and tools/replay, which makes the calls of a stream through the proved library between guard pages: the exam
# sheet by the model, seeded packets given to both and everything compared, the cases of tests/cases by both; what the second
# program tells of another answer, and what both do at the end of a stream; and that replay tells what is written beside a buffer.
set -u
cd "$(dirname "$0")/.." || exit 2
. tests/lib.sh

# words NUMBER..: each as four bytes
words() {
    for number; do
        printf "$(printf '\\%03o' $((number >> 24 & 255)) $((number >> 16 & 255)) $((number >> 8 & 255)) $((number & 255)))"
    done
}

# record VERSION CALL PARAMETER LENGTH: a record with one parameter, and how many bytes are to follow
record() {
    words "$1" "$2" "$3" 0 0 0 0 0 0 0 0 0 0 0 0 0 0 "$4"
}

# hex: standard input in hex, as one word
hex() {
    od -An -v -tx1 | tr -d ' \n'
}

# quietly COMMAND..: what it prints is shown only where it fails
quietly() {
    "$@" >"$work/out" 2>&1 || { cat "$work/out" && false; }
}

expect 'the second program has the exam sheet as the paper has it' tools/second sheet
expect 'replay builds, and an empty stream has no answers' [ -z "$(tools/replay </dev/null | hex)" ]
expect '100,000 packets: replay and the second program agree' tools/second compare 100000 tools/replay
for file in tests/cases/*.txt; do
    expect "$file: replay and the second program do what it says" quietly tools/second cases "$file" tools/replay
done
SIPHON_LINK=kit
export SIPHON_LINK
expect "replay builds by the toolchain's compiler" quietly tools/link-c "$work/kit" tools/replay.c
unset SIPHON_LINK
expect '1,000 packets: that and the second program agree' quietly tools/second compare 1000 tools/x86-64 "$work/kit"

# told WHAT STATUS TEXT COMMAND..: the command ends with that status, and prints that text
told() {
    what=$1 wanted=$2 text=$3
    shift 3
    "$@" >"$work/out" 2>&1
    status=$?
    expect "$what: status $status, and must be $wanted" [ "$status" -eq "$wanted" ]
    expect "$what is told: '$(cat "$work/out")', and must have '$text'" grep -qF -e "$text" "$work/out"
}

# wrong WHAT STATUS LINE SED-COMMAND: in a file of cases where this one line is changed so, it is told, and no other
wrong() {
    place=$(grep -nxF -e "$3" tests/cases/packets.txt | sed 's/:.*//')
    sed "$place$4" tests/cases/packets.txt >"$work/wrong.txt"
    told "$1" "$2" "wrong.txt:$place: " tools/second cases "$work/wrong.txt" tools/replay
    expect "$1: and nothing else" [ "$(grep -c 'wrong.txt:' "$work/out")" -eq 1 ]
}
wrong 'another answer' 1 'H: pass 1 40004001 0300050F 90000010 64617461 = dropped 5' 's/5$/6/'
wrong 'another value' 1 'see logs 6 = 0x00040000 18 0x00000002 0x030005FF 0x900FFFFC 0' 's/18/19/'
wrong 'a line that cannot be read' 2 'H: pass 1 40004001 0300050F 90000010 64617461 = dropped 5' 's/pass/past/'
told 'a program that cannot be started' 1 tools/nothing tools/second compare 10 tools/nothing
told 'a program that answers something else' 1 'another answer' tools/second compare 10 cat
told 'a program that answers the cases otherwise' 1 'packets.txt:5: ' tools/second cases tests/cases/packets.txt cat

# cut_at BYTES ENDS: a stream of seeded calls that is cut there: both answer alike, and the last answer is broken or not
cut_at() {
    head -c "$1" "$work/stream" >"$work/cut"
    tools/replay <"$work/cut" >"$work/proved"
    tools/second answer <"$work/cut" >"$work/second"
    expect "a stream of $1 bytes: replay and the second program agree" cmp -s "$work/proved" "$work/second"
    if [ "$(tail -c 44 "$work/proved" | hex | cut -c 1-8)" = ffffffff ]; then ends=broken; else ends=well; fi
    expect "a stream of $1 bytes: it ends $ends, and must end $2" [ "$ends" = "$2" ]
}
tools/second record 3 --seed 1 >"$work/stream"
# where the first packet's record is, and how many bytes follow it; none follow a record before it
first=$(hex <"$work/stream" | fold -w 144 | awk 'substr($0, 9, 8) == "00000001" { print NR - 1, "0x" substr($0, 137, 8); exit }')
at=$((72 * ${first% *})) length=$((${first#* }))
expect 'the first packet is not the first call' [ "$at" -gt 72 ]
expect 'and has several bytes' [ "$length" -gt 4 ]
for n in 0 72 "$at" $((at + 72 + length)); do
    cut_at "$n" well
done
for n in 1 71 73 $((at + 1)) $((at + 71)) $((at + 72)) $((at + 73)) $((at + 71 + length)) $((at + 73 + length)); do
    cut_at "$n" broken
done

# ends WHAT VERSION CALL LENGTH: such a record between two good ones ends the run, in both programs
good=$(printf '%088d' 0) bad=ffffffff$(printf '%080d' 0)
ends() {
    { record 1 7 0 0 && record "$2" "$3" 0 "$4" && head -c "$4" /dev/zero && record 1 7 0 0; } >"$work/stream"
    expect "$1 ends replay" [ "$(tools/replay <"$work/stream" | hex)" = "$good$bad" ]
    expect "$1 ends the second program" [ "$(tools/second answer <"$work/stream" | hex)" = "$good$bad" ]
}
ends 'version 0' 0 7 0
ends 'version 2' 2 7 0
for call in 0 9 100 104; do
    ends "call $call" 1 "$call" 0
done
for call in 8 101 103; do
    ends "a byte after call $call" 1 "$call" 1
done
ends 'a packet of 4,201 bytes' 1 1 4201
{ record 1 1 0 4200 && head -c 4200 /dev/zero; } >"$work/stream"
expect 'a packet of 4,200 bytes is passed' [ "$(tools/replay <"$work/stream" | hex | cut -c 1-16)" = 0000002000000002 ]
told 'a stream that cannot be read' 2 'standard input cannot be read' tools/replay <.
tools/replay <"$work/stream" >/dev/full 2>"$work/err"
expect 'answers that cannot be written end it with status 2' [ $? -eq 2 ]

# beside PARTITION..: replay with a passing call that writes beside a buffer, by the partition (tests/beside.c). Buffers lie at the
# start of their room in the first call, and at its end in the second.
beside() {
    for partition; do
        record 1 1 "$partition" 1 && printf x
    done >"$work/stream"
    { tools/x86-64 "$work/beside" <"$work/stream" >"$work/out"; } 2>"$work/err"
    status=$?
}

# caught WHAT PARTITION..: by its status, by the last answer and on standard error
caught() {
    what=$1
    shift
    beside "$@"
    expect "$what: status $status, and must be 1" [ "$status" -eq 1 ]
    expect "$what: the last answer is a broken record's" [ "$(tail -c 44 "$work/out" | hex)" = "$bad" ]
    expect "$what: is told" grep -q "record $# wrote beside a buffer" "$work/err"
}

# stopped WHAT PARTITION..: by a guard page
stopped() {
    what=$1
    shift
    beside "$@"
    expect "$what: status $status, and must be that of a signal" [ "$status" -gt 128 ]
}
expect 'replay with a wrong passing call builds' tools/link-c "$work/beside" tests/beside.c
beside 12 12
expect 'a call that writes beside no buffer is answered' [ "$(hex <"$work/out" | cut -c 1-8,89-96)" = 0000000000000000 ]
expect 'with status 0' [ "$status" -eq 0 ]
{ record 1 101 0 0 && record 1 1 12 0; } >"$work/stream"
expect 'buffers of length 0 are null pointers' [ "$(tools/x86-64 "$work/beside" <"$work/stream" | hex | cut -c 89-96)" = 00000000 ]
for buffer in 0 1 2 3 4 5; do
    caught "a byte past the end of buffer $buffer, at the start of its room" "$buffer"
    stopped "a byte past the end of buffer $buffer, at the end of its room" 12 "$buffer"
    stopped "a byte before buffer $buffer, at the start of its room" $((6 + buffer))
    caught "a byte before buffer $buffer, at the end of its room" 12 $((6 + buffer))
done
finish
