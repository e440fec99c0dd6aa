#!/bin/sh
# The exam sheet through the programs, packets at the edges of a buffer, and ./siphon run: its words, its messages, and that it builds
# what is missing or older than a source, and tells a wrong line.
set -u
cd "$(dirname "$0")/.." || exit 2
. tests/lib.sh

# run WORDS..: ./siphon run; what it printed is in $work/out and $work/err, and its status in $status
run() {
    ./siphon run "$@" >"$work/out" 2>"$work/err"
    status=$?
}

# prints NAME LINE WORDS..: ./siphon run with these words ends well and prints that line alone
prints() {
    name=$1 wanted=$2
    shift 2
    run "$@"
    expect "$name ends well" [ "$status" -eq 0 ]
    expect "$name: '$(cat "$work/out")', and must be '$wanted'" [ "$(cat "$work/out")" = "$wanted" ]
}

# refused NAME STATUS MESSAGE WORDS..: it ends so, with that message on standard error and nothing on standard output
refused() {
    name=$1 wanted=$2 message=$3
    shift 3
    run "$@"
    expect "$name: status $status, and must be $wanted" [ "$status" -eq "$wanted" ]
    expect "$name: '$(cat "$work/err")', and must have '$message'" grep -qF -e "$message" "$work/err"
    expect "$name prints nothing on standard output" [ ! -s "$work/out" ]
}

# every case of the sheet through a program, by the stored lines
run
expect 'the whole sheet is as the paper has it' [ "$status" -eq 0 ]
expect 'A to N are all there, K in two parts and L in three' \
    [ "$(awk 'NR > 1 { printf "%s", $1 }' "$work/out")" = ABCDEFGHIJKKLLLMN ]
expect 'each is the paper'"'"'s' [ "$(grep -c ' yes' "$work/out")" -eq 17 ]
expect 'the line of A' grep -qF 'crossed 0 16 20000001 0146050F 00000001 40000010 ' "$work/out"

prints A 'crossed 0 16 20000001 0146050F 00000001 40000010' A
prints B 'crossed 1 16 4A000001 02000004 03000510' B
prints C 'answered 6 12 0A000000 02002004 03000500' C
prints H 'dropped 5' H
prints M 'crossed 0 16 20000001 01460500 00000001 40000010' M
prints 'M, a write' 'crossed 0 20 60000001 01460500 00000001 40000010' 40000001 03000500 90000010 11223344
prints 'M with last enables 0001' 'dropped 33' 00000001 03000510 90000010
prints 'M refused 5' 'answered 5 12 0A000000 02002001 03000510' 00004001 03000500 90000010
prints 'M refused 6' 'answered 6 12 0A000000 02002001 0300057C' 00000001 03000500 9010007C
prints 'M refused 7' 'answered 7 12 0A000000 02002001 03010510' 00000001 03010500 90000010
prints 'M refused 8' 'answered 8 12 0A000000 02002001 03000500' 00000001 03000500 A0000000
prints 'a small letter' 'dropped 9' j
prints 'words in hex' 'crossed 0 16 20000001 0146050F 00000001 40000010' 00000001 0300050f 90000010
prints 'a short last word' 'dropped 31' 00000001 0300050F 900000
prints 'a sender' 'crossed 1 16 4A000001 02000004 03000510' --from 0 4A000001 01000004 01460510 11223344
prints 'a sender that there is not' 'dropped 1' --from 16 A
prints 'a file' 'crossed 0 16 20000001 0146050F 00000001 40000010' crates/bench/stdin
prints 'standard input' 'crossed 0 16 20000001 0146050F 00000001 40000010' - <crates/bench/stdin
prints 'no bytes' 'dropped 31' - </dev/null

# each rule of form by itself; E is 35 and N 36
prints 'too short' 'dropped 31' 00000001 0300050F 9000
prints 'not carried' 'dropped 4' 01000001 0300050F 90000010
prints 'wrong total length' 'dropped 32' 00000001 0300050F 90000010 00000000
prints 'enables' 'dropped 33' 00000002 0300050F 90000018
prints 'contiguity' 'dropped 34' 00000003 030005F7 90000018
prints '4 KiB crossing' 'dropped 35' E
prints 'zero high word' 'dropped 36' N
# two neighbours at once: the first gives its number
prints '31 before 4' 'dropped 31' 01000001 0300050F 900000
prints '4 before 32' 'dropped 4' 01000001 0300050F 90000010 00000000
prints '32 before 33' 'dropped 32' 00000001 0300051F 90000010 00000000
prints '33 before 34' 'dropped 33' 00000003 030005F0 90000018
prints '34 before 35' 'dropped 34' 00000002 030005F7 900FFFFC
prints '35 before 36' 'dropped 35' 20000002 030005FF 00000000 900FFFFC

# bench sends from partition 1 alone
for letter in B I J; do
    prints "$letter from 1" 'dropped 9' --from 1 "$letter"
done

refused 'a wrong letter' 2 "there is no case 'Z'" Z
refused 'bad hex' 2 "'0000000G' is no case" 0000000G
refused 'bad hex in a later word' 2 "'9000001x' is no case" 00000001 9000001x
refused 'a word of seven digits' 2 "'0000001' has 7 hex digits" 0000001
refused 'a short word before the last' 2 "'0300' has 4 hex digits" 0300 90000010
refused 'an empty word' 2 "'' is no case" ''
refused 'two cases' 2 'one packet is wanted' A B
refused 'a file that is not there' 2 "'none.bin' is no case" none.bin
refused 'a sender of letters' 2 '--from wants a partition' --from one A
refused 'a sender and no packet' 2 'wants a packet after' --from 1
refused 'a directory for a packet' 1 'standard input cannot be read' - <.
refused 'a closed input' 1 'standard input cannot be read' - <&-

# bench PACKET-FILE..: the line of a packet made of these files
bench() {
    cat "$@" | tools/x86-64 target/bin/bench
}

# a write of 1,024 dwords with a 64-bit header is the longest packet: 4,112 bytes; one byte more is too many, and so is any more
printf '\140\0\0\0\003\0\005\377\0\0\0\001\100\0\0\0' >"$work/long-header"
printf '\100\0\0\0\003\0\005\377\220\0\0\0' >"$work/header"
head -c 4096 /dev/zero >"$work/data"
expect 'the longest packet is refused for its window alone' [ "$(bench "$work/long-header" "$work/data")" = 'dropped 6' ]
expect 'a write of 4,096 bytes crosses' [ "$(bench "$work/header" "$work/data")" = 'crossed 0 4112 60000000 014605FF 00000001 40000000' ]
printf x >"$work/x"
expect '4,113 bytes are refused' [ "$(bench "$work/long-header" "$work/data" "$work/x")" = 'dropped 32' ]
expect 'more are cut and refused' [ "$(bench "$work/long-header" "$work/data" "$work/data")" = 'dropped 32' ]
expect 'the other program names what it wants' \
    [ "$(tools/x86-64 target/bin/send 100 </dev/null)" = 'send: one word is wanted, the sender, as one or two decimal digits' ]
expect 'also where there is none' \
    [ "$(tools/x86-64 target/bin/send </dev/null)" = 'send: one word is wanted, the sender, as one or two decimal digits' ]

# a repository of its own, where a line of the sheet is another, and then no program stands
repo=$work/repo
mkdir -p "$repo/crates" "$repo/target/bin" "$repo/bin"
cp siphon crates.txt "$repo/"
cp -R tools "$repo/"
sed 's/^H\(.*\)dropped 5/H\1dropped 6/' tools/sheet.txt >"$repo/tools/sheet.txt"
cp target/bin/bench target/bin/send "$repo/target/bin/"
(cd "$repo" && ./siphon run >"$work/out" 2>"$work/err")
expect 'a line that is not the paper'"'"'s ends with status 1' [ $? -eq 1 ]
expect 'and is told' grep -q '^H .* NO, it has: dropped 6$' "$work/out"
expect 'it alone' [ "$(grep -c ' yes' "$work/out")" -eq 16 ]

# rt_does LINE..: in that repository rt is a stand-in for `rt run` in a crate's folder: what it says is on standard error, what the
# program that it runs says on standard output, and it does this
rt_does() {
    printf '%s\n' '#!/bin/sh' '[ "$*" = "run --cpu x86-64" ] || exit 2' 'echo "building ${PWD##*/}" >&2' 'echo dropped 31' "$@" >"$repo/bin/rt"
    chmod +x "$repo/bin/rt"
}

# run_there WORDS..: ./siphon run in it
run_there() {
    (cd "$repo" && PATH=$repo/bin:$PATH ./siphon run "$@" >"$work/out" 2>"$work/err")
    status=$?
}

rm "$repo/target/bin/send"
mkdir -p "$repo/crates/bench" "$repo/crates/send/src"
rt_does 'exit 1'
run_there A
expect 'a build that fails ends with status 1' [ "$status" -eq 1 ]
expect 'its progress is on standard error' grep -q '^building send$' "$work/err"
expect 'with nothing on standard output' [ ! -s "$work/out" ]
rt_does 'mkdir -p out' "cp '$PWD/target/bin/send' out/send"
run_there B
expect 'what is missing is built' [ "$(cat "$work/out")" = 'crossed 1 16 4A000001 02000004 03000510' ]
expect 'and nothing else' [ "$(grep '^building ' "$work/err")" = 'building send' ]
rt_does 'exit 1'
touch "$repo/crates/send/out/kept"
run_there B
expect 'and stands, whatever rt keeps beside it' [ "$(cat "$work/out")" = 'crossed 1 16 4A000001 02000004 03000510' ]
touch "$repo/crates/send/src/main.rt"
run_there B
expect 'a program that is older than a source is built again' grep -q '^building bench$' "$work/err"
finish
