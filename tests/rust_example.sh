#!/bin/sh
# The wrapper in Rust: its tests, what its types refuse, and its declarations against the header; on x86-64 also the calls and
# the lesson, linked by tools/link-rust; and what tools/link-rust tells.
set -u
cd "$(dirname "$0")/.." || exit 2
. tests/lib.sh
wrapper=examples/rust/siphonpear.rs

# made NAME COMMAND..: a command that compiles succeeds; if not, what it said is shown
made() {
    what=$1
    shift
    if "$@" >"$work/log" 2>&1; then made=yes; else made=no; fi
    [ "$made" = yes ] || cat "$work/log"
    expect "$what" [ "$made" = yes ]
}

# tested PROGRAM NUMBER: a program of tests, so many of them, passes them all
tested() {
    if "$1" >"$work/out" 2>&1; then ended=well; else ended=badly; fi
    [ "$ended" = well ] || cat "$work/out"
    expect "${1##*/} ends well" [ "$ended" = well ]
    expect "${1##*/} has $2 tests" grep -q "^test result: ok. $2 passed; 0 failed" "$work/out"
}

# what needs no library
made 'the tests without the library are built' tools/rustc --test -o "$work/plain" "$wrapper"
tested "$work/plain" 9

# the wrapper with its calls, only compiled: for that no library is needed
seen=$work/libsiphonpear.rmeta
made 'the calls are compiled' tools/rustc --crate-type lib --cfg linked --emit metadata -o "$seen" "$wrapper"

# compiled LINE: a program with this line is compiled; $work/log has what the compiler says
compiled() {
    cat >"$work/line.rs" <<RS
use siphonpear::{Switch, OUT};
fn main() {
    let (mut switch, mut out, packet) = (Switch::idle(), [0; OUT], [0; 12]);
    println!("{}", switch.pass(1, &packet, &mut out));
    $1
}
RS
    tools/rustc --emit metadata --extern "siphonpear=$seen" -o "$work/line.rmeta" "$work/line.rs" >"$work/log" 2>&1
}

# refused NAME WHY LINE: the compiler refuses this line, and says why
refused() {
    if compiled "$3"; then told=no; else told=yes; fi
    expect "$1 is refused" [ "$told" = yes ]
    expect "$1 is refused with $2" grep -q "^error.*$2" "$work/log"
}

compiled 'println!("{}", switch.pass(16, &out.clone()[..12], &mut out));'
expect 'a right line is compiled' [ $? -eq 0 ]
refused 'a short Out' E0308 'println!("{}", switch.pass(1, &packet, &mut [0; OUT - 1]));'
refused 'a packet inside Out' E0502 'println!("{}", switch.pass(1, &out[..12], &mut out));'
refused 'a table of another length' E0308 'switch.windows = [0; 767];'
refused 'an Out that changes under its packet' E0506 'let o = switch.pass(1, &packet, &mut out); out[0] = 1; println!("{o}");'
refused 'a call of the library itself' E0603 'unsafe { siphonpear::ffi::siphon_clear_log(0, 0, switch.logs.as_mut_ptr(), 96) };'
refused 'a table call whose refusal nobody looks at' 'must be used' 'switch.empty_window(1, 0);'
refused 'a packet whose outcome nobody looks at' 'must be used' 'switch.pass(1, &packet, &mut out);'

# declared_in_rust FILE: the calls that the wrapper declares, as C has them, its constants, and what its switch has: the tables,
# and the calls on it by their names
declared_in_rust() {
    sed -n '/extern "C" {/,/^    }$/p' "$1" | tr '\n' ' ' | tr ';' '\n' | sed -n '
        s/  */ /g
        s/( /(/
        s/,* )/)/
        s/\([a-z_]*\): \*const u\([0-9]*\)/const uint\2_t *\1/g
        s/\([a-z_]*\): \*mut u\([0-9]*\)/uint\2_t *\1/g
        s/\([a-z_]*\): u\([0-9][0-9]*\)/uint\2_t \1/g
        s/\([a-z_]*\): usize/size_t \1/g
        s/.*fn \(siphon_.*)\) -> u\([0-9]*\)$/uint\2_t \1/p'
    awk '
        /^pub enum/ { prefix = $3 == "LogBit" ? "SIPHON_LOG" : "SIPHON" }
        /^    [A-Z][A-Za-z]* = [0-9]+,$/ { name = $1; gsub(/[A-Z]/, "_&", name); print prefix toupper(name), $3 + 0 }
        /^pub const [A-Z]*: [a-z0-9]* = [0-9]*;$/ { print "SIPHON_" substr($3, 1, length($3) - 1), $6 + 0 }' "$1"
    sed -n '
        s/^    pub \([a-z]*\): \[u\([0-9]*\); \([A-Z]*\)\],$/uint\2_t \1[SIPHON_\3]/p
        s/^        pub fn \([a-z_]*\)[<(].*/siphon_switch_\1/p' "$1"
}

# agree FILE: the wrapper FILE declares what the header does; $work/told has the lines that only one of them has
agree() {
    declared_in_rust "$1" | sort >"$work/rust"
    diff "$work/rust" "$work/c" >"$work/told"
}

{
    tr '\n' ' ' <include/siphonpear.h | tr ';' '\n' | sed -n '/static inline/d; s/  */ /g; s/.*\(uint32_t siphon_[a-z_]*(.*)\)$/\1/p'
    awk '$1 == "#define" && $3 ~ /^[0-9]+$/ { print $2, $3 }' include/siphonpear.h
    sed -n '
        s/^    \(uint[0-9]*_t [a-z]*\[SIPHON_[A-Z]*\]\);$/\1/p
        s/^static inline uint32_t \(siphon_switch_[a-z_]*\)(.*/\1/p' include/siphonpear.h
} | sort >"$work/c"
expect 'the header has eight calls, thirty constants, three tables and eight calls on a switch' [ "$(wc -l <"$work/c")" -eq 49 ]
if agree "$wrapper"; then told=; else told=$(cat "$work/told"); fi
expect "the wrapper agrees with the header: $told" [ -z "$told" ]

# wrong NAME EDIT: with this edit it does not
wrong() {
    sed "$2" "$wrapper" >"$work/wrong.rs"
    if agree "$work/wrong.rs"; then told=no; else told=yes; fi
    expect "$1 is told" [ "$told" = yes ]
}
wrong 'a parameter of another type' 's/id: u16, numbers/id: u32, numbers/'
wrong 'two parameters swapped' 's/p: u32, ones: u32/ones: u32, p: u32/'
wrong 'a refusal of another number' 's/Overlap = 11/Overlap = 12/'
wrong 'two numbers of form swapped' 's/Enables = 33/Enables = 34/;s/Contiguity = 34/Contiguity = 33/'
wrong 'an array of another length' 's/LOGS: usize = 96/LOGS: usize = 95/'
wrong 'a table with the length of another' 's/pub logs: \[u32; LOGS\]/pub logs: [u32; NUMBERS]/'
wrong 'a table missing' '/^    pub logs: /d'
wrong 'a call on a switch of another name' 's/pub fn free_entry/pub fn empty_entry/'

# what tools/link-rust tells
tools/link-rust "$work/none" 2>"$work/log"
expect 'no file: status 2' [ $? -eq 2 ]
expect 'no file: a message' grep -qF 'which file?' "$work/log"
mkdir "$work/arm" "$work/bin"
printf '#!/bin/sh\necho aarch64\n' >"$work/arm/uname"
chmod +x "$work/arm/uname"
PATH=$work/arm:$PATH tools/link-rust "$work/none" examples/rust/lesson.rs 2>"$work/log"
expect 'another machine: status 3' [ $? -eq 3 ]
expect 'another machine: why' grep -qF 'the library is for x86-64' "$work/log"
for tool in sh id; do
    ln -s "$(command -v "$tool")" "$work/bin/$tool"
done
(PATH=$work/bin && export PATH && tools/rustc --version 2>"$work/log")
expect 'no compiler: status 2' [ $? -eq 2 ]
expect 'no compiler: what is missing' grep -qF 'package rustc' "$work/log"
[ "$(uname -m)" = x86_64 ] || finish

# on x86-64: the calls, and the lesson
made 'the tests with the library are linked' tools/link-rust "$work/linked" "$wrapper" --test
tested "$work/linked" 19
lesson="$work/a folder/lesson"
mkdir "$work/a folder"
cp examples/rust/lesson.rs "$lesson.rs"
made 'the lesson is linked, in a folder with a blank in its name' tools/link-rust "$lesson" "$lesson.rs" -O
"$lesson" >"$work/out"
expect 'the lesson ends well' [ $? -eq 0 ]
expect 'the lesson prints what the one in C prints' diff "$work/out" examples/c/lesson.stdout
echo 'fn main() { missing() }' >"$work/wrong.rs"
tools/link-rust "$work/wrong" "$work/wrong.rs" 2>"$work/log"
expect 'wrong Rust is refused' [ $? -ne 0 ]
expect 'by the name of what is wrong' grep -q missing "$work/log"
finish
