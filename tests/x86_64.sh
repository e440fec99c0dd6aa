#!/bin/sh
# The script that runs a built program, on bench and on a stand-in that prints the words that it is handed; and its refusals, of
# other machines too.
set -u
cd "$(dirname "$0")/.." || exit 2
. tests/lib.sh

# run MACHINE WORDS..: as on that machine, by a stand-in for uname; on this one where MACHINE is `here`
run() {
    machine=$1
    shift
    mkdir -p "$work/bin"
    rm -f "$work/bin/uname"
    if [ "$machine" != here ]; then
        printf '#!/bin/sh\necho %s\n' "$machine" >"$work/bin/uname"
        chmod +x "$work/bin/uname"
    fi
    (PATH=$work/bin:$PATH && export PATH && tools/x86-64 "$@") >"$work/out" 2>"$work/err"
    status=$?
}

expect 'a program is built' tools/build bench
run here target/bin/bench <crates/bench/stdin
expect 'a program runs' [ "$status" -eq 0 ]
expect 'and writes what it must' cmp -s "$work/out" crates/bench/stdout
run here
expect 'no program is refused' [ "$status" -eq 2 ]
run here target/bin/nothing
expect 'a program that is not there is refused' [ "$status" -eq 2 ]
expect 'and named' grep -q 'no program target/bin/nothing' "$work/err"
run abacus target/bin/bench
expect 'an unknown machine is refused' [ "$status" -eq 2 ]
expect 'and named too' grep -q abacus "$work/err"
run aarch64 target/bin/bench one two <crates/bench/stdin
expect 'Arm is refused' [ "$status" -eq 2 ]
expect 'and named as well' grep -q 'on this machine, aarch64$' "$work/err"
expect 'and nothing is run there' [ ! -s "$work/out" ]

# what a program is handed
printf '#!/bin/sh\nprintf "%%s\\n" "$0" "$@"\n' >"$work/words"
chmod +x "$work/words"
run x86_64 "$work/words" one 'two three' ''
printf '%s\n' "$work/words" one 'two three' '' >"$work/wanted"
expect 'a program is handed its words' cmp -s "$work/out" "$work/wanted"
finish
