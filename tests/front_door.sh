#!/bin/sh
# The front door: its help, its refusals, and the gate's sums over a stand-in for rt.
set -u
cd "$(dirname "$0")/.." || exit 2
. tests/lib.sh

# siphon WORDS..: what it printed is in $work/out and $work/err, and its status in $status
siphon() {
    ./siphon "$@" >"$work/out" 2>"$work/err"
    status=$?
}

has() { grep -q -e "$2" "$work/$1"; }

siphon help
expect 'help ends well' [ "$status" -eq 0 ]
expect 'help names the test' has out './siphon test'
siphon
expect 'no word gets the help' has out './siphon test'
siphon tset
expect 'an unknown word is refused' [ "$status" -eq 2 ]
expect 'and named' has err "'tset' is no word"
expect 'with nothing on standard output' [ ! -s "$work/out" ]
siphon test now
expect 'a word too many is refused' [ "$status" -eq 2 ]
expect 'and named too' has err 'got: now'

siphon soak
expect 'soak without a number is refused' [ "$status" -eq 2 ]
siphon soak many
expect 'and with a wrong one' has err 'got: many'
siphon soak 10 --seed
expect 'and with a seed that is none' [ "$status" -eq 2 ]
siphon speed now
expect 'speed with an unknown word is refused' [ "$status" -eq 2 ]
expect 'and the word named' has err 'got: now'
siphon speed --before
expect 'and without the other folder' has err 'got: --before'
for folder in '' tests nowhere; do
    siphon speed --before "$folder"
    expect "and with '$folder', which is no checkout" [ "$status" -eq 2 ]
    expect "and '$folder' named" has err "got: $folder\$"
done

# A repository of its own, with a stand-in for rt and one test. Each case: what the gate must be and its last line; what rt ci says
# before its own last line, that line, and its status; what the test prints and its status. rt is called once: rt ci, at the top.
gate() { # green|red LAST RT-SAYS RT-PRINTS RT-STATUS TEST-PRINTS TEST-STATUS
    rm -rf "$work/repo"
    mkdir -p "$work/repo/tests" "$work/repo/bin"
    cp siphon "$work/repo/"
    printf '#!/bin/sh\necho "$PWD:" "$@" >>"%s"\nprintf "%%s\\n" working "%s" "%s"\nexit %s\n' "$work/repo/called" "$3" "$4" "$5" \
        >"$work/repo/bin/rt"
    printf 'echo "%s"\nexit %s\n' "$6" "$7" >"$work/repo/tests/one.sh"
    chmod +x "$work/repo/bin/rt"
    (PATH=$work/repo/bin:$PATH && export PATH && cd "$work/repo" && ./siphon test >"$work/out" 2>&1)
    if [ $? -eq 0 ]; then is=green; else is=red; fi
    expect "rt ci '$3', '$4' ($5), test '$6' ($7): the gate is $is, and must be $1" [ "$is" = "$1" ]
    expect "the same: the last line is '$(tail -n 1 "$work/out")', and must be '$2'" [ "$(tail -n 1 "$work/out")" = "$2" ]
    expect "the same: rt is called so: '$(cat "$work/repo/called")'" [ "$(cat "$work/repo/called")" = "$work/repo: ci" ]
}

ok='rt: ok; handles allowed: none; must-fail edits: 5 refused' done='every proof and must-fail edit was done in this run'
gate green '10 passed, 0 failed' "$ok; $done" '7 passed, 0 failed' 0 '3 passed, 0 failed' 0
gate red '9 passed, 1 failed' 'rt: FAILED: ground' '6 passed, 1 failed' 1 '3 passed, 0 failed' 0
gate red '9 passed, 1 failed' "$ok; $done" '7 passed, 0 failed' 0 '2 passed, 1 failed' 1
gate red '10 passed, 1 failed' "$ok; $done" '7 passed, 0 failed' 2 '3 passed, 0 failed' 0
gate red '3 passed, 1 failed' nothing 'no verdict' 3 '3 passed, 0 failed' 0
gate red '3 passed, 1 failed' "$ok; $done" '7 passed, 0 failed (ground and the crates below alone: not the gate)' 0 '3 passed, 0 failed' 0
gate red '7 passed, 1 failed' "$ok; $done" '7 passed, 0 failed' 0 'nothing' 0
gate red '7 passed, 1 failed' "$ok; $done" '7 passed, 0 failed' 0 '0 passed, 0 failed' 0

# what rt ci says of must-fail edits that cannot be applied, compiled or read: it ends well, and the gate does not
gate green '10 passed, 0 failed' "$ok, 0 bad; $done" '7 passed, 0 failed' 0 '3 passed, 0 failed' 0
gate red '10 passed, 2 failed' "$ok, 2 bad; $done" '7 passed, 0 failed' 0 '3 passed, 0 failed' 0
gate green '10 passed, 0 failed' "$ok, 3 of them only by a limit; $done" '7 passed, 0 failed' 0 '3 passed, 0 failed' 0
gate red '10 passed, 10 failed' "$ok, 3 of them only by a limit, 10 bad; $done" '7 passed, 0 failed' 0 '3 passed, 0 failed' 0
gate red '10 passed, 1 failed' 'nothing of them' '7 passed, 0 failed' 0 '3 passed, 0 failed' 0
finish
