#!/bin/sh
# The example in C and the calls one by one, built against the library by tools/link-c and run; the header in C++, and a switch
# there; and what tools/link-c tells.
set -u
cd "$(dirname "$0")/.." || exit 2
. tests/lib.sh

# builds WAY NAME FILE.c WANTED: the program of a C file, linked this way, ends well and prints what the file WANTED has
builds() {
    if SIPHON_LINK=$1 tools/link-c "$work/program" "$3" >"$work/log" 2>&1; then built=yes; else built=no; fi
    [ "$built" = yes ] || cat "$work/log"
    expect "$3 is built $2" [ "$built" = yes ]
    [ "$built" = yes ] || return
    tools/x86-64 "$work/program" >"$work/out"
    expect "$3 built $2 ends well" [ $? -eq 0 ]
    expect "$3 built $2 prints what it must" diff "$work/out" "$4"
    rm "$work/program"
}

# both FILE.c WANTED: by the toolchain's compiler, and by the system's too
both() {
    builds kit "by the toolchain's compiler" "$1" "$2"
    builds x86_64 "by the system's compiler" "$1" "$2"
}

both examples/c/lesson.c examples/c/lesson.stdout
echo '231 passed, 0 failed' >"$work/wanted"
both tests/abi.c "$work/wanted"

# a program in a folder with a blank in its name
mkdir "$work/a folder"
cat >"$work/a folder/one.c" <<'C'
#include "siphonpear.h"
int main(void)
{
    return (int)siphon_pass(0, 0, 0, 0, 0, 0, 0, 0, 0, 0, 0, 0, 0);
}
C
tools/link-c "$work/a folder/one" "$work/a folder/one.c" 2>"$work/log"
expect 'a file elsewhere is built' [ $? -eq 0 ]
tools/x86-64 "$work/a folder/one"
expect 'a call with nothing lent is refused by 1' [ $? -eq 1 ]

# as_cpp WORD..: clang for C++, with these words
kit=$(dirname "$(rt doc)")
as_cpp() {
    "$kit/toolchain/bin/clang" --target=x86_64-unknown-linux-gnu -std=c++11 -fPIC -Wall -Wextra -Werror -pedantic -nostdinc \
        -isystem tools/c-headers -I include "$@"
}

# in C++ the names are those of C
cp "$work/a folder/one.c" "$work/one.cc"
as_cpp -S -o "$work/one.s" "$work/one.cc"
expect 'the header is C++ too' [ $? -eq 0 ]
expect 'and its names are those of C' grep -qw siphon_pass "$work/one.s"

# and a switch is idle there: refusal 2 from the static one, and, when its partition is active, 31 for no bytes from the other
cat >"$work/two.cc" <<'CC'
#include "siphonpear.h"
static struct siphon_switch held = SIPHON_SWITCH_IDLE;
static uint8_t out[SIPHON_OUT];
int main()
{
    struct siphon_switch own = SIPHON_SWITCH_IDLE;
    uint32_t answer[SIPHON_ANSWER];
    uint32_t idle = siphon_switch_pass(&held, 15, nullptr, 0, out, sizeof out, answer, SIPHON_ANSWER);
    uint32_t done = siphon_switch_set_bus(&own, 15, 16);
    uint32_t active = siphon_switch_pass(&own, 15, nullptr, 0, out, sizeof out, answer, SIPHON_ANSWER);
    return idle == SIPHON_SENDER_INACTIVE && done == SIPHON_DONE && active == SIPHON_TOO_SHORT ? 0 : 1;
}
CC
as_cpp -c -o "$work/two.o" "$work/two.cc"
expect 'a switch is made in C++' [ $? -eq 0 ]
"$kit/bin/rattle-link" --target x86_64-unknown-linux-gnu --toolchain "$kit/toolchain" -o "$work/two" "$work/two.o" \
    "$(tools/archive)" >"$work/log" 2>&1 || cat "$work/log"
expect 'and linked' [ -f "$work/two" ]
tools/x86-64 "$work/two"
expect 'and is idle' [ $? -eq 0 ]

# what cannot be done is told
echo 'int main(void) { return missing(); }' >"$work/wrong.c"
tools/link-c "$work/wrong" "$work/wrong.c" 2>"$work/log"
expect 'wrong C is refused' [ $? -ne 0 ]
expect 'by the name of what is wrong' grep -q missing "$work/log"
tools/link-c "$work/none" 2>"$work/log"
expect 'no file: status 2' [ $? -eq 2 ]
expect 'no file: a message' grep -qF 'which files?' "$work/log"
mkdir "$work/arm"
printf '#!/bin/sh\necho aarch64\n' >"$work/arm/uname"
chmod +x "$work/arm/uname"
for way in x86_64 kit; do
    PATH=$work/arm:$PATH SIPHON_LINK=$way tools/link-c "$work/none" examples/c/lesson.c 2>"$work/log"
    expect "another machine by $way: status 2" [ $? -eq 2 ]
    expect "another machine by $way: named" grep -qF 'on this machine, aarch64' "$work/log"
    expect "another machine by $way: nothing is made" [ ! -e "$work/none" ]
done
SIPHON_LINK=else tools/link-c "$work/none" examples/c/lesson.c 2>"$work/log"
expect 'another way to link: status 2' [ $? -eq 2 ]
expect 'another way to link: named' grep -qF 'and not else' "$work/log"
mkdir "$work/bin"
for tool in sh dirname sed find id uname; do
    ln -s "$(command -v "$tool")" "$work/bin/$tool"
done
(PATH=$work/bin && export PATH && SIPHON_LINK=x86_64 && export SIPHON_LINK && tools/link-c "$work/none" examples/c/lesson.c 2>"$work/log")
expect 'no compiler: status 2' [ $? -eq 2 ]
expect 'no compiler: what is missing' grep -qF 'packages gcc and libc6-dev' "$work/log"
finish
