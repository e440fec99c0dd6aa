#!/bin/sh
# tools/archive in a repository of its own, with a stand-in for rt: when it builds the library, what it prints, and its refusals.
set -u
cd "$(dirname "$0")/.." || exit 2
. tests/lib.sh
repo=$work/repo
library=$repo/target/staticlib/libsiphonpear.a
mkdir -p "$repo/tools" "$repo/bin" "$repo/crates/low/src" "$repo/crates/low/specs" "$repo/crates/siphonpear_c/src" "$repo/crates/beside/src"
cp tools/archive "$repo/tools/"
printf '%s\n' 'low: # below' 'siphonpear_c staticlib: low # for C' 'beside: low' >"$repo/crates.txt"

# rt_does LINE..: rt is a stand-in for `rt lib --cpu x86-64` in crates/siphonpear_c, and does this
rt_does() {
    printf '%s\n' '#!/bin/sh' '[ "$*" = "lib --cpu x86-64" ] && [ "${PWD##*/}" = siphonpear_c ] || exit 2' 'echo building' "$@" >"$repo/bin/rt"
    chmod +x "$repo/bin/rt"
}

# archive: tools/archive; what it printed is in $work/out and $work/err, and its status in $status
archive() {
    (PATH=$repo/bin:$PATH && export PATH && "$repo/tools/archive") >"$work/out" 2>"$work/err"
    status=$?
}

# stands: all sources are older than the library, which has other text than a build gives
stands() {
    find "$repo/crates" "$repo/crates.txt" -exec touch -t 200001010000 {} +
    echo standing >"$library"
    touch -t 200001020000 "$library"
}

# prints NAME TEXT: tools/archive ends well, and prints the library's path alone; the library then has that text
prints() {
    archive
    expect "$1: it ends well" [ "$status" -eq 0 ]
    expect "$1: it prints the path: '$(cat "$work/out")'" [ "$(cat "$work/out")" = "$library" ]
    expect "$1: the library is $(cat "$library"), and must be $2" [ "$(cat "$library")" = "$2" ]
}

# refused NAME MESSAGE: it ends with status 2 and that message, and prints nothing
refused() {
    archive
    expect "$1: status $status, and must be 2" [ "$status" -eq 2 ]
    expect "$1: '$(cat "$work/err")', and must have '$2'" grep -qF -e "$2" "$work/err"
    expect "$1: nothing on standard output" [ ! -s "$work/out" ]
}

rt_does 'mkdir -p out' 'echo built >out/libsiphonpear_c.a'
prints 'no library' built
expect 'what rt says is on standard error' grep -q '^building$' "$work/err"
stands
prints 'a library that is newer' standing
for file in crates/siphonpear_c/out/kept crates/beside/src/lib.rt; do
    stands
    touch "$repo/$file"
    prints "a newer $file" standing
done
for file in crates/siphonpear_c/src/lib.rt crates/low/src/lib.rt crates/low/specs/Lib.antt crates.txt; do
    stands
    touch "$repo/$file"
    prints "a newer $file" built
done

rt_does 'exit 1'
rm "$library"
refused 'a build that fails' 'rt lib failed in crates/siphonpear_c'
expect 'and leaves no library' [ ! -e "$library" ]
echo 'low:' >"$repo/crates.txt"
refused 'no such crate' 'crates.txt has no static library siphonpear_c'
finish
