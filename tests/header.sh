#!/bin/sh
# include/siphonpear.h against the sources: every exported call by its name and by the order, names and types of its parameters,
# the call on a switch that makes it, the tables of a switch, and every constant; and that each sort of wrong header is told.
set -u
cd "$(dirname "$0")/.." || exit 2
. tests/lib.sh
header=include/siphonpear.h

# calls_of_source FILE..: each exported call as C declares it: a slice is a pointer and a length
calls_of_source() {
    awk '
        function c_type(t) {
            if (t ~ /^u(8|16|32|64)$/) return "uint" substr(t, 2) "_t"
            return "unknown(" t ")"
        }
        function declared(name, type, inner) {
            if (type !~ /^&/) return c_type(type) " " name
            inner = type
            sub(/^&(mut )?\[/, "", inner)
            sub(/\]$/, "", inner)
            return (type ~ /^&mut / ? "" : "const ") c_type(inner) " *" name ", size_t " name "_length"
        }
        /#\[unsafe\(no_mangle\)\]/ { text = ""; inside = 1; next }
        inside { text = text " " $0 }
        inside && /-> / {
            inside = 0
            name = text; sub(/.*fn /, "", name); sub(/\(.*/, "", name)
            result = text; sub(/.*-> */, "", result); sub(/[ {].*/, "", result)
            list = text; sub(/^[^(]*\(/, "", list); sub(/,? *\) *->.*/, "", list)
            n = split(list, parameter, /, */)
            line = c_type(result) " " name "("
            for (i = 1; i <= n; i++) {
                gsub(/^ +| +$/, "", parameter[i])
                split(parameter[i], part, /: */)
                line = line (i > 1 ? ", " : "") declared(part[1], part[2])
            }
            print line ")"
        }' "$@"
}

# switch_of_calls: from calls as C declares them, on standard input, what a switch makes of them. Its fields are the tables: all
# buffers but the packet, Out and the answer. The call on a switch takes the other parameters, and hands over all in order.
switch_of_calls() {
    echo 'struct siphon_switch {'
    awk '
        {
            call = $2; sub(/\(.*/, "", call)
            over = call; sub(/^siphon_/, "siphon_switch_", over)
            list = $0; sub(/^[^(]*\(/, "", list); sub(/\)$/, "", list)
            n = split(list, parameter, /, /)
            taken = "struct siphon_switch *s"; handed = ""
            for (i = 1; i <= n; i++) {
                name = parameter[i]; sub(/.*[ *]/, "", name)
                if (parameter[i] ~ /\*/ && name !~ /^(packet|out|answer)$/) {
                    field = parameter[i++]; sub(/^const /, "", field); sub(/\*/, "", field)
                    print field "[SIPHON_" toupper(name) "]"
                    handed = handed ", s->" name ", SIPHON_" toupper(name)
                } else {
                    taken = taken ", " parameter[i]
                    handed = handed ", " name
                }
            }
            print "static inline " $1 " " over "(" taken ") { return " call "(" substr(handed, 3) ")"
        }'
}

# calls_of_header FILE: each declaration of it on a line, with single blanks: a call, a field, or a call on a switch up to its
# only semicolon
calls_of_header() {
    awk '
        {
            line = $0
            kept = ""
            while (line != "") {
                at = index(line, comment ? "*/" : "/*")
                if (!comment) kept = kept (at ? substr(line, 1, at - 1) : line)
                line = at ? substr(line, at + 2) : ""
                if (at) comment = !comment
            }
            if (!macro && kept !~ /^(#|extern "C" \{|\})/) text = text " " kept
            macro = (macro || /^#/) && /\\$/
        }
        END {
            sub(/struct siphon_switch \{/, "&;", text)
            n = split(text, declaration, /;/)
            for (i = 1; i <= n; i++) {
                gsub(/[ \t]+/, " ", declaration[i]); gsub(/^ | $/, "", declaration[i])
                if (declaration[i] != "") print declaration[i]
            }
        }' "$1"
}

# numbers_of PREFIX FILE: the cases `Name = N` of an enum, and the arms `Enum::Name => N` of a conversion `from`, as PREFIX_NAME N
numbers_of() {
    PREFIX=$1 awk '
        /^pub enum / || /^    fn from\(/ { inside = 1 }
        inside && /^(    )?}$/ { inside = 0 }
        inside && /^ +([A-Za-z]+ =|[A-Za-z]+::[A-Za-z]+ =>) [0-9]+,/ {
            name = $1; sub(/.*::/, "", name); gsub(/[A-Z]/, "_&", name)
            value = $3; sub(/,/, "", value)
            print ENVIRON["PREFIX"] toupper(name), value
        }' "$2"
}

# done_of AS FILE: the arm `Ok(()) => N` of the function `call_number` of a file, as AS N
done_of() {
    AS=$1 awk '
        /^pub fn call_number\(/ { inside = 1 }
        inside && /^}$/ { inside = 0 }
        inside && $1 == "Ok(())" && $2 == "=>" { value = $3; sub(/,/, "", value); print ENVIRON["AS"], value }' "$2"
}

# constant_of AS FILE NAME: the constant NAME of a file, as AS N
constant_of() {
    AS=$1 NAME=$3 awk '
        { sub(/^ +/, "") }
        $1 == "pub" && $2 == "const" && $3 == ENVIRON["NAME"] ":" { value = $6; gsub(/[_;]/, "", value); print ENVIRON["AS"], value }' "$2"
}

constants_of_source() {
    numbers_of SIPHON crates/routing/src/refusal.rt
    numbers_of SIPHON crates/tlp/src/form.rt
    numbers_of SIPHON crates/ground/src/table.rt
    done_of SIPHON_DONE crates/ground/src/table.rt
    numbers_of SIPHON_LOG crates/logs/src/lib.rt
    constant_of SIPHON_WINDOWS crates/rows/src/lib.rt LENGTH
    constant_of SIPHON_NUMBERS crates/numbers/src/entries.rt LENGTH
    constant_of SIPHON_LOGS crates/logs/src/lib.rt LENGTH
    constant_of SIPHON_OUT crates/routing/src/rule.rt LENGTH
    constant_of SIPHON_ANSWER crates/siphonpear/src/passing.rt ANSWER_LENGTH
    for name in CROSSED ANSWERED DROPPED; do
        constant_of "SIPHON_$name" crates/siphonpear/src/passing.rt "$name"
    done
}

# constants_of_header FILE: its constants, as NAME N: all that is defined but the idle switch, which tests/abi.c tries, and what
# writes a word sixteen times
constants_of_header() {
    awk '$1 == "#define" && NF > 2 && $2 !~ /^SIPHON_(SWITCH_IDLE|16\(x\))$/ { print $2, $3 }' "$1"
}

# agree FILE: the header FILE says what the sources say; $work/told has the lines that only the header (<) or only they have (>)
agree() {
    calls_of_header "$1" >"$work/header"
    constants_of_header "$1" >>"$work/header"
    sort "$work/header" >"$work/header-sorted"
    diff "$work/header-sorted" "$work/source" >"$work/told"
}

calls_of_source crates/siphonpear_c/src/*.rt >"$work/calls"
{
    cat "$work/calls"
    switch_of_calls <"$work/calls"
    constants_of_source
} | sort -u >"$work/source"

expect 'the sources have eight calls' [ "$(grep -c '^uint32_t siphon_' "$work/source")" -eq 8 ]
expect 'so there are eight on a switch' [ "$(grep -c '^static inline uint32_t siphon_switch_' "$work/source")" -eq 8 ]
expect 'and three tables in it' [ "$(grep -c '^uint[0-9]*_t [a-z]*\[SIPHON_[A-Z]*\]$' "$work/source")" -eq 3 ]
expect 'and thirty constants' [ "$(grep -c '^SIPHON_' "$work/source")" -eq 30 ]
expect 'no type is unknown' [ "$(grep -c unknown "$work/source")" -eq 0 ]
if agree "$header"; then told=; else told=$(cat "$work/told"); fi
expect "$header agrees with the sources: $told" [ -z "$told" ]
expect 'it has a guard for C++' grep -q '^extern "C" {$' "$header"
expect 'it includes two headers alone' [ "$(awk '$1 == "#include" { printf "%s", $2 }' "$header")" = '<stddef.h><stdint.h>' ]

# wrong NAME EDIT LINE: with this edit the header no longer agrees, and the line is told
wrong() {
    sed "$2" "$header" >"$work/wrong.h"
    expect "$1: the edit changes the header" [ "$(diff "$header" "$work/wrong.h" | wc -l)" -gt 0 ]
    if agree "$work/wrong.h"; then told=0; else told=1; fi
    expect "$1 is told" [ "$told" -eq 1 ]
    expect "$1 is told by its line" grep -qF -e "$3" "$work/told"
}

wrong 'two parameters swapped' 's/uint64_t base, uint64_t target/uint64_t target, uint64_t base/' '< uint32_t siphon_set_window('
wrong 'a parameter of another type' 's/uint16_t id/uint32_t id/' '< uint32_t siphon_set_entry('
wrong 'a parameter of another name' 's/uint32_t ones/uint32_t zeros/' '< uint32_t siphon_clear_log('
wrong 'a buffer that is not const' 's/const uint8_t \*packet/uint8_t *packet/' '< uint32_t siphon_pass('
wrong 'a length left out' 's/uint32_t \*answer, size_t answer_length/uint32_t *answer/' '< uint32_t siphon_pass('
wrong 'another result' 's/^uint32_t siphon_set_bus/int siphon_set_bus/' '< int siphon_set_bus('
wrong 'a call missing' '/^uint32_t siphon_make_inactive/d' '> uint32_t siphon_make_inactive('
wrong 'a call too many' '/^uint32_t siphon_free_entry/{h;s/siphon_free_entry/siphon_more/;p;g;}' '< uint32_t siphon_more('
wrong 'a refusal of another number' 's/SIPHON_OVERLAP 11/SIPHON_OVERLAP 12/' '< SIPHON_OVERLAP 12'
wrong 'two numbers of form swapped' 's/SIPHON_ENABLES 33/SIPHON_ENABLES 34/;s/SIPHON_CONTIGUITY 34/SIPHON_CONTIGUITY 33/' \
    '< SIPHON_ENABLES 34'
wrong 'a table of another length' 's/SIPHON_OUT 4112/SIPHON_OUT 4108/' '> SIPHON_OUT 4112'
wrong 'another log bit' 's/SIPHON_LOG_MALFORMED 18/SIPHON_LOG_MALFORMED 19/' '< SIPHON_LOG_MALFORMED 19'
wrong 'outcomes swapped' 's/SIPHON_DROPPED 2/SIPHON_DROPPED 1/' '< SIPHON_DROPPED 1'
wrong 'a constant missing' '/SIPHON_NO_ENTRY/d' '> SIPHON_NO_ENTRY 7'

# the same of a switch
wrong 'two parameters handed over swapped' 's/\(return siphon_set_window(p, slot\), base, target/\1, target, base/' \
    '< static inline uint32_t siphon_switch_set_window('
wrong 'two parameters taken swapped' 's/\(siphon_switch_clear_log(.*\)uint32_t p, uint32_t ones/\1uint32_t ones, uint32_t p/' \
    '< static inline uint32_t siphon_switch_clear_log('
wrong 'another table' 's/\(return siphon_clear_log(.*\)s->logs, SIPHON_LOGS/\1s->numbers, SIPHON_NUMBERS/' \
    '< static inline uint32_t siphon_switch_clear_log('
wrong 'a table twice' 's/^ *s->numbers, SIPHON_NUMBERS,$/s->logs, SIPHON_LOGS,/' '< static inline uint32_t siphon_switch_pass('
wrong 'the length of another table' 's/\(return siphon_set_bus(.*\)SIPHON_NUMBERS/\1SIPHON_LOGS/' \
    '< static inline uint32_t siphon_switch_set_bus('
wrong 'another call made' 's/return siphon_free_entry(/return siphon_set_bus(/' \
    '< static inline uint32_t siphon_switch_free_entry('
wrong 'a call on a switch missing' '/^static inline uint32_t siphon_switch_make_inactive/,/^}/d' \
    '> static inline uint32_t siphon_switch_make_inactive('
wrong 'a table without a field' '/^    uint32_t logs\[/d' '> uint32_t logs[SIPHON_LOGS]'
wrong 'a field of another length' 's/numbers\[SIPHON_NUMBERS\]/numbers[SIPHON_LOGS]/' '< uint32_t numbers[SIPHON_LOGS]'
wrong 'a field of another type' 's/uint64_t windows\[/uint32_t windows[/' '< uint32_t windows[SIPHON_WINDOWS]'
wrong 'a field that is no table' '/^    uint32_t logs\[/{p;s/.*/    uint8_t out[SIPHON_OUT];/;}' '< uint8_t out[SIPHON_OUT]'
finish
