#!/usr/bin/env python3
"""Brings the repository's own definitions and lemmas to snake case, after the toolchain's port.py: run once, at the top.

A name is the repository's own if a file of specs/ or proofs/ declares it (proofs of functions aside, whose names the
toolchain gives). A capital within it and a dash become '_'; functions of src/, types, modules and everything that is
declared elsewhere keep their names. Names that would fall together get one of their own, in APART and LOCAL below.
"""

import glob
import re

ID = r"[A-Za-z_][\w'-]*"

# own names that would fall together with another
APART = {
    "by-gate": "by_gate_lem",  # beside byGate
    "came-out": "came_out_lem",  # beside cameOut
    "number-out": "number_out_lem",  # beside numberOut
    "tag-out": "tag_out_lem",  # beside tagOut
    "returned-bytes": "returned_bytes_lem",  # beside returnedBytes
    "word-bytes": "word_bytes_lem",  # beside wordBytes
    "out-length": "length_of_out",  # beside outLength, and its neighbours alike
    "windows-length": "length_of_windows",
    "numbers-length": "length_of_numbers",
    "logs-length": "length_of_logs",
    "caseKnone": "case_k_none",
}
# import aliases that are declared nowhere else
ALIASES = {"windowsLength": "windows_length", "numbersLength": "numbers_length", "logsLength": "logs_length"}
# names that are in snake case already, and would fall together: in these files alone
LOCAL = {
    "crates/sheet/proofs/Laws/Short.antt": {"too_short": "too_short_lem"},
    "crates/siphonpear/proofs/Laws/Call.antt": {"too_short": "too_short_lem"},
    "crates/siphonpear/proofs/passing/siphon_pass/Proof.antt": {"too_short": "too_short_lem"},
    "crates/demands/proofs/Laws/Return.antt": {"way_back": "way_back_lem"},
}


def snake(name):
    name = re.sub(r"(?<=[a-z])([A-Z0-9]?)(?=[A-Z])", r"\1_", name.replace("-", "_"))
    name = re.sub(r"(?<=[a-z])(?=[0-9])", "_", name) if re.search("[A-Z]", name) else name
    return re.sub("[A-Z]", lambda m: m.group(0).lower(), name)


def files():
    return sorted(glob.glob("crates/*/specs/**/*.antt", recursive=True) + glob.glob("crates/*/proofs/**/*.antt", recursive=True))


def declared():
    head = re.compile(r"\s*(?:abbrev |unfoldable )?(?:pub )?(?:abbrev |unfoldable )?(?:ruleset )?(%s) ?[:=](?: |$)" % ID)
    names = set()
    for path in files():
        if path.endswith("/Proof.antt"):
            continue
        for line in open(path, encoding="utf-8"):
            m = head.match(line)
            if m and m.group(1)[0].islower() and re.search("[A-Z-]", m.group(1)):
                names.add(m.group(1))
    return names


def main():
    table = {n: snake(n) for n in declared()} | ALIASES | APART
    back = {}
    for old, new in sorted(table.items()):
        if new in back:
            raise SystemExit(f"port_names: {old} and {back[new]} would both be {new}")
        back[new] = old
    word = re.compile(r"(?<![\w'-])%s" % ID)
    for path in files() + sorted(glob.glob("crates/*/src/*.rt")):
        with open(path, encoding="utf-8") as f:
            text = f.read()
        local = LOCAL.get(path, {})
        if path.endswith(".rt"):
            turned = re.sub(r"(?<![\w'-])[a-z]\w*", lambda m: table.get(m.group(0), m.group(0)), text)
        else:
            turned = word.sub(lambda m: local.get(m.group(0)) or table.get(m.group(0), m.group(0)), text)
        if turned != text:
            with open(path, "w", encoding="utf-8") as f:
                f.write(turned)
    for old, new in sorted(table.items()):
        print(old, new)


main()
