#!/usr/bin/env python3
"""Respells the repository's own definitions and lemmas.

usage: python3 tools/respell.py        at the top of the repository, once, after the toolchain's own port script

Words are in snake case, types and modules in camel case: a name that is defined in crates/*/specs or crates/*/proofs and has
a dash loses it. A name that begins with a capital (a type, a law, a constructor) becomes camel case, any other snake case.
Functions of src/ and texts in quotes keep their names. Where a name would fall together with a free function of the crates, it
gets the name that CLASH gives. The script stops, with nothing written, where two names fall together.
"""

import glob
import re
import sys

DEFINED = re.compile(
    r"^\s*(?:(?:abbrev|pub|unfoldable)\s+)*(?:(?:data|record)\s+)?([^\s:(){},;]+)(?:\s*[({][^)}]*[)}])*\s*:(?:\s|$)"
)
NOT_DEFINED = re.compile(r"^\s*(--|use |mod |pub mod |module )")
TOKEN = re.compile(r'"(?:[^"\\]|\\.)*"|[^\s(){}\[\];,.:"]+')
CLASH = {
    "byte-array": "byte_array_column",
    "data-body": "data_page_of",
    "dict-body": "dictionary_page_of",
    "flag-text": "text_of_flag",
    "int32-unsigned": "int32_as_unsigned",
    "int32-widen": "int32_as_wide",
    "row-text": "text_of_row",
    "rows-text": "text_of_rows",
    "value-text": "text_of_value",
}


def sources(*patterns):
    return sorted(p for it in patterns for p in glob.glob(it, recursive=True) if "/out/" not in p)


def text_of(path):
    with open(path, encoding="utf-8") as f:
        return f.read()


def names():
    """Every name that the definitions and lemmas of the repository introduce."""
    found = set()
    for path in sources("crates/*/specs/*.antt", "crates/*/proofs/*.antt"):
        for line in text_of(path).split("\n"):
            it = None if NOT_DEFINED.match(line) else DEFINED.match(line)
            if it:
                found.add(it.group(1))
    return found


def respelled(name):
    if name in CLASH:
        return CLASH[name]
    if name[0].isupper():
        return "".join(part[:1].upper() + part[1:] for part in name.split("-"))
    return name.replace("-", "_")


def main():
    known = names()
    new = {name: respelled(name) for name in known if "-" in name.strip("-")}
    taken = [n for n in new if new[n] in known or list(new.values()).count(new[n]) > 1]
    if taken:
        print("these fall together: " + ", ".join(sorted(taken)), file=sys.stderr)
        return 1
    changed = 0
    for path in sources("crates/*/specs/**/*.antt", "crates/*/proofs/**/*.antt", "crates/*/src/**/*.rt"):
        old = text_of(path)
        now = TOKEN.sub(lambda m: new.get(m.group(0), m.group(0)), old)
        if now != old:
            with open(path, "w", encoding="utf-8") as f:
                f.write(now)
            changed += 1
    print(f"{len(new)} names respelled in {changed} files")
    for name in sorted(new):
        print(f"  {name} -> {new[name]}")
    return 0


if __name__ == "__main__":
    raise SystemExit(main())
