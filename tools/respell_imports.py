#!/usr/bin/env python3
"""Has every file take the library's words from the library itself, where it took them from laws, which had passed them on.

usage: tools/respell_imports.py    at the top of the repository, after tools/respell; a second run changes nothing
"""

import glob
import re

PASSED_ON = re.compile(r"^pub use Rattle\.std\.specs\.Prelude\.\{([^}]*)\}\n", re.M)
TAKEN = re.compile(r"^(ghost )?use Rattle\.laws\.specs\.Words\.\{([^}]*)\}(;?)$", re.M)
# What laws passed on, as the library's list stood there.
LIBRARY = (
    "ℕ zero suc ◌+◌ ◌-◌ ◌*◌ ◌/◌ ◌%◌ ◌^◌ ◌≤◌ ◌<◌ max min ◌≡◌ ◌⊎◌ ◌↔◌ ◌≢◌ Bool true false cond not ◌&&◌ ◌||◌ List [] ◌∷◌ ◌++◌ map leb ltb eqb"
    " length get_or set take drop replicate ℤ pos negsuc nat_abs neg_ℤ ◌-ℤ◌"
).split()


def parted(match):
    ghost, names, end = match.group(1) or "", [it.strip() for it in match.group(2).split(",") if it.strip()], match.group(3)
    library = [it for it in names if it.split(" as ")[0] in LIBRARY]
    own = [it for it in names if it not in library]
    lines = []
    if library:
        lines.append(f"{ghost}use Rattle.std.specs.Prelude.{{{', '.join(library)}}}{end}")
    if own:
        lines.append(f"{ghost}use Rattle.laws.specs.Words.{{{', '.join(own)}}}{end}")
    return "\n".join(lines)


for path in sorted(glob.glob("crates/*/src/**/*.rt", recursive=True) + glob.glob("crates/*/specs/**/*.antt", recursive=True) + glob.glob("crates/*/proofs/**/*.antt", recursive=True)):
    with open(path, encoding="utf-8", newline="") as file:
        before = file.read()
    after = TAKEN.sub(parted, before)
    if path == "crates/laws/specs/Words.antt":
        after = PASSED_ON.sub(r"use Rattle.std.specs.Prelude.{\1}\n", after)
    if after != before:
        with open(path, "w", encoding="utf-8", newline="") as file:
            file.write(after)
