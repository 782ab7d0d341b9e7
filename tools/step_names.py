#!/usr/bin/env python3
"""Brings the names of goals and steps in proofs/FUNCTION/ to the spelling of the sources: a name of src/ keeps its underscores.

usage: python3 tools/step_names.py CRATE..     at the top of the repository
"""

import os
import re
import sys

WORDS = ["from_residual", "in_ok", "in_err", "in_default", "overflow_add", "overflow_sub", "overflow_mul", "overflow_cast", "overflow_shl", "overflow_shr", "overflow_step", "slice_bounds", "offset_bounds", "nonzero_div", "nonzero_rem", "invariant_of", "type_inv", "in_eq"]


def main(names):
    for name in names:
        words = set(WORDS)
        for folder, _, files in os.walk(f"crates/{name}/src"):
            for f in files:
                with open(os.path.join(folder, f), encoding="utf-8") as h:
                    words.update(w for w in re.findall(r"[A-Za-z_][A-Za-z0-9_]*", h.read()) if "_" in w.strip("_"))
        pairs = {w.replace("_", "-"): w for w in words}
        pattern = re.compile(r"(?<![\w'])(%s)(?![\w'])" % "|".join(sorted(map(re.escape, pairs), key=len, reverse=True)))
        for folder, _, files in os.walk(f"crates/{name}/proofs"):
            for f in files:
                p = os.path.join(folder, f)
                if folder.endswith("/proofs") or not f.endswith(".antt"):
                    continue
                with open(p, encoding="utf-8") as h:
                    t = h.read()
                new = "\n".join(l if l.lstrip().startswith("--") else pattern.sub(lambda m: pairs[m.group(1)], l) for l in t.split("\n"))
                if new != t:
                    with open(p, "w", encoding="utf-8") as h:
                        h.write(new)
                    print(p)


main(sys.argv[1:])
