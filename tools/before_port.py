#!/usr/bin/env python3
"""Names in proofs/Determined.antt that a library has in its newer spelling are written with a dash, so that port.py takes the files for what
they are. Run once, before port.py."""
import os
import re

NAMES = "read_number mark_of letter_at put_if note_of len_of value_len note_step one_more named_by take_step up_to part_at".split()

for crate in sorted(os.listdir("crates")):
    path = os.path.join("crates", crate, "proofs", "Determined.antt")
    if not os.path.isfile(path):
        continue
    with open(path, encoding="utf-8") as f:
        old = f.read()
    new = old
    for name in NAMES:
        plain = rf"(?<![\w.'·-]){name}(?=[.\s-])"
        new = re.sub(plain, name.replace("_", "-"), new)
    if new != old:
        with open(path, "w", encoding="utf-8") as f:
            f.write(new)
        print(path)
