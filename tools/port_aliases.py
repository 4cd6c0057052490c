#!/usr/bin/env python3
"""After port_names.py: the short names that one file gives (`as regionOf`, and names bound in it) to snake case, file by file. Run once."""
import os
import re

CAMEL = re.compile(r"(?<![\w'.◌\"-])([a-z][a-z0-9]*(?:[A-Z][a-z0-9]*)+)(?![\w'-])")


def snake(name):
    return re.sub(r"(?<=[a-z0-9])([A-Z])", lambda m: "_" + m.group(1).lower(), name)


for folder, folders, names in os.walk("crates"):
    folders[:] = sorted(it for it in folders if it != "out")
    for name in sorted(names):
        if not name.endswith((".rt", ".antt")):
            continue
        path = os.path.join(folder, name)
        with open(path, encoding="utf-8") as f:
            text = f.read()
        found = {it for it in CAMEL.findall(text)}
        lines = []
        for line in text.split("\n"):
            quoted = path.endswith(".rt") and '"' in line
            lines.append(line if quoted else CAMEL.sub(lambda m: snake(m.group(1)), line))
        new = "\n".join(lines)
        fallen = [it for it in found if re.search(r"(?<![\w'.-])" + snake(it) + r"(?![\w'-])", text)]
        if new != text:
            with open(path, "w", encoding="utf-8") as f:
                f.write(new)
            print(path, sorted(found), f"falls together: {fallen}" if fallen else "")
