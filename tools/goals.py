#!/usr/bin/env python3
"""tools/goals.py CRATE NAMES: the goals that the list of a crate's wrong programs names, in today's spelling.

NAMES is the folder that `rt check --generated NAMES --old-names` wrote in the crate's folder. Each line `! NEED` of
tests/wrong/CRATE.txt becomes the goal's new name, as it is in the function that is not changed. What has no new name
(a fact of a proof file, or a need that Rattle no longer has) is printed and left as it is.
"""

import json
import sys


def main(crate, folder):
    with open(f"{folder}/names.json", encoding="utf-8") as f:
        names = json.load(f)
    path = f"tests/wrong/{crate}.txt"
    with open(path, encoding="utf-8") as f:
        lines = f.read().split("\n")
    function, wrong, table = "", "", {}
    for k, line in enumerate(lines):
        if line.startswith("fn "):
            function = line[3:]
            at = "Rattle-{}-proofs.{}.Lts".format(crate, function.replace("::", "."))
            found = names.get(at) or names.get(at.replace(".Lts", "", 1)) or {}
            table = dict(found.get("needs", []))
            if not table:
                print(f"{function}: no names")
        elif line[:2] == "! ":
            if line[2:] in table:
                lines[k] = "! " + table[line[2:]]
            else:
                print(f"{function}: {wrong}: {line[2:]}")
        elif line[:1] not in "-+#" and ": " in line:
            wrong = line.split(":")[0]
    with open(path, "w", encoding="utf-8") as f:
        f.write("\n".join(lines))


if __name__ == "__main__":
    main(*sys.argv[1:])
