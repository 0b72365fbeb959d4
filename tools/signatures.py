#!/usr/bin/env python3
"""Lists the functions of crates/*/src as they stood at a commit, one a line: crate, and signature on one line.

usage: tools/signatures.py COMMIT        docs/DESIGN-PASS.md counts places with it
"""

import re
import subprocess
import sys

FUNCTION = re.compile(
    r"^[ \t]*((?:pub(?:\(crate\))? )?(?:extern \"C\" )?fn \w+.*?)(?=\s*(?:\n\s*(?:requires|ensures)\b|\{|;))", re.M | re.S
)


def git(*words):
    return subprocess.run(["git", *words], capture_output=True, text=True, check=True).stdout


def main():
    if len(sys.argv) != 2:
        sys.exit(__doc__)
    commit = sys.argv[1]
    for path in git("ls-tree", "-r", "--name-only", commit, "crates").splitlines():
        parts = path.split("/")
        if parts[2] != "src" or not path.endswith(".rt"):
            continue
        text = re.sub(r"//.*", "", git("show", f"{commit}:{path}"))
        for found in FUNCTION.finditer(text):
            print(parts[1] + ": " + re.sub(r"\s+", " ", found.group(1)).replace(", )", ")").replace("( ", "("))


main()
