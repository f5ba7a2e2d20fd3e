#!/usr/bin/env bash
# Runs the commands of the README's examples, and compares what they write. Silent where all holds.
set -u
cd "$(dirname "$0")/.." || exit 1
./ompk --help >/dev/null || { echo 'the program is not built'; exit 1; }
python3 - <<'P'
import re
import subprocess
import sys

with open("README.md", encoding="utf-8") as it:
    blocks = re.findall(r"^```\n(.*?)^```$", it.read(), re.M | re.S)
steps = [part.partition("\n") for block in blocks for part in re.split(r"^\$ ", block, flags=re.M)[1:]]
if not steps:
    sys.exit("the README has no example")
for command, _, wanted in steps:
    ran = subprocess.run(["bash", "-c", command], stdout=subprocess.PIPE, stderr=subprocess.STDOUT, text=True)
    if ran.stdout != wanted:
        print(f"README: `{command}` writes\n{ran.stdout}and not\n{wanted}")
P
