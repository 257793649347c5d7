#!/usr/bin/env python3
"""Makes a copy of this repository in which the unfinished crates stand in place.

usage: python3 tools/unfinished.py FOLDER     at the top of the repository; FOLDER must not be there yet

The other crates are taken from the commit on which the unfinished ones were proved.
"""

import os
import shutil
import subprocess
import sys

BASE = "7bc6cbd8721b5fc2a63aba3af770c802edf3de68"


def lay(source, folder):
    """Copies the unfinished crate `source` to `folder`, without the .txt after the names of its sources and proofs."""
    shutil.rmtree(folder, ignore_errors=True)
    for place, dirs, files in os.walk(source):
        to = os.path.join(folder, os.path.relpath(place, source))
        os.makedirs(to, exist_ok=True)
        for name in files:
            plain = name[: -len(".txt")] if name.endswith((".rt.txt", ".antt.txt")) else name
            shutil.copyfile(os.path.join(place, name), os.path.join(to, plain))


def main():
    if len(sys.argv) != 2:
        sys.exit(__doc__)
    folder = sys.argv[1]
    os.makedirs(folder)
    crates = subprocess.run(["git", "archive", BASE, "crates"], check=True, stdout=subprocess.PIPE).stdout
    subprocess.run(["tar", "-x", "-C", folder], check=True, input=crates)
    shutil.copyfile("unfinished/crates.list.txt", os.path.join(folder, "crates.txt"))
    for name in sorted(os.listdir("unfinished/crates")):
        lay(os.path.join("unfinished/crates", name), os.path.join(folder, "crates", name))


main()
