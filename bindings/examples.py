"""Runs the examples of README.md and docs/BINDINGS.md as they are printed, and compares what they print.

An example is an indented block with lines that start with `$ `: each is a command, run by bash in the repository's folder, and the
lines up to the next command are what it prints. `bash bindings/test` is not run from here: it runs this. The last line is
'N passed, M failed'."""

import os
import re
import subprocess
import sys

root = os.path.join(os.path.dirname(os.path.abspath(__file__)), "..")


def examples(path):
    """Commands with the output that is printed for them."""
    found = None
    with open(os.path.join(root, path)) as text:
        for line in text:
            if line.startswith("    $ "):
                if found:
                    yield found
                found = line[6:].rstrip("\n"), ""
            elif found and line.startswith("    "):
                found = found[0], found[1] + line[4:]
            elif found:
                yield found
                found = None
    if found:
        yield found


def main():
    passed = wrong = 0
    for path in ("README.md", "docs/BINDINGS.md"):
        for command, expected in examples(path):
            if re.search(r"\bbash bindings/test\b", command):
                continue
            ended = subprocess.run(["bash", "-c", command], cwd=root, stdout=subprocess.PIPE, stderr=subprocess.STDOUT)
            printed = ended.stdout.decode("utf-8", "replace")
            if printed == expected:
                passed += 1
            else:
                wrong += 1
                print("wrong: %s: %s\n%s" % (path, command, printed))
    print("%d passed, %d failed" % (passed, wrong))
    return wrong or not passed


sys.exit(bool(main()))
