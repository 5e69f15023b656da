"""Lists the must-fail edits, crates/*/must-fail/*.edit, that do not fit the files as they stand: an `old:` text that does not stand in its
file just once, when the pairs before it have been applied. Names crates to look at them alone.

    python3 tools/fit_edits.py [-v] [CRATE ..]

Exit status 1 where one does not fit. -v lists all. It proves nothing: `rt must-fail` tries the edits.
"""
import glob
import os
import sys


def pairs(text):
    """The pairs of an edit: the file, the old text and the new text."""
    file, old, found = None, None, []
    for line in text.splitlines():
        word, _, rest = line.partition(": ")
        if word == "file":
            file = rest.strip()
        elif word == "old":
            old = rest
        elif word.startswith("new"):
            found.append((file, old, rest))
    return found


def faults(edit):
    """What is wrong with an edit, a line for each pair that does not fit."""
    with open(edit, encoding="utf-8") as text:
        found = pairs(text.read())
    texts, wrong = {}, [] if found else ["no pair"]
    for file, old, new in found:
        path = os.path.join(os.path.dirname(edit), "..", file)
        if file not in texts:
            if not os.path.exists(path):
                wrong.append(f"there is no {file}")
                continue
            with open(path, encoding="utf-8") as text:
                texts[file] = text.read()
        count = texts[file].count(old)
        if count != 1:
            wrong.append(f"{file}: {count} times: {old}")
        elif old == new:
            wrong.append(f"{file}: nothing changes: {old}")
        else:
            texts[file] = texts[file].replace(old, new)
    return wrong


def main(words):
    root = os.path.join(os.path.dirname(os.path.abspath(__file__)), "..")
    names = [it for it in words if it != "-v"]
    edits, misfits = sorted(glob.glob(f"{root}/crates/*/must-fail/*.edit")), 0
    for edit in edits:
        crate = edit.split("/")[-3]
        if names and crate not in names:
            continue
        wrong = faults(edit)
        misfits += bool(wrong)
        if wrong or "-v" in words:
            print(f"{crate}/{os.path.basename(edit)}: {'fits' if not wrong else ''}")
            for it in wrong:
                print(f"    {it}")
    print(f"{len(edits)} edits, {misfits} do not fit")
    return 1 if misfits else 0


if __name__ == "__main__":
    sys.exit(main(sys.argv[1:]))
