#!/usr/bin/env python3
"""Each must-fail edit still fits the text that it changes.

    python3 checks/edit_lines.py

An edit of crates/NAME/must-fail/ or more-edits/ has a line 'file: PATH' and then pairs of lines 'old: TEXT' and 'new: TEXT'.
Each old TEXT must stand exactly once in that file, as the earlier pairs left it. Where one doesn't, it is named, and the
status is 1. Nothing is proved: that the edits are refused is for the gate, and for checks/edits.sh.
"""
import sys
from pathlib import Path

TOP = Path(__file__).resolve().parent.parent


def faults(edit: Path) -> list[str]:
    found, text, old = [], "", None
    for line in edit.read_text().splitlines():
        kind, _, rest = line.partition(": ")
        if kind == "file":
            text = (edit.parent.parent / rest).read_text()
        elif kind == "old":
            old = rest
            if text.count(old) != 1:
                found.append(f"stands {text.count(old)} times: {old.strip()}")
        elif kind == "new" and old is not None:
            text = text.replace(old, rest, 1)
    return found if old is not None else ["has no pair of lines"]


def main() -> int:
    edits = sorted(TOP.glob("crates/*/must-fail/*.edit")) + sorted(TOP.glob("crates/*/more-edits/*.edit"))
    wrong = [(edit, fault) for edit in edits for fault in faults(edit)]
    for edit, fault in wrong:
        print(f"{edit.relative_to(TOP)}: {fault}")
    print(f"{len(edits)} edits fit the text, but for {len(wrong)} places" if wrong else f"{len(edits)} edits fit the text")
    return 1 if wrong or not edits else 0


sys.exit(main())
