#!/usr/bin/env python3
"""The table of names in examples/named.py is that of crates/ipfix_model/src/elements.rt.

    python3 checks/element_names.py [--write]

Each constant there has the name of the IANA registry as the first word of the comment above it. With --write the table is
written anew, else it is compared, and the status is 1 where it differs.
"""
import re
import sys
from pathlib import Path

TOP = Path(__file__).resolve().parent.parent
ELEMENTS = TOP / "crates" / "ipfix_model" / "src" / "elements.rt"
NAMED = TOP / "examples" / "named.py"
BEGIN, END = "# names begin\n", "# names end\n"


def table() -> str:
    text = ELEMENTS.read_text()
    reverse = re.search(r"REVERSE_ENTERPRISE: u32 = ([0-9_]+);", text)
    found = re.findall(r"^/// (\w+)[^\n]*\npub const (\w+): u16 = ([0-9_]+);", text, re.M)
    for name, constant, _ in found:
        if re.sub(r"(?<=[a-z46])(?=[A-Z])", "_", name).upper() != constant:
            sys.exit(f"{constant} has the comment {name}")
    if reverse is None or len(found) != len(re.findall(r"^pub const \w+: u16", text, re.M)):
        sys.exit("a constant has no comment")
    rows = "".join(f'    {int(number)}: "{name}",\n' for name, _, number in found)
    return f"REVERSE = {int(reverse[1])}\nNAMES = {{\n{rows}}}\n"


def main() -> None:
    text = NAMED.read_text()
    head, rest = text.split(BEGIN)
    old, tail = rest.split(END)
    if sys.argv[1:] == ["--write"]:
        NAMED.write_text(head + BEGIN + table() + END + tail)
    elif old != table():
        sys.exit("different: the names in examples/named.py; python3 checks/element_names.py --write writes them anew")
    else:
        print("same: the names in examples/named.py")


if __name__ == "__main__":
    main()
