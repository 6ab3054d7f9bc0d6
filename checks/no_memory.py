#!/usr/bin/env python3
"""Finds the places where a `NoMemory`, of whatever enum, is made of something else than lack of memory.

    no_memory.py CRATES      looks at CRATES/*/src, without tests
    no_memory.py --planted   looks at lines that are written here, right and wrong ones

A place makes a `NoMemory` rightly in one of these:

- an arm each of whose alternatives is lack of memory: `NoMemory` of any enum, `AllocError` or `AllocFailed`; or whose guard is
  that the error's kind is `OutOfMemory`;
- a closure over an `AllocError` or an `AllocFailed`;
- an `impl From` of `NoMemory`, `AllocError` or `AllocFailed`;
- behind `let Ok(..) = CALL else` or `if CALL.is_err()`, where CALL is a call of the standard library that fails for lack of memory
  alone (ALLOCATES), or one of these crates whose error is `NoMemory`.
"""

import pathlib
import re
import sys

# Errors that say nothing but lack of memory.
MEMORY = ("NoMemory", "AllocError", "AllocFailed")

# Calls of the standard library and of the toolchain's crates that fail for lack of memory alone.
# But a queue's `push`, whose first word is the runtime, fails where the queue is full or closed.
ALLOCATES = {"push", "extend_from_slice", "with_capacity", "of_words", "collect", "to_vec", "reserve"}

PLANTED_RIGHT = """
fn a() -> Result<(), NoMemory> { match b() { Ok(()) => Ok(()), Err(NoMemory) => Err(NoMemory), } }
fn c() -> Status { match d() { Err(Words::NoMemory) => Status::NoMemory, Err(Words::Bad) => Status::Usage, Ok(s) => s, } }
fn e() -> Status { let Ok(list) = Vec::with_capacity(alloc, 4) else { return Status::NoMemory; }; f(list) }
fn g() -> Status { if list.push(1).is_err() { return Status::NoMemory; } Status::Done }
fn h() -> Result<A, S> { i().map_err(|_error: AllocError| S::NoMemory) }
fn j() -> S { match k() { Err(error) if error.kind() == ErrorKind::OutOfMemory => S::NoMemory, Err(_) => S::Usage, } }
impl From<NoMemory> for S { fn from(_error: NoMemory) -> S { S::NoMemory } }
fn l() -> S { let Ok(x) = a() else { return S::NoMemory; }; x }
fn m() -> S { let mut s = S::Done; if list.push(1).is_err() { s = S::NoMemory; } s }
fn n() -> Ran { match d() { Err(Words::NoMemory) => Ran { state: S::NoMemory, count: 0 }, Ok(ran) => ran, } }
fn o() -> Ran { if list.push(1).is_err() { return Ran { count: 0, state: S::NoMemory }; } Ran { count: 1, state: S::Done } }
impl Reads for S { type Error = NoMemory; fn p(error: NoMemory) -> S { q(error) } }
struct Ran { error: NoMemory, count: u64 }
"""

PLANTED_WRONG = """
fn a() -> Result<(), NoMemory> { match b() { Ok(()) => Ok(()), Err(_) => Err(NoMemory), } }
fn a() -> Result<(), NoMemory> { match b() { Ok(()) => Ok(()), Err(Failed) => Err(NoMemory), } }
fn a() -> S { match b() { Ok(s) => s, Err(E::NoMemory | E::Damaged(_)) => S::NoMemory, } }
fn a() -> S { match b() { W::Going | W::NoMemory => return S::NoMemory, W::Done(s) => s, } }
fn a() -> Result<A, S> { b().map_err(|_| S::NoMemory) }
fn b() -> Result<A, E> { c() } fn a() -> S { let Ok(x) = b() else { return S::NoMemory; }; x }
fn a() -> S { if !all_finished(&workers) { return S::NoMemory; } S::Done }
fn a() -> S { if kept { S::Done } else { S::NoMemory } }
fn a() -> S { S::NoMemory }
fn a() -> Result<(), NoMemory> { b().ok_or(NoMemory) }
impl From<Damaged> for S { fn from(_error: Damaged) -> S { S::NoMemory } }
fn a() -> S { match b() { Err(error) if error.kind() == ErrorKind::Other => S::NoMemory, Err(_) => S::Usage, Ok(s) => s, } }
fn a() -> S { match b() { Ok(s) => s, Err(_) => { note(); S::NoMemory } } }
fn a() -> S { let mut s = S::Done; if kept { s = S::NoMemory; } s }
fn a() -> Ran { if kept { return b(); } Ran { state: S::NoMemory, count: 0 } }
fn a() -> S { if spare.push(rt, batch).is_err() { return S::NoMemory; } S::Done }
fn a() -> Ran { match b() { Ok(ran) => ran, Err(_) => Ran { count: 0, state: S::NoMemory }, } }
fn a<W>(w: W) -> S where W: Wait { s = S::NoMemory; s }
"""


def blank(match):
    """As many characters as the match has, line ends where it has them."""
    return re.sub(r"[^\n]", " ", match.group(0))


def end_of_braces(text, start):
    """The place behind the brace that closes the one at `start`."""
    depth = 0
    for place in range(start, len(text)):
        depth += {"{": 1, "}": -1}.get(text[place], 0)
        if depth == 0:
            return place + 1
    return len(text)


def code_of(text):
    """The text without comments, literals, clauses and the bodies of enums, each place where it was."""
    text = re.sub(r"//[^\n]*", blank, text)
    text = re.sub(r'"(?:[^"\\]|\\.)*"', blank, text)
    text = re.sub(r"'(?:[^'\\\n]|\\.)'", blank, text)
    text = re.sub(r"\b(?:ghost\s+)?use\b[^;]*;", blank, text)
    text = re.sub(r"\[[^\[\];]*;[^\[\];]*\]", blank, text)
    for part in re.finditer(r"\b(?:ensures|requires|ghost|enum)\b[^{};]*\{", text):
        start, end = part.start(), end_of_braces(text, part.end() - 1)
        text = text[:start] + re.sub(r"[^\n]", " ", text[start:end]) + text[end:]
    return text


def last_part(text):
    """What stands behind the last comma that is in no brackets."""
    depth = 0
    for place in range(len(text) - 1, -1, -1):
        if text[place] in ")]":
            depth += 1
        elif text[place] in "([":
            depth -= 1
            if depth < 0:
                return text[place + 1 :]
        elif text[place] == "," and depth == 0:
            return text[place + 1 :]
    return text


def is_memory_arm(pattern):
    """Whether each alternative of an arm's pattern is lack of memory."""
    pattern, _, guard = pattern.partition(" if ")
    if guard:
        return re.fullmatch(r"\s*error\.kind\(\)\s*==\s*ErrorKind::OutOfMemory\s*", guard) is not None
    inner = re.fullmatch(r"\s*Err\((.*)\)\s*", pattern, re.S)
    return all(
        any(re.search(rf"\b{name}\b", part) for name in MEMORY)
        for part in (inner.group(1) if inner else pattern).split("|")
    )


class Sources:
    """The code of the crates, and which of their functions fail for lack of memory alone."""

    def __init__(self, files):
        self.files = {name: code_of(text) for name, text in files.items()}
        self.errors = {}
        for file, code in self.files.items():
            for made in re.finditer(r"\bfn\s+(\w+)[^{;]*?->\s*Result<(.*?)>\s*(?=[{;\n])", code, re.S):
                error = last_part(made.group(2)).strip()
                owners = re.findall(r"\bimpl\b[^{]*?\b([A-Z]\w*)[^{]*\{", code[: made.start()])
                self.errors.setdefault(made.group(1), []).append((file, owners, error))

    def allocates(self, call, file):
        """Whether a call in a file fails for lack of memory alone: by the functions of its name in the file, else in
        the crate, else anywhere."""
        call = call.strip().removesuffix(".is_err()").strip()
        depth, end = 0, len(call)
        for place in range(len(call) - 1, -1, -1):
            depth += {")": 1, "(": -1}.get(call[place], 0)
            if depth == 0:
                end = place
                break
        named = re.search(r"(?:(\w+)::)?(\w+)\s*$", re.sub(r"::<[^()]*>\s*$", "", call[:end]))
        if not call.endswith(")") or not named:
            return False
        owner, name = named.groups()
        if name == "push" and re.match(r"\(\s*&?(?:self\.)?rt\s*,", call[end:]):
            return False
        if name in ALLOCATES:
            return True
        made = [one for one in self.errors.get(name, []) if not owner or owner in one[1]]
        crate = file.split("/")[0]
        made = [one for one in made if one[0] == file] or [one for one in made if one[0].split("/")[0] == crate] or made
        return bool(made) and all(error in MEMORY for _, _, error in made)

    def is_right(self, file, place):
        """Whether the `NoMemory` that is made at this place is made of lack of memory."""
        code = self.files[file]
        start = max(code.rfind(mark, 0, place) for mark in ";{}") + 1
        local = code[start:place]
        closure = re.search(r"\|([^|]*)\|[^|]*$", local)
        if closure and "=>" not in local[closure.start() :]:
            return any(re.search(rf":\s*{name}\b", closure.group(1)) for name in MEMORY)
        if "=>" in local:
            return is_memory_arm(last_part(local[: local.rfind("=>")]))
        while True:
            # The brace that is open here, and what stands before it.
            depth, opened = 0, place
            while opened > 0 and depth >= 0:
                opened -= 1
                depth += {"}": 1, "{": -1}.get(code[opened], 0)
            start = max(code.rfind(mark, 0, opened) for mark in ";{}") + 1
            header = code[start:opened].strip()
            literal = re.search(r"(?:^|(?<![=!])=|=>|\breturn|[(,:|])\s*((?:\w+::)*[A-Z]\w*)$", header)
            if literal and not re.search(r"\b(?:fn|impl|trait)\b", header):
                # The brace of a struct's value: it is judged as if that stood here.
                return self.is_right(file, code.rfind(literal.group(1), 0, opened))
            if header.endswith("=>"):
                return is_memory_arm(last_part(header[:-2]))
            bound = re.search(r"\blet\s+Ok\(.*?\)\s*=\s*(.*)\belse$", header, re.S)
            if bound:
                return self.allocates(bound.group(1), file)
            asked = re.search(r"\bif\s+(.*)$", header, re.S)
            if asked:
                return asked.group(1).strip().endswith(".is_err()") and self.allocates(asked.group(1), file)
            given = re.search(r"\bimpl\b.*\bFrom<\s*(\w+)", header, re.S)
            if given:
                return given.group(1) in MEMORY
            if re.search(r"\bfn\s+from\b", header):
                place = opened
                continue
            return False

    @staticmethod
    def is_made(before, path, after):
        """Whether a name between these is a value: not a type, and not a pattern."""
        if re.match(r"\s*\)*\s*(?:=>|\||if\b)", after) or "matches!(" in before:
            return False
        stripped = before.rstrip()
        ends = ("(", "return", "=>", "{", "|", ";", ",", "else")
        begun = not stripped or stripped.endswith(ends)
        # What is assigned or bound, but not what is compared, nor a `type` item.
        begun = begun or re.search(r"(?<![=!<>])=$", stripped) and not re.search(r"\btype\b[^;{}]*$", stripped)
        # A field's value: behind a colon stands a type, but a variant of an enum is a value.
        begun = begun or stripped.endswith(":") and re.search(r"\b[A-Z]\w*::$", path)
        return re.match(r"\s*[);,}]", after) is not None and bool(begun)

    def wrong(self):
        """The places that make a `NoMemory` of something else: file, line and the line's text."""
        for name, code in self.files.items():
            for found in re.finditer(r"\bNoMemory\b", code):
                place = re.search(r"(?:\w+::)*$", code[: found.start()]).start()
                line_start = code.rfind("\n", 0, place) + 1
                before, after = code[line_start:place], code[found.end() :]
                if not self.is_made(before, code[place : found.start()], after):
                    continue
                if not self.is_right(name, place):
                    yield name, code.count("\n", 0, place) + 1, code[line_start : code.find("\n", place)].strip()


def is_test(path):
    """Whether a file is of tests."""
    return any(part == "tests" or part == "tests.rt" or part.startswith("trial_") for part in path.parts)


def planted():
    """Whether each planted line is judged as it must be."""
    wrong = 0
    for line in PLANTED_RIGHT.strip().splitlines():
        others = "fn a() -> Result<(), NoMemory> { b() }\n" if "fn l()" in line else ""
        for _ in Sources({"planted": others + line}).wrong():
            print(f"right, and told: {line}")
            wrong += 1
    for line in PLANTED_WRONG.strip().splitlines():
        if not list(Sources({"planted": line}).wrong()):
            print(f"wrong, and not told: {line}")
            wrong += 1
    return wrong


def main(words):
    """The exit status."""
    if words == ["--planted"]:
        return 1 if planted() else 0
    if len(words) != 1:
        print(__doc__, file=sys.stderr)
        return 2
    top = pathlib.Path(words[0])
    paths = [path for path in sorted(top.glob("*/src/**/*.rt")) if not is_test(path.relative_to(top))]
    sources = Sources({str(path.relative_to(top)): path.read_text(encoding="utf-8") for path in paths})
    if not sources.files:
        print(f"no sources below {top}", file=sys.stderr)
        return 2
    found = list(sources.wrong())
    for name, line, text in found:
        print(f"{name}:{line}: not of lack of memory: {text}")
    if not found:
        print(f"lack of memory comes from an allocation alone: {len(paths)} files")
    return 1 if found else 0


if __name__ == "__main__":
    sys.exit(main(sys.argv[1:]))
