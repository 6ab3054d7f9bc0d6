#!/usr/bin/env python3
"""Counts the words of the documents: how many each has, how long its sentences are, and how often "where" stands in them.

    python3 checks/plain_english.py

LIMITS has the most words that each document may have. The mean sentence of a document has fewer than 20 words, and "where" stands
in it at most twice in 1,000 words, since a condition begins with "if" or "when". Code, comments and tables have no sentences.
One line for each document. The status is 1 if one is too long, or reads too badly. First the script must find what is wrong with
planted text.
"""

import re
import sys
from pathlib import Path

TOP = Path(__file__).resolve().parent.parent
MEAN_WORDS = 20
WHERE_IN_THOUSAND = 2
LIMITS = {
    "README.md": 770,
    "docs/ARCHITECTURE.md": 2640,
    "docs/CONTRIBUTING.md": 1980,
    "docs/DECISIONS.md": 3630,
    "docs/FORMATS.md": 5170,
    "docs/HEADLINE.md": 990,
    "docs/OPERATORS.md": 2640,
    "docs/PROVED.md": 3300,
    "docs/RECIPES.md": 2200,
    "docs/SCALE.md": 1210,
    "bench/README.md": 1430,
    "checks/README.md": 660,
}


def sentences_of(text: str) -> list[list[str]]:
    """The words of each sentence outside code, comments, headings and tables."""
    text = re.sub(r"```.*?```|<!--.*?-->", "", text, flags=re.S)
    lines = [line for line in text.splitlines() if not re.match(r"\s{4,}\S|\s*[|#]", line)]
    blocks, block = [], []
    for line in lines + [""]:
        if block and re.match(r"\s*$|\s*(?:[-*]|\d+\.)\s", line):
            blocks.append(" ".join(block))
            block = []
        block.append(re.sub(r"^\s*(?:[-*]|\d+\.)\s", "", line))
    found = []
    for block in blocks:
        block = re.sub(r"`[^`]*`", "code", re.sub(r"\[([^]]*)\]\([^)]*\)", r"\1", block))
        found += [re.findall(r"[A-Za-z0-9'’^-]+", sentence) for sentence in re.split(r"(?<=[.!?:])\)?\*{0,2}\s+", block)]
    return [words for words in found if words]


def faults_of(text: str, limit: int) -> tuple[str, list[str]]:
    """The figures of a document, and what is wrong with it."""
    count, sentences = len(text.split()), sentences_of(text)
    words = [word.lower() for sentence in sentences for word in sentence]
    mean = len(words) / max(1, len(sentences))
    where = 1000 * words.count("where") / max(1, len(words))
    faults = []
    if count > limit:
        faults.append(f"more than {limit} words")
    if mean >= MEAN_WORDS:
        faults.append(f"the mean sentence has {MEAN_WORDS} words or more")
    if where > WHERE_IN_THOUSAND:
        faults.append(f"'where' stands more than {WHERE_IN_THOUSAND} times in 1,000 words")
    return f"{count} words, {mean:.1f} a sentence, 'where' {where:.1f} in 1,000", faults


def finds_planted() -> bool:
    """Whether what is wrong with planted text is found, and nothing is said of right text."""
    right = "A sentence of a few words. " * 30
    wrong = [
        ("word " * 40 + ". ", 1000),
        ("It is so where it is so. " * 30, 1000),
        (right, 20),
    ]
    return not faults_of(right, 1000)[1] and all(faults_of(text, limit)[1] for text, limit in wrong)


def main() -> int:
    if not finds_planted():
        print("planted text isn't judged as it must be")
        return 1
    status = 0
    for name, limit in LIMITS.items():
        figures, faults = faults_of((TOP / name).read_text(), limit)
        print(f"{name}: {figures}" + "".join(f"; {fault}" for fault in faults))
        status = status or bool(faults)
    return int(status)


if __name__ == "__main__":
    sys.exit(main())
