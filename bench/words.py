#!/usr/bin/env python3
"""Counts the words of README.md and docs/*.md, as wc does, against a budget of all, and their sentences of more than 30 words.

It prints a row for each page: words, sentences, how many of these are long, and their share. `words.py PAGE..` lists the long
sentences of these pages; with no page it reads all. The status is 1 where the pages together have more words than the budget,
or more than one sentence in twenty of a page is long.

Blocks of code are no sentences, and what stands between backticks counts as one word. A cell of a table with fewer than eight
words is data, and a longer one is read as text. A colon or semicolon ends no sentence, but a colon before a block or a list does."""
import os, pathlib, re, sys

BUDGET, LONG, SHARE, DATA = 24000, 30, 20, 8
FENCE = re.compile(r"^ *```.*?^ *```", re.S | re.M)
ITEM = re.compile(r" *(?:[-*]|\d+\.) +")
END = re.compile(r"(?<=[.?!])[)\"'*]*\s+(?=[\"'(*]*[A-Z0-9`])")

def plain(text):
    """The text with code as one word, and of links what is read."""
    text = re.sub(r"`[^`]+`", "`code`", text)
    return re.sub(r"!?\[([^\]]*)\]\([^)]*\)", r"\1", text)

def paragraphs(page):
    """The texts of a page that hold sentences: paragraphs, members of lists, and cells of tables."""
    text, before = "", ""
    for line in FENCE.sub("", page).splitlines() + [""]:
        item, row = ITEM.match(line), line.lstrip().startswith("|")
        code = line.startswith("    ") and not item and not row and not text and not before.strip()
        if text and (not line.strip() or item or row or line.startswith("#")):
            yield text
            text = ""
        if row:
            yield from (cell for cell in plain(line).split("|") if len(words(cell)) >= DATA)
        elif line.strip() and not code and not line.startswith("#"):
            text = f"{text} {line[item.end():] if item else line.strip()}".strip()
        before = "" if code else line

def words(text):
    """The words of a text: what stands between spaces and has a letter or digit."""
    return [it for it in text.split() if re.search(r"\w", it)]

def sentences(page):
    """The sentences of a page."""
    return [it for text in paragraphs(page) for it in END.split(plain(text)) if words(it)]

def main():
    os.chdir(os.path.join(os.path.dirname(os.path.abspath(__file__)), ".."))
    names, total, bad = sys.argv[1:], 0, []
    for name in names or ["README.md", *sorted(str(it) for it in pathlib.Path("docs").glob("*.md"))]:
        page = pathlib.Path(name).read_text(encoding="utf-8")
        count, all_of = len(page.split()), sentences(page)
        long = [it for it in all_of if len(words(it)) > LONG]
        total += count
        print(f"{name:20} {count:6} words {len(all_of):5} sentences {len(long):4} long, {100 * len(long) / max(len(all_of), 1):4.1f} %")
        for it in long if names else []:
            print(f"    {len(words(it))}: {it}")
        if len(long) * SHARE > len(all_of):
            bad.append(f"{name}: more than one sentence in {SHARE} has more than {LONG} words")
    print(f"{'all':20} {total:6} words, of {BUDGET}")
    sys.exit("\n".join(bad + [f"more than {BUDGET} words"] * (total > BUDGET)) or 0)

main()
