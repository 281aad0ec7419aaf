#!/usr/bin/env python3
"""Sees that what README, docs/*.md and examples/*/README.md name in backticks is there, and prints what isn't; the status is 1 then.

`CLAUSE` of `CALL` asks for the clause on that call or type, and on each of several, in the crates that the first cell of
the row names, or the one above; in a column 'Clause of `CALL`' each word is one on it. In a column 'Clauses' another
word is of these crates, and in a column 'Refused' one behind a crate is an edit of it. Words elsewhere are of the code,
specs or strings of any crate, comments left out. Paths, links and their anchors, commits, forms of railgun's words and
commands of rt are looked up, and a file of `CRATE` in that crate. Blocks of code, and what else has a space or a sign, are
data and left out."""
import collections, glob, os, pathlib, re, subprocess, sys

os.chdir(os.path.join(os.path.dirname(os.path.abspath(__file__)), ".."))
AND = r"(?:, and |, | and )"
PAIR = re.compile(rf"((?:`[^`]+`{AND})*`[^`]+`) of (?:each )?((?:`[^`]+`(?! of `){AND})*`[^`]+`(?! of `))")
EDITS = re.compile(r"((?:`[^`]+`(?:, )?)+): ((?:`[^`]+`(?:, )?)+)")
ITEM, on, words, missing = re.compile(r"`([^`]+)`"), collections.defaultdict(set), collections.defaultdict(set), {}
commands = subprocess.run(["rt", "help"], stdout=subprocess.PIPE, stderr=subprocess.STDOUT, text=True, check=False).stdout

def index(file):
    """Adds a file of a crate: its words, and what stands on each of its types and calls."""
    crate, owner, call = file.split("/")[1], "", ""
    for line in re.sub(r"//.*|-- .*", "", pathlib.Path(file).read_text()).splitlines():
        words[crate].update(re.findall(r"\w+(?:-\w+)*", line))
        if it := re.match(r"(?:pub )?(?:trait|struct|enum|impl(?:<.*?>)?(?: .* for)?) (\w+)|\}", line):
            owner, call = it[1] or "", ""
        if it := re.search(r"\bfn (\w+)", line):
            call = it[1]
            on[crate, owner].add(call)
        if it := re.match(r"\s*(?:ensures\*?|ghost) (\w+)", line):
            for key in (owner, call, f"{owner}::{call}"):
                on[crate, key].add(it[1])

def has(crates, word, call=""):
    """Whether one of the crates, or any where there are none, has the word: on that call, type or crate where one is said."""
    owner, _, name = word.rpartition("::")
    crates, call = ([call], owner) if call.startswith("rg_") else (crates or words, call or owner)
    return any(name in (words.get(it, ()) if call in ("", it) else on[it, call]) for it in list(crates))

def is_there(word, crates):
    """Whether what stands between backticks is there, or is data."""
    if it := re.match(r"(?:railgun )?((?:run|serve|replay|verify|check|dump|info|self) [A-Z].*)", word):
        return f"    railgun {it[1]}\n" in pathlib.Path("docs/FORMATS.md").read_text()
    if word.startswith("rt "):
        return re.search(rf"\brt {word[3:]}\b|[ |]{word[3:]}\|", commands)
    if re.fullmatch(r"[0-9a-f]{7}", word):
        return subprocess.run(["git", "cat-file", "-e", word + "^{commit}"], check=False).returncode == 0
    path = re.sub(r"\b[A-Z]+\b", "*", word.split()[0]).replace("/out/railgun", "")
    if re.fullmatch(r"(bench|crates|docs|rg_\w+|proofs)/.*|[\w/]+\.(antt|rt|py|sh|md)", path):
        return any(glob.glob(top + path, recursive=True) for top in ("", "crates/", "crates/*/", "crates/*/*/", "crates/*/proofs/**/", "examples/*/"))
    return word in words if re.fullmatch(r"rg_\w+", word) else not re.fullmatch(r"[A-Za-z_]\w*(::\w+)*", word) or has(crates, word)

def anchors(page):
    """The anchors of a page, one for each heading."""
    heads = re.findall(r"^#+ (.*)", re.sub(r"^ *```.*?^ *```", "", pathlib.Path(page).read_text(), flags=re.S | re.M), flags=re.M)
    return {re.sub(r"[^\w\- ]", "", it).lower().replace(" ", "-") for it in heads}

def look(page, text, column="", crates=()):
    """Adds what a line or a cell names and isn't there."""
    rest, plain = ITEM.findall(text), re.sub(r" \([^()]*\)", "", text) if column == "Clauses" else text
    if column.startswith("Clause of"):
        rest, plain = [], f"{', '.join(f'`{it}`' for it in rest)} of {column[10:]}"
    for names, edits in EDITS.findall(text) if column == "Refused" else []:
        folders = [it if "/" in it else f"crates/{it}/must-fail" for it in ITEM.findall(names)]
        missing.update({f"{page}: {at}/{it}.edit": 1 for it in ITEM.findall(edits) for at in folders if not os.path.exists(f"{at}/{it}.edit")})
    for left, right in PAIR.findall(plain):
        for it in re.findall(r"`(\w+\.(?:rt|antt))`", left):
            missing.update({f"{page}: `{it}` of `{crate}`": 1 for crate in ITEM.findall(right) if not glob.glob(f"crates/{crate}/*/{it}")})
        for it in re.findall(r"`([A-Za-z_][\w:]*)`", left):
            rest = [other for other in rest if other != it]
            if not all(has(crates, it, call) for call in ITEM.findall(right)):
                missing[f"{page}: `{it}` of {right}"] = 1
    missing.update({f"{page}: `{it}`": 1 for it in rest if column != "Refused" and not is_there(it, crates if column == "Clauses" else ())})

for code in glob.glob("crates/*/src/**/*.rt", recursive=True) + glob.glob("crates/*/specs/**/*.antt", recursive=True) + glob.glob("crates/*/proofs/*.antt"):
    index(code)
for page in ["README.md", *sorted(glob.glob("docs/*.md") + glob.glob("examples/*/README.md"))]:
    header, crates, text = [], [], pathlib.Path(page).read_text()
    for line in re.sub(r"^ *```.*?^ *```|^    .*?$", "", text, flags=re.S | re.M).splitlines():
        cells = [it.strip() for it in line.strip()[1:-1].split("|")] if line.startswith("|") else [line]
        crates = [it for it in ITEM.findall(cells[0]) if it in words] or crates if header else []
        for number, cell in enumerate(cells):
            look(page, cell, *([header[number], crates] if header else []))
        header = (header or cells) if line.startswith("|") else []
    for path, anchor in re.findall(r"\]\(([^)#]*)#?([^)]*)\)", text):
        file = os.path.join(os.path.dirname(page), path) if path else page
        if not os.path.exists(file) or anchor and anchor not in anchors(file):
            missing[f"{page}: {path}{anchor and '#' + anchor}"] = 1
sys.exit("\n".join(missing) or 0)
