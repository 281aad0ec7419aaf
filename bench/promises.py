#!/usr/bin/env python3
"""Prints, from the sources, what each crate promises: the page that an auditor reads a crate by. Markdown, on standard output.

Usage: promises.py [--calls] [--faults] [--edits] [CRATE..]; without a flag all three parts, without a crate all crates but those
of tests. --calls: each public call with its clauses, beside each the comment above it, or its own text where it has none. Clauses
of a trait are those of every type that has it. Behind the calls stand the records that their clauses hand out, by their fields.
--faults: each answer of the types in which calls fail, with its comment, and the clauses of public calls that name it.
--edits: the wrong bodies that the prover refuses, by the names of their files.
With --missing it prints instead the public clauses that no comment stands above, one a line: file, call, clause.
It reads the code as text and proves nothing: that a clause is proved, the gate says."""

import collections
import glob
import os
import re
import sys

os.chdir(os.path.join(os.path.dirname(os.path.abspath(__file__)), ".."))
CRATES = [it.split(":")[0].split()[0] for it in open("crates.txt", encoding="utf-8") if re.match(r"\w+.*:", it)]
OWNER = re.compile(r"(?:pub )?(trait|struct|enum|impl(?:<.*?>)?(?: (\w+)(?:<.*?>)? for)?) (\w+)")
CLAUSE = re.compile(r"\s*(requires|ensures)\*? ?(\w*) ?\{")
MEMBER = re.compile(r"\s*ghost (\w+): \{")
WIDEST = 140

Clause = collections.namedtuple("Clause", "kind label says text")


class Call:
    """A public call: its crate, file, name with its owner, comment, the crates of the types that its file names, head and clauses."""

    def __init__(self, crate, file, name, doc, homes):
        self.crate, self.file, self.name, self.doc, self.homes, self.head, self.clauses = crate, file, name, doc, homes, "", []


def sentence(lines):
    """The lines of a comment as one text."""
    return " ".join(re.sub(r"^//[/!]? ?", "", it.strip()) for it in lines).strip()


def first(text):
    """The first sentence of a comment."""
    return re.split(r"(?<=[.!?])\s", text + " ")[0].strip()


def read(crate, file):
    """The public calls of a file, and the types in it: by its name a comment and (variant, comment)."""
    calls, types, owner, above, call, own = [], {}, "", [], None, None
    with open(file, encoding="utf-8") as it:
        text = it.read()
    homes = {name: home for home, name in re.findall(r"Rattle\.(\w+)\.specs\.declared\.[\w.]*?\b([A-Z]\w*)[.;]", text)}
    lines, at = text.splitlines(), 0
    while at < len(lines):
        line = lines[at]
        at += 1
        if line.lstrip().startswith(("//", "#[")):
            above += [line] if line.lstrip().startswith("//") else []
            continue
        said, above = sentence(above), [] if line.strip() else above
        if it := OWNER.match(line):
            is_open = it[1] == "trait" or bool(it[2])
            owner = f"{it[3]} as {it[2]}" if it[2] else it[3]
            if line.startswith("pub enum") or line.startswith("pub struct"):
                own = types.setdefault(it[3], [said, []])
        elif line.startswith("}"):
            owner, own, call = "", None, None
        elif it := re.match(r"\s*(pub(?:\(\w+\))? )?(?:const )?fn (\w+)", line):
            call = None
            if it[1] == "pub " or (owner and is_open):
                call = Call(crate, file, f"{owner}::{it[2]}" if owner else it[2], said, homes)
                calls.append(call)
        elif (it := CLAUSE.match(line)) or (owner and is_open and (it := MEMBER.match(line)) and " as " not in owner):
            depth, text = line.count("{") - line.count("}"), line[it.end():]
            while depth > 0 and at < len(lines):
                depth += lines[at].count("{") - lines[at].count("}")
                text += " " + lines[at].strip()
                at += 1
            text = re.sub(r"\s*\}[;,]?\s*$", "", text).strip()
            if it.re is MEMBER:
                calls.append(Call(crate, file, f"{owner}::{it[1]}", said, homes))
                if "→ Type" not in text and re.match(r"\(", text):
                    calls[-1].clauses.append(Clause("law", it[1], said, text))
            elif call:
                call.clauses.append(Clause(it[1], it[2], said, text))
        elif own is not None and (it := re.match(r"    (?:pub )?([A-Za-z_]\w*)(?:[(:,]|$)", line)):
            own[1].append((it[1], said))
        if call and not call.clauses:
            call.head += line
    return calls, types


def records(crate):
    """The records of a crate's specs that have a comment above some field: by its name the record's comment and (field, comment, text)."""
    found = {}
    for file in sorted(glob.glob(f"crates/{crate}/specs/**/*.antt", recursive=True)):
        above, fields = [], None
        with open(file, encoding="utf-8") as it:
            lines = it.read().splitlines()
        for line in lines:
            if line.lstrip().startswith("--"):
                above.append(re.sub(r"^\s*-- ?", "", line))
                continue
            if it := re.match(r" *(?:pub )?record (\w+)", line):
                fields = found.setdefault(it[1], (" ".join(above), []))[1]
            elif line and not line.startswith(" "):
                fields = None
            elif fields is not None and (it := re.match(r" +(?:pub )?(\w+) : (.*)", line)):
                fields.append((it[1], " ".join(above), it[2]))
            above = []
    return {name: it for name, it in found.items() if any(says for _, says, _ in it[1])}


def print_records(crate, calls):
    """The records of the crate that its clauses name, and those that these name, each with its fields."""
    known, shown_ones = records(crate), []
    texts = [it.text for call in calls for it in call.clauses]
    while texts:
        named = [it for it in re.findall(r"\b[A-Z]\w*", " ".join(texts)) if it in known and it not in shown_ones]
        shown_ones += dict.fromkeys(named)
        texts = [text for it in dict.fromkeys(named) for _, _, text in known[it][1]]
    for name in shown_ones:
        print(f"\n**`{name}`**, a record. {known[name][0]}\n\n| Field | Says |\n|---|---|")
        for field, says, text in known[name][1]:
            print(f"| `{field}` | {shown(Clause('', field, says, text))} |")


def shown(clause):
    """What a clause says: the comment above it, else its text."""
    text = clause.text if len(clause.text) <= WIDEST else clause.text[:WIDEST] + " .."
    return clause.says or "`" + text.replace("|", "\\|") + "`"


def sources(crate):
    """The files of a crate's code, lib.rt first."""
    files = glob.glob(f"crates/{crate}/src/**/*.rt", recursive=True)
    return sorted(files, key=lambda it: (not it.endswith("/lib.rt"), it))


def exported(crate):
    """The names that a crate hands out: those of `pub use`, and what stands in lib.rt itself."""
    text = ""
    if os.path.exists(it := f"crates/{crate}/src/lib.rt"):
        with open(it, encoding="utf-8") as file:
            text = file.read()
    used = " ".join(re.findall(r"^pub use ([^;]*);", text, re.M))
    return set(re.findall(r"\w+", used)) | set(re.findall(r"^pub (?:fn|struct|enum|trait) (\w+)", text, re.M))


def about(crate):
    """The first sentence of a crate's head."""
    for name in ("lib", "main"):
        if os.path.exists(it := f"crates/{crate}/src/{name}.rt"):
            with open(it, encoding="utf-8") as file:
                return first(sentence(re.findall(r"^//!.*", file.read(), re.M)))
    return ""


def print_calls(crate, calls):
    """A crate's calls that have clauses, each with a table of them."""
    if any(it.clauses for it in calls):
        print(f"\n### {crate}\n\n{about(crate)}")
    for call in calls:
        if call.clauses:
            print(f"\n**`{call.name}`** ({os.path.basename(call.file)}). {first(call.doc)}\n\n| Clause | Says |\n|---|---|")
            for it in call.clauses:
                print(f"| {' '.join(word for word in (it.kind * (it.kind != 'ensures'), f'`{it.label}`' * bool(it.label)) if word)} | {shown(it)} |")
    print_records(crate, calls)


def print_faults(crates, types, calls):
    """The types that stand in a call's `Result<.., FAULT>`, each answer with the clauses that name it."""
    heads = " ".join(it.head for it in calls)
    named = set(re.findall(r"Result<.*?, (?:\(\w+, )?(\w+)(?:<[^>]*>)?\)?>", heads)) | {"Status"}
    for crate in crates:
        for name, (doc, variants) in sorted(types[crate].items()):
            if name in named:
                print(f"\n**`{name}`** of `{crate}`. {first(doc)}\n\n| Answer | Means | Clauses that name it |\n|---|---|---|")
                for variant, says in variants or [(name, doc)]:
                    word = re.compile(rf"\b{name}\.{variant}\b")
                    there = [call for call in calls if call.homes.get(name, call.crate) == crate]
                    rests = [f"`{it.label}` of `{call.name}`" for call in there for it in call.clauses if it.label and word.search(it.text)]
                    print(f"| {variant} | {says} | {', '.join(dict.fromkeys(rests))} |")


def print_edits(crates):
    """The wrong bodies: those of must-fail, which the gate tries, and those of bench/edits."""
    print("\n| Crate | The gate tries | `bench/edits.sh` tries |\n|---|---|---|")
    for crate in crates:
        parts = []
        for folder in (f"crates/{crate}/must-fail", f"bench/edits/{crate}"):
            parts.append("; ".join(os.path.basename(it)[:-5].replace("_", " ") for it in sorted(glob.glob(f"{folder}/*.edit"))))
        if any(parts):
            print(f"| `{crate}` | {parts[0]} | {parts[1]} |")


def main(words):
    """Prints the parts that are asked for, of the crates that are."""
    flags, names = {it for it in words if it.startswith("--")}, [it for it in words if not it.startswith("--")]
    if flags - {"--calls", "--faults", "--edits", "--missing"} or set(names) - set(CRATES):
        sys.exit(__doc__)
    crates = names or [it for it in CRATES if not it.endswith("_tests")]
    read_all = {crate: [read(crate, file) for file in sources(crate)] for crate in CRATES}
    names_of = {crate: exported(crate) for crate in CRATES}
    calls = {crate: [it for part, _ in parts for it in part if re.match(r"\w+", it.name)[0] in names_of[crate]] for crate, parts in read_all.items()}
    types = {crate: {name: it for _, part in parts for name, it in part.items()} for crate, parts in read_all.items()}
    if "--missing" in flags:
        for crate in crates:
            for call in calls[crate]:
                for it in call.clauses:
                    if not it.says and it.kind == "ensures":
                        print(f"{call.file} {call.name} {it.label}: {it.text[:WIDEST]}")
        return
    if not flags or "--calls" in flags:
        print("## Calls and their clauses")
        for crate in crates:
            print_calls(crate, calls[crate])
    if not flags or "--faults" in flags:
        print("\n## Every answer of every call")
        print_faults(crates, types, [it for parts in calls.values() for it in parts])
    if not flags or "--edits" in flags:
        print("\n## Wrong bodies that the prover refuses")
        print_edits(crates)


try:
    main(sys.argv[1:])
except BrokenPipeError:
    os.dup2(os.open(os.devnull, os.O_WRONLY), sys.stdout.fileno())
