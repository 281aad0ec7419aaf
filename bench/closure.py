#!/usr/bin/env python3
"""Counts the lines of the definitions that clauses of `railgun` rest on, those that they cite, and those that these cite.

Usage: closure.py [--list] [--check] [CLAUSE..]; without a name, of `complete_run`, `every_moment` and `resumes` together. It follows
the names in specs/*.antt and their `use` lines, and counts the lines of each definition with the comment above it, blank
ones left out; of the types of programs that are named (a struct, an enum) the lines as well. A name that a definition
binds itself is no citation. What std, the kit's crates and the traits' own clauses say isn't counted, and no proof is.
It prints the table that docs/PROMISES.md has, in the order in which the parts read best; with --check, only the rows that
the page doesn't have so; with --list, also each definition with its lines, file and first line, and each type. It fails
where a clause or a file that is named isn't there, where a definition rests on a proof of another file, and where --check
prints a row."""

import collections
import glob
import os
import re
import sys

os.chdir(os.path.join(os.path.dirname(os.path.abspath(__file__)), ".."))
NAME = r"[A-Za-z_][\w'-]*"
USE = re.compile(r"^(?:ghost )?use ([\w.:]+?)(?:(?:\.|::)\{([^}]*)\})?(?: as (\w+))?;?$", re.M)
STARTS = re.compile(rf"^ *(?:(?:abbrev|unfoldable|pub) +)*(?:(record|data) +({NAME})|(◌\S+|{NAME}) :(?= |$))")
HOLDER = re.compile(r"^(?:module .* where|(?:abbrev )?mutual)$")
CRATES = [it.split(":")[0].split()[0] for it in open("crates.txt", encoding="utf-8") if re.match(r"\w+.*:", it)]

# The definitions of a run in the order in which they read best. A file beside its crate stands where the file is named.
PARTS = [
    ("the run: what is put, and what each moment leaves", "rg_commands rg_replay rg_selftest rg_explain rg_recover rg_run rg_task rg_run_spec rg_open rg_messages rg_host"),
    ("what a line says", "rg_host/Lines rg_row rg_event rg_bytes"),
    ("what a reply is, from scratch", "rg_metric rg_reply rg_scratch"),
    ("the log: bytes of frames and chunks", "rg_frame rg_log rg_growth rg_reservoir rg_dump rg_info rg_chunk rg_column rg_event/Codec rg_event/Tagged rg_event/Words rg_bytes/Reading"),
    ("checkpoints: their bytes, and when they are true", "rg_checkpoint rg_restore rg_state rg_agg rg_plan rg_group rg_window rg_engine rg_query/Printing"),
    ("what the bytes of a plan say", "rg_config rg_query rg_parse rg_grammar rg_token rg_keywords"),
]
HOUR = 3  # the first parts, those of the path of an hour, name their files

Part = collections.namedtuple("Part", "crate file line name text lines comments")


def plain(text):
    """The text without comments and strings."""
    return re.sub(r'"(?:\\.|[^"\\])*"', " ", re.sub(r"(?:--|//).*", "", text))


def uses(text):
    """What each name that is brought in means: (crate, path of the module or type, name), no name for an alias of a module."""
    found = {}
    for path, names, alias in USE.findall(text):
        where = re.split(r"\.|::", path.removeprefix("Rattle."))
        for item in names.split(",") if names else []:
            name, _, new = item.strip().partition(" as ")
            found[new or name] = (where[0], where[1:], name)
        if not names:
            found[alias or where[-1]] = (where[0], where[1:], None)
    return found


class Module:
    """A file of definitions: its parts by their names, its constructors, and what it brings in."""

    def __init__(self, crate, file):
        with open(file, encoding="utf-8") as it:
            text = it.read()
        self.crate, self.file, self.uses, self.parts, self.makers = crate, file, uses(text), {}, {}
        above, held, inside, own = [], [], False, None
        for number, line in enumerate(text.splitlines(), 1):
            if line and not line.startswith((" ", "--")):
                inside = inside and bool(HOLDER.match(line))
            if HOLDER.match(line):
                inside, held, above, own = True, above + [line], [], None
            elif not line.strip() or line.lstrip().startswith("--"):
                above = above + [line] if line.strip() else []
            elif (start := STARTS.match(line)) and len(line) - len(line.lstrip()) == (2 if inside else 0):
                own = self.parts[start[2] or start[3]] = [number, start[1], held if inside else [], above + [line]]
                above = []
            elif own and not re.match(r"(?:use|pub mod|mod|infix\w*|syntax) ", line):
                own[3] += above + [line]
                above = []
                if own[1] == "data" and (maker := re.match(rf" +({NAME}) :", line)):
                    self.makers[maker[1]] = next(it for it, part in self.parts.items() if part is own)
            else:
                above = []

    def part(self, name):
        """A definition; the first one behind `mutual` or `module` with that line and the comment above it."""
        number, _, held, lines = self.parts[name]
        together = [at for at, _, other, _ in self.parts.values() if other is held]
        lines = held + lines if number == min(together) else lines
        comments = sum(it.lstrip().startswith("--") for it in lines)
        return Part(self.crate, self.file, number, name, "\n".join(lines), len(lines), comments)


def pieces(kind, lines):
    """A definition as pairs of a pattern and a text in which the names of the pattern are bound: a signature has no pattern."""
    text = plain("\n".join(lines))
    if kind:
        return [("", text)]
    found, indent = [["", ""]], re.search(r"^( *)\S", text, re.M)[1]
    for line in text.splitlines():
        if it := re.match(rf"{indent}(?!abbrev|unfoldable|pub)\S.*? =(?: |$)", line):
            left, right = line[: it.end()], line[it.end() :]
            found.append([left, right])
        else:
            found[-1][1] += "\n" + line
    return [(left, re.sub(rf"(^ +|[{{;] *){NAME} =(?= )", r"\1", right, flags=re.M)) for left, right in found]


def bound(text):
    names = set()
    for it in re.findall(r"[({]([\w' -]+) : ", text) + re.findall(r"λ ((?:[^.λ])*?)\.", text):
        names.update(re.findall(NAME, it))
    return names


def words(text):
    """The names in a text, each with the one behind its first point."""
    return re.findall(rf"(?<![\w.'-])({NAME})(?:\.({NAME}))?", text)


class Closure:
    def __init__(self):
        self.modules, self.reached, self.types, self.outside = {}, {}, {}, set()

    def module(self, crate, name):
        key = crate, name
        if key not in self.modules:
            self.modules[key] = Module(crate, f"crates/{crate}/specs/{name}.antt")
        return self.modules[key]

    def cite(self, crate, path, name):
        """Follows a name of a module of definitions or of a declared type."""
        if crate not in CRATES:
            self.outside.add(f"{crate}.{'.'.join(path)}")
        elif path and path[0] == "proofs":
            sys.exit(f"a definition rests on the proofs of {crate}: {'.'.join(path)}.{name}")
        elif path and path[0] == "specs" and path[1] not in ("declared", "contracts"):
            module = self.module(crate, path[1])
            name = path[2] if len(path) > 2 else name
            if name in module.parts or name in module.makers:
                self.reach(module, module.makers.get(name, name))
        else:
            self.type(crate, [it for it in [*path, name or ""] if it and it not in ("TheVariants", "TheImpl")])

    def type(self, crate, path):
        """Adds the type of a program that a path names."""
        for name in reversed(path):
            for file in sorted(glob.glob(f"crates/{crate}/src/**/*.rt", recursive=True)):
                with open(file, encoding="utf-8") as it:
                    text = it.read()
                found = re.search(rf"^(?:(?:///|#\[)[^\n]*\n)*pub (?:struct|enum) {re.escape(name)}\b(?:[^{{;]*\{{.*?^\}}|[^{{]*?;)", text, re.M | re.S)
                if found and (crate, name) not in self.types:
                    lines = [it for it in found[0].splitlines() if it.strip()]
                    self.types[crate, name] = (file, len(lines), sum(it.lstrip().startswith("//") for it in lines))
                    self.rust(crate, text, plain(found[0]))
                if found:
                    return

    def rust(self, crate, text, body):
        """Follows the types that a type's fields name."""
        known = uses(re.sub(r"^\s*use crate::", f"use {crate}::", text, flags=re.M))
        for name in set(re.findall(r"\b[A-Z]\w+", body)):
            where, path, _ = known.get(name, (crate, [], name))
            if where in CRATES:
                self.type(where, [*path, name])

    def follow(self, module, kind, lines, more=()):
        own = set(more)
        text = "\n".join(lines)
        fields = set(re.findall(rf"^ +pub ({NAME}) :", text, re.M)) if kind == "record" else set()
        for left, right in pieces(kind, lines):
            names = words(left)[1:]
            makers = [it for it in names if self.is_maker(module, *it)]
            hidden = own | fields | bound(left + right) | {it for it, _ in names} - {it for it, _ in makers}
            for name, behind in words(right) + makers:
                if name not in hidden:
                    self.name(module, name, behind)
        for name in [*module.parts, *module.uses]:
            if "◌" in name and name.strip("◌") in plain(text):
                self.name(module, name, "")

    def is_maker(self, module, name, behind):
        """Whether a name in a pattern is a constructor's, also behind the alias of a module."""
        crate, path, item = module.uses.get(name, ("", [], ""))
        if item is None:
            return bool(behind)
        return name in module.makers or "TheVariants" in path or (crate in CRATES and len(path) == 3)

    def name(self, module, name, behind):
        if name in module.uses:
            crate, path, item = module.uses[name]
            self.cite(crate, path, item or behind)
        elif name in module.parts or name in module.makers:
            self.reach(module, module.makers.get(name, name))

    def reach(self, module, name):
        key = module.crate, module.file, name
        if key in self.reached:
            return
        self.reached[key] = module.part(name)
        _, kind, held, lines = module.parts[name]
        params = bound(" ".join(it for it in held if it.startswith("module")))
        self.follow(module, "record" if kind else None, lines, params | ({name} if not kind else set()))
        for it in held:
            if it.startswith("module"):
                self.follow(module, "record", [it], params)


def clause(call, label):
    """The text of a clause on the public call."""
    start = call.index("\npub fn railgun<")
    found = re.search(rf"^ +ensures {label} \{{", call[start:], re.M)
    if not found:
        sys.exit(f"`railgun` has no clause {label}")
    at, depth = start + found.end(), 1
    begin = at
    while depth:
        depth += {"{": 1, "}": -1}.get(call[at], 0)
        at += 1
    return call[begin : at - 1]


def main():
    wanted = [it for it in sys.argv[1:] if not it.startswith("--")] or ["complete_run", "every_moment", "resumes"]
    with open("crates/rg_commands/src/call.rt", encoding="utf-8") as it:
        call = it.read()
    closure = Closure()
    top = type("Top", (), {"uses": uses(call.replace("use crate::", "use rg_commands::")), "parts": {}, "makers": {}})()
    for label in wanted:
        closure.follow(top, "clause", [clause(call, label)])
    found = sorted(closure.reached.values(), key=lambda it: (CRATES.index(it.crate), it.file, it.line))
    rows = table(found)
    if "--check" in sys.argv:
        with open("docs/PROMISES.md", encoding="utf-8") as it:
            page = it.read().splitlines()
        sys.exit("\n".join(it for it in rows if it not in page) or 0)
    show(closure, found, rows, "--list" in sys.argv)


def part_of(crate, file):
    """The number of the part that names a file, or else its crate."""
    name = f"{crate}/{os.path.basename(file)[:-5]}"
    for wanted in (name, crate):
        for at, (_, those) in enumerate(PARTS):
            if wanted in those.split():
                return at
    sys.exit(f"no part has {crate}")


def table(found):
    """The rows of the table: the parts, and all."""
    sums = collections.defaultdict(collections.Counter)
    for it in found:
        for where in (part_of(it.crate, it.file), "all"):
            sums[where].update(definitions=1, lines=it.lines, comments=it.comments)
            sums[where, "files"][it.file] += it.lines
    rows = [f"| {what} | {sums[at]['lines']} | {sums[at]['definitions']} | {names_of(sums[at, 'files'], at < HOUR)} |" for at, (what, _) in enumerate(PARTS)]
    every, crates = sums["all"], {it.crate for it in found}
    last = f"| All | {every['lines']}, of these {every['comments']} of comments | {every['definitions']} | {len(sums['all', 'files'])} files of {len(crates)} crates |"
    return [*rows, last]


def show(closure, found, rows, listed):
    print("| What | Lines | Definitions | Files of `specs` |")
    print("|---|---|---|---|")
    print("\n".join(rows))
    types = closure.types.values()
    print(f"\nBesides, {len(types)} types of programs that these name: {sum(it[1] for it in types)} lines, of these {sum(it[2] for it in types)} of comments.")
    if listed:
        list_all(closure, found)


def names_of(files, listed):
    """The crates of some files, those with the most lines first; listed, each with its files' names."""
    crates = collections.defaultdict(list)
    for file, lines in files.most_common():
        crates[file.split("/")[1]].append((lines, os.path.basename(file)[:-5]))
    order = sorted(crates, key=lambda it: -sum(lines for lines, _ in crates[it]))
    if listed:
        return "; ".join(f"`{it}`: " + ", ".join(name for _, name in crates[it]) for it in order)
    return ", ".join(f"`{it}`" for it in order)


def list_all(closure, found):
    for it in found:
        print(f"{it.lines:5} {it.file}:{it.line} {it.name}")
    for (crate, name), (file, lines, _) in sorted(closure.types.items(), key=lambda it: (CRATES.index(it[0][0]), it[0][1])):
        print(f"{lines:5} {file} {name}")
    print("named outside the repository: " + ", ".join(sorted(closure.outside)))


main()
