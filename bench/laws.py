#!/usr/bin/env python3
"""Sees that what a crate cites of another's lemmas stands in that crate's one file of laws, `proofs/Laws.antt`.

A citation is `Rattle.rg_x.proofs.MODULE` in a crate's .antt files, or `rg_x::proofs::MODULE::NAME` in its .rt files. It prints
each one of another crate's module than Laws, and each name of Laws that isn't there. With `--unused` it prints the names of
each file of laws that no other crate cites. It is silent where all is well; the status is 1 where it isn't."""
import collections, os, pathlib, re, sys

os.chdir(os.path.join(os.path.dirname(os.path.abspath(__file__)), ".."))
ANTT = re.compile(r"Rattle\.(rg_\w+)\.proofs\.([\w.]*\w)(?:\.\{([^}]*)\})?")
RT = re.compile(r"\b(rg_\w+)::proofs::(\w+(?:::\w+)*)::([\w-]+|\{[^}]*\})")

def names(text):
    """The names of a list in braces, or of one name."""
    return {it.split(" as ")[0].strip() for it in text.strip("{}").split(",") if it.strip()}

def cited(file):
    """Yields each citation of a file: the line, the crate, the module and the names."""
    text = re.sub(r"--.*|//.*", "", file.read_text(encoding="utf-8"))
    for it in (ANTT if file.suffix == ".antt" else RT).finditer(text):
        yield text.count("\n", 0, it.start()) + 1, it[1], it[2].replace("::", "."), names(it[3] or "")

def main():
    files, wrong, used = pathlib.Path("crates"), [], collections.defaultdict(set)
    laws = {it.parts[1]: set().union(*(given for *_, given in cited(it))) for it in sorted(files.glob("*/proofs/Laws.antt"))}
    for file in sorted(it for end in ("antt", "rt") for it in files.glob(f"*/**/*.{end}") if "out" not in it.parts):
        for line, crate, module, given in cited(file):
            if crate != file.parts[1]:
                used[crate] |= given
                if module != "Laws":
                    wrong.append(f"{file}:{line}: {module} of {crate} is cited past its Laws")
                else:
                    wrong += [f"{file}:{line}: the Laws of {crate} have no {it}" for it in sorted(given - laws.get(crate, set()))]
    if "--unused" in sys.argv:
        wrong += [f"crates/{crate}/proofs/Laws.antt: no other crate cites {it}" for crate in laws for it in sorted(laws[crate] - used[crate])]
    print(*wrong, sep="\n", end="\n" if wrong else "")
    sys.exit(1 if wrong else 0)

main()
