#!/usr/bin/env python3
"""Tells the definitions that clauses of public calls cite, and what these cite in their turn, with the sentence above each in crates/CRATE/specs.

usage: checks/definitions.py [--write | CRATE ..]

docs/DEFINITIONS.md has those of the crates that say what a log means. --write writes it; without a word the script says whether the page is the one that
would be written, and the status is 0 where it is, and else 1. With names of crates it prints theirs, whichever crates they are.
"""
import os
import re
import sys

ROOT = os.path.dirname(os.path.dirname(os.path.abspath(__file__)))
PAGE = f"{ROOT}/docs/DEFINITIONS.md"
HEAD = """# Definitions

For who reads a claim: what the clauses of public calls say of logs and histories, and what these words rest on, in the sentences that stand above each definition in `crates/CRATE/specs/FILE.antt`; most of them compute.
Histories are lists, newest item first. This page is written by `checks/definitions.py --write`; `checks/definitions.py CRATE` prints the definitions of any other crate.
"""
# the crates that say what a log means; the words of all others are told on demand
TOLD = ("mdb_log", "mdb_pool_rules", "mdb_driver_rules", "mdb_pool_laws", "mdb_laws", "mdb_runs")
# a sentence that begins so speaks of one that stands elsewhere, and is not told
LEANS = ("So ", "A driver's own answer does")
CITED = re.compile(r"use Rattle\.(\w+)\.specs\.([\w.]+?)\.\{([^}]*)\}")
WORD = re.compile(r"[\w']+")
START = re.compile(r"(?:abbrev pub|unfoldable pub|pub record|pub data|abbrev pub record|pub) (?:record |data )?(\w[\w']*)")


def crates():
    lines = [it.partition("#")[0] for it in open(f"{ROOT}/crates.txt", encoding="utf-8")]
    return [it.partition(":")[0].split()[0] for it in lines if ":" in it]


def names_of(text):
    """The names of a list of imports, by the name that they have where they are imported."""
    pairs = [it.strip().split(" as ") for it in text.split(",") if it.strip()]
    return {it[-1].strip(): it[0].strip() for it in pairs}


def imports_of(text):
    return {here: (crate, file, there) for crate, file, names in CITED.findall(text) for here, there in names_of(names).items()}


def definitions(text):
    """The definitions of a file of specs, in their order, each with its sentence and its text. Those that follow one another without a blank line share the sentence of the first."""
    found, said, shared = [], [], ""
    for line in text.split("\n"):
        if line.startswith("--"):
            said.append(line[2:].strip())
            continue
        start = START.match(line)
        if start and not line.startswith(("pub use", "pub mod")):
            shared = " ".join(said) or shared
            shared = "" if shared.startswith(LEANS) else shared
            found.append([start[1], shared, line])
            said = []
        elif not line.strip():
            said, shared = [], ""
        elif found:
            found[-1][2] += "\n" + line
    return found


def read_all():
    files = {}
    for crate in crates():
        folder = f"{ROOT}/crates/{crate}/specs"
        for name in sorted(os.listdir(folder)) if os.path.isdir(folder) else []:
            if name.endswith(".antt") and name != "Lib.antt":
                text = open(f"{folder}/{name}", encoding="utf-8").read()
                files[crate, name[:-5]] = text
    return files


def public_words(text):
    """The words of what a file of code says of its public calls and types, without comments and bodies. A function without `pub` is public where it is of a trait."""
    words, public, is_of_trait = set(), False, False
    for line in text.split("\n"):
        if re.match(r"(pub(\(\w+\))? )?(unsafe )?(impl|trait)\b", line):
            is_of_trait = " for " in line or "trait " in line
        if re.match(r"\s*(pub (fn|struct|enum|trait|type)|impl\b|trait\b)", line) or line.lstrip().startswith("ghost ") or is_of_trait and line.startswith("    fn "):
            public = True
        elif re.match(r"\s*(pub\(\w+\) )?fn ", line):
            public = False
        if public and not line.lstrip().startswith(("ghost use", "//")):
            words.update(WORD.findall(line))
        if line.strip() == "{" or re.match(r"\s*(pub )?fn .*\{$", line):
            public = False
    return words


def cited(defined):
    """The definitions that clauses of public calls cite."""
    found = set()
    for crate in crates():
        for at, _, names in os.walk(f"{ROOT}/crates/{crate}/src"):
            for name in names:
                text = open(f"{at}/{name}", encoding="utf-8").read()
                words = public_words(text)
                found |= {it for here, it in imports_of(text).items() if here in words}
    return found & set(defined)


def rested_on(files, rows, wanted):
    """The definitions that are wanted, and those that their texts cite, as far as they lead."""
    texts = {(crate, file, name): text for (crate, file), found in rows.items() for name, _, text in found}
    left = list(wanted)
    while left:
        crate, file, name = left.pop()
        words = set(WORD.findall(texts[crate, file, name]))
        near = {(crate, file, other) for other, _, _ in rows[crate, file] if other in words}
        far = {it for here, it in imports_of(files[crate, file]).items() if here in words}
        for it in (near | far) & set(texts):
            if it not in wanted:
                wanted.add(it)
                left.append(it)
    return wanted


def section(crate, files, rows, wanted):
    lines = []
    for (at, file), text in files.items():
        if at != crate:
            continue
        together = []
        for name, said, _ in rows[at, file]:
            if (crate, file, name) not in wanted:
                continue
            if together and said and together[-1][1] == said:
                together[-1][0].append(name)
            else:
                together.append([[name], said])
        head = text.split("\n", 1)[0]
        title = head[2:].strip() if head.startswith("--") else ""
        told = [it for it in together if it[1]]
        plain = [name for names, said in together if not said for name in names]
        lines += [f"\n**{file}**: {title}\n"] if together else []
        lines += [f"- {', '.join(f'`{it}`' for it in names)}: {said}\n" for names, said in told]
        lines += [f"- As their names say: {', '.join(f'`{it}`' for it in plain)}.\n"] if plain else []
    return f"\n## {crate}\n" + "".join(lines) if lines else ""


def main():
    files = read_all()
    rows = {at: definitions(text) for at, text in files.items()}
    wanted = rested_on(files, rows, cited((crate, file, name) for (crate, file), found in rows.items() for name, _, _ in found))
    named = [it for it in sys.argv[1:] if it != "--write"]
    unknown = [it for it in named if it not in crates()]
    if unknown:
        print("no crate of crates.txt:", *unknown, file=sys.stderr)
        return 2
    if named:
        print("".join(section(crate, files, rows, wanted) for crate in named), end="")
        return 0
    told = {it for it in wanted if it[0] in TOLD}
    made = HEAD + "".join(section(crate, files, rows, told) for crate in crates() if crate in TOLD)
    if "--write" in sys.argv[1:]:
        open(PAGE, "w", encoding="utf-8").write(made)
        return 0
    same = os.path.exists(PAGE) and open(PAGE, encoding="utf-8").read() == made
    print("docs/DEFINITIONS.md is up to date" if same else "docs/DEFINITIONS.md is not the one that checks/definitions.py --write writes")
    return 0 if same else 1


if __name__ == "__main__":
    sys.exit(main())
