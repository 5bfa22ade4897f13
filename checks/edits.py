#!/usr/bin/env python3
"""Tries wrong bodies that the prover must refuse, and that are no part of the gate.

usage: checks/edits.py [--apply] [CRATE ..]

An edit is a file checks/edits/CRATE/NAME.edit with lines 'file: src/..', 'old: TEXT' and 'new: TEXT': TEXT is one line, the old one
stands once in that file, and further pairs apply to what the earlier ones made. It changes bodies of functions alone.

With --apply nothing is proved: in a second the script tells which edits no longer fit their files. The gate begins with that.
Without it the edits of the named crates, or of all, are tried, in a copy of the crates, which have to be proved as they stand. A function
is proved from the contracts of what it calls, whatever their bodies. So only the functions that edits change keep theirs there: each
other body becomes a call that never returns, and nothing of it is proved. A first check proves these functions as they stand, and each
further check takes as many edits as change different functions.

An edit is refused where a goal of its own function is not proved then: 'refuted' where the prover knows values at which it is false, 'open'
where it ends without a proof, 'gave up' where it left each such goal at a limit of its search, which says least. Anything else is a failure:
an edit that does not compile or read, only takes away what a proof file names, only adds a loop whose end is not proved, meets a limit of
the prover's own, or changes a function that is not proved as it stands; and one whose function is still proved: the contract lets it through.

The last line is 'N refused, M failed' (or 'N fit, ..'); the status is 0 where M is 0, and else 1.
"""
import argparse
import os
import re
import shutil
import signal
import subprocess
import sys
import tempfile
from pathlib import Path

ROOT = os.path.dirname(os.path.dirname(os.path.abspath(__file__)))
PARTS = ("src", "specs", "proofs", "out/rlib")
# A function that never returns, for all that a proof of its callers can tell.
STUB = "\nfn never_returns() -> ! {\n    loop {}\n}\n"
STUB_PROOF = """use Rattle.{}.proofs.never_returns.Statement.{{statement}}

pub never_returns_spec : {{M : Type 1}} → statement M
never_returns_spec 𝓤 𝓛 𝓜 𝓡 w = ?
"""
# What the prover says of a text that it cannot read, of a proof file that names what an edit took away, and of a limit of its own.
UNREAD = re.compile(r"is not in scope|has no field|is no name|operand is missing|expected the end|cannot continue")
SAYS_NOTHING = re.compile(r"has no field|is not in scope|has no `|was not admitted|is not checked until|ran out of|outgrew the|stopped at the step limit")
REFUSED = "refuted", "open", "gave up"


def edits_of(crate):
    return sorted(it.name for it in Path(f"{ROOT}/checks/edits/{crate}").glob("*.edit"))


def read(path):
    return Path(path).read_text(encoding="utf-8")


def lay_edit(crate, edit, texts):
    """The texts of the crate's files with the edit laid over these, and why it does not fit, or nothing where it fits."""
    texts, at, old, pairs = dict(texts), None, None, 0
    for line in read(f"{ROOT}/checks/edits/{crate}/{edit}").split("\n"):
        word, _, text = line.partition(": ")
        if word == "file":
            at = text
            if not os.path.isfile(f"{ROOT}/crates/{crate}/{at}"):
                return texts, f"there is no file {at}"
            texts.setdefault(at, read(f"{ROOT}/crates/{crate}/{at}"))
        elif word == "old":
            old = text
        elif word in ("new", "new:"):
            if at is None or old is None:
                return texts, "a 'new' stands before its 'file' and its 'old'"
            if texts[at].count(old) != 1:
                return texts, f"its old text stands {texts[at].count(old)} times: {old}"
            texts[at], old, pairs = texts[at].replace(old, text), None, pairs + 1
    return texts, None if pairs else "it has no pair of an old and a new text"


def apply_all(crates):
    fit = failed = 0
    for crate in crates:
        functions = functions_in(f"{ROOT}/crates/{crate}")
        for edit in edits_of(crate):
            why = lay_edit(crate, edit, {})[1] or not changed_by(crate, edit, functions) and "it changes something beside bodies of functions"
            if why:
                print(f"{crate}/{edit}: {why}")
            fit, failed = fit + (not why), failed + bool(why)
    print(f"{fit} fit, {failed} failed")
    return failed


def name_of_impl(head):
    """The name of an impl's functions before their own: of 'From<A> for B<C>' it is 'BFromA', of 'B<A>' it is 'B+A'; its own parameters are left out."""
    own = set()
    while head.startswith("<") or " where " in head:
        depth, at = 0, 0
        for at, it in enumerate(head):
            depth += (it == "<") - (it == ">" and head[at - 1] != "-")
            if not depth:
                break
        if head.startswith("<"):
            own |= set(re.findall(r"(?:^|,) *(?:const )?(\w+)", re.sub(r"->|<.*?>+", "", head[1:at])))
        head = head[at + 1 :].strip() if head.startswith("<") else head.partition(" where ")[0]
    trait, _, kind = head.rpartition(" for ")
    words = [re.findall(r"\w+", re.sub(r"\w+::|'\w+|\bmut\b|\bdyn\b", "", it)) for it in (kind, trait)]
    kind, trait = ([it for it in found if it not in own] or found for found in words)
    return kind[0] + "".join(trait) if trait else "+".join(kind)


class Function:
    """A function of a file in the layout of rt fmt: its file, the end of its name as the prover prints it, its cycle, and its lines."""

    def __init__(self, path, name, is_of_type, cycle, first, opens, ends):
        self.path, self.name, self.is_of_type, self.cycle = path, name, is_of_type, cycle
        self.first, self.opens, self.ends = first, opens, ends

    def is_at(self, path, line):
        """Whether this line, counted from 1, is one of the function or of its proof."""
        return path == self.path and self.first < line <= self.ends + 1 or self.is_proved_in(os.path.dirname(path))

    def is_proved_in(self, folder):
        """Whether this folder of the crate, as 'proofs/address/ServerAddress/parse', has the function's proof files."""
        place = self.name.replace("::", "/")
        is_own = folder == f"proofs/{place}" or self.is_of_type and folder.endswith(f"/{place}")
        return is_own or self.cycle is not None and os.path.basename(folder) == f"+{self.cycle}"


def opening(lines, at, indent):
    """The line that opens the body of the function at this line, or nothing where it has none, or one that is empty."""
    is_signature = True
    for here in range(at, len(lines)):
        line = lines[here]
        is_signature = is_signature and not re.match(r"\s*(requires|ensures|ghost|//)\b", line)
        if line == indent + "{" or is_signature and line.endswith(" {"):
            return here
        if here > at and line and not re.match(indent + r"( |\)|where)", line) or line.endswith("{}"):
            break
    return None


def functions_of(path, text):
    module = [it for it in path[4:-3].split("/") if it not in ("lib", "main", "mod")]
    lines, found, outer, is_of_type, at, cycle = text.split("\n"), [], module, False, 0, None
    while at < len(lines):
        line = lines[at]
        block = re.match(r"(?:pub(?:\(.*?\))? )?(?:unsafe )?(impl|trait)\b", line)
        if block:
            head = " ".join(it.strip() for it in lines[at : next(k for k in range(at, len(lines)) if lines[k].endswith(("{", "}"))) + 1])
            head = head.partition(block[1])[2].rstrip("{} ").strip()
            # (a type's own functions have the type's module in their names, whatever file they stand in: their names begin with the type)
            is_of_type = block[1] == "impl" and " for " not in head
            name = name_of_impl(head) if block[1] == "impl" else re.match(r"\w+", head)[0]
            outer = [name] if is_of_type else [*module, name]
        elif line == "}":
            outer, is_of_type = module, False
        elif "#[cycle(" in line:
            cycle = re.search(r"#\[cycle\((\w+)\)\]", line)[1]
        begins = re.match(r"( *)(?:pub(?:\(.*?\))? )?(?:const |unsafe |extern \"C\" )*fn (\w+)", line)
        if begins:
            opens = opening(lines, at, begins[1])
            if opens:
                ends = lines.index(begins[1] + "}", opens)
                first = at - next(k for k in range(at + 1) if not re.match(r" *(#\[|//)", lines[at - k - 1]))
                found.append(Function(path, "::".join([*outer, begins[2]]), is_of_type, cycle, first, opens, ends))
                at = ends
            cycle = None
        at += 1
    return found


def functions_in(folder):
    return [it for path in sorted(Path(folder).glob("src/**/*.rt")) for it in functions_of(str(path.relative_to(folder)), read(path))]


def changed_by(crate, edit, functions):
    """The functions whose bodies the edit changes, or nothing where it changes anything else."""
    texts, found = lay_edit(crate, edit, {})[0], []
    for path, text in texts.items():
        was, now = read(f"{ROOT}/crates/{crate}/{path}").split("\n"), text.split("\n")
        at = [it for it, line in enumerate(was) if line != now[it]]
        found += [next((f for f in functions if f.path == path and f.opens < it < f.ends), None) for it in at]
    return [] if None in found else list(dict.fromkeys(found))


class Room:
    """A copy of the crates in which only the functions that the edits of one crate change have their bodies."""

    def __init__(self, room, crate):
        self.crate, self.folder = crate, f"{room}/crates/{crate}"
        functions = functions_in(f"{ROOT}/crates/{crate}")
        self.changed = {it: changed_by(crate, it, functions) for it in edits_of(crate)}
        kept = {it for changed in self.changed.values() for it in changed}
        kept |= {it for it in functions if it.cycle in {other.cycle for other in kept} - {None}}
        self.clear_bodies([it for it in functions if it not in kept])
        self.clear_proofs(kept)
        self.texts = {it.path: read(f"{self.folder}/{it.path}") for it in functions}

    def clear_bodies(self, functions):
        # (from the last one back, and no line is lost, so that each stays where it was)
        for it in sorted(functions, key=lambda it: -it.opens):
            lines = read(f"{self.folder}/{it.path}").split("\n")
            lines[it.opens + 1 : it.ends] = ["crate::never_returns()"] + [""] * (it.ends - it.opens - 2)
            lines[it.first : it.opens] = [line.replace(f"#[cycle({it.cycle})]", "") for line in lines[it.first : it.opens]]
            self.write(it.path, "\n".join(lines))
        root = next(it for it in ("src/lib.rt", "src/main.rt") if os.path.isfile(f"{self.folder}/{it}"))
        self.write(root, read(f"{self.folder}/{root}") + STUB)

    def clear_proofs(self, kept):
        for at, _, files in os.walk(f"{self.folder}/proofs"):
            is_kept = any(it.is_proved_in(at[len(self.folder) + 1 :]) for it in kept)
            for name in {"Answers.antt", "Invariants.antt", "Proof.antt"} & set(files) if not is_kept else ():
                os.remove(f"{at}/{name}")
        os.makedirs(f"{self.folder}/proofs/never_returns")
        self.write("proofs/never_returns/Proof.antt", STUB_PROOF.format(self.crate))

    def write(self, path, text):
        Path(f"{self.folder}/{path}").write_text(text, encoding="utf-8")

    def laid_together(self, edits):
        """As many of the edits as change different functions, and fit after one another."""
        texts, taken, together = self.texts, set(), []
        for edit in edits:
            laid, why = lay_edit(self.crate, edit, texts)
            if not why and not taken & set(self.changed[edit]):
                texts, together = laid, [*together, edit]
                taken |= set(self.changed[edit])
        return together

    def check(self, edits):
        """What a check tells of each function that these edits change, with the edits in place, or of all as they stand where there are none."""
        texts = self.texts
        for edit in edits:
            texts = lay_edit(self.crate, edit, texts)[0]
        for path, text in texts.items():
            self.write(path, text)
        functions = list(dict.fromkeys(f for edit in edits or self.changed for f in self.changed[edit]))
        words = ["rt", "check", "--jobs", "1", "--allow-holes", *[it for f in functions for it in ("--only", f.name)]]
        how = {"cwd": self.folder, "stdin": subprocess.DEVNULL, "stdout": subprocess.PIPE, "stderr": subprocess.STDOUT}
        said = subprocess.run(words, text=True, errors="replace", **how).stdout.rstrip("\n").split("\n")
        return verdicts_on(functions, self.crate, said)


def verdicts_on(functions, crate, said):
    """What the lines of a check tell of each function: 'proved', a word of REFUSED, or why it is neither, and the line that says so."""
    own, told, elsewhere = {it: [] for it in functions}, {}, None
    for line in said:
        at = re.match(r"(note: )?(?:\./)?((?:src|specs|proofs)/\S+?):(\d+):\d+: (error)?", line)
        whose = [it for it in functions if at and it.is_at(at[2], int(at[3]))]
        for it in whose:
            own[it].append(line)
        elsewhere = elsewhere or (line if at and at[4] and not whose else None)
    for it in functions:
        state = next((re.sub(r"^fn \S+ ", "", line) for line in said if re.match(rf"fn {crate}::(\w+::)*{re.escape(it.name)}: ", line)), None)
        unread = [line for line in own[it] if re.match(r"(\./)?src/\S+ error", line) and UNREAD.search(re.sub(r"`[^`]*`", "", line))]
        if state is None:
            told[it] = "not tried", next((line for line in said if re.search(r"\berror|fits no", line)), said[-1])
        elif elsewhere or unread:
            told[it] = "not read", (unread or [elsewhere])[0]
        elif state == "no holes" or state.startswith("depends on a hole") and "never_returns_spec" in state:
            told[it] = "proved", state
        else:
            told[it] = refusal(own[it]) or ("no goal of its own is open", (own[it] or [state])[0])
    return told


def refusal(lines):
    """How the prover left a goal of these that says most, and its line. A goal is one of the body, or one that an answer of a proof file does not prove."""
    goals = [it for it in lines if re.search(r"is not proved that(?! the loop ends)|proofs/.*: error", it) and not SAYS_NOTHING.search(it)]
    told = [("refuted" if "allow values" in it else "gave up" if "gave up" in it else "open", it) for it in goals]
    return min(told, key=lambda it: REFUSED.index(it[0]), default=None)


def tell(crate, verdicts):
    """Prints these verdicts on edits, and returns how many of them are refused."""
    for edit, (word, line) in verdicts.items():
        print(f"{crate}/{edit}: {'refused' if word in REFUSED else 'FAILED'}, {word}: {line:.240}", flush=True)
    return sum(word in REFUSED for word, _ in verdicts.values())


def try_crate(room, crate):
    """Tries the edits of a crate, and returns how many are refused, and how many there are."""
    here, began = Room(room, crate), sum(os.times()[2:4])
    told = here.check([])
    verdicts = {edit: next((it for it in map(told.get, changed) if it[0] != "proved"), None) for edit, changed in here.changed.items()}
    refused = tell(crate, {edit: (f"as it stands its function is {it[0]}", it[1]) for edit, it in verdicts.items() if it})
    left = together = [edit for edit, it in verdicts.items() if not it]
    while left:
        # (where nothing came of several, since one does not compile, each is tried alone)
        together = here.laid_together(left) if together else left[:1]
        told = here.check(together)
        verdicts = {edit: min((told[it] for it in here.changed[edit]), key=lambda it: it[0] not in REFUSED) for edit in together}
        together = [it for it in together if verdicts[it][0] in (*REFUSED, "proved") or len(verdicts) == 1]
        refused += tell(crate, {it: verdicts[it] for it in together})
        left = [it for it in left if it not in together]
    whole = len(here.changed)
    print(f"{crate}: {refused} refused, {whole - refused} failed, {sum(os.times()[2:4]) - began:.0f} s of a processor", flush=True)
    return refused, whole


def copy_of(one, other):
    # (a proved file is never written in place, so a link of it is a copy)
    return os.link(one, other) if one.endswith(".oantt") else shutil.copy2(one, other)


def lay_crate(room, crate):
    """Gives the room the crate as it stands, and no other file of it."""
    shutil.rmtree(f"{room}/crates/{crate}", ignore_errors=True)
    for part in PARTS:
        if os.path.isdir(f"{ROOT}/crates/{crate}/{part}"):
            shutil.copytree(f"{ROOT}/crates/{crate}/{part}", f"{room}/crates/{crate}/{part}", copy_function=copy_of)


def try_all(crates):
    signal.signal(signal.SIGTERM, lambda *_: sys.exit(1))
    refused = whole = 0
    with tempfile.TemporaryDirectory(prefix="edits-", dir=os.path.dirname(ROOT)) as room:  # (on the same disk, for the links)
        for name in ("crates.txt", "HANDLES"):
            shutil.copy2(f"{ROOT}/{name}", room)
        for crate in sorted(os.listdir(f"{ROOT}/crates")):
            lay_crate(room, crate)
        for crate in crates:
            counts = try_crate(room, crate)
            refused, whole = refused + counts[0], whole + counts[1]
            # (a crate above it is tried over the crate as it stands)
            lay_crate(room, crate)
    print(f"{refused} refused, {whole - refused} failed")
    return whole - refused


def main():
    words = argparse.ArgumentParser(usage=__doc__.split("\n")[2][7:])
    words.add_argument("--apply", action="store_true")
    known = sorted(os.listdir(f"{ROOT}/checks/edits"))
    words.add_argument("crates", nargs="*")
    said = words.parse_args()
    if not set(said.crates) <= set(known):
        words.error(f"only these crates have edits: {' '.join(known)}")
    return 1 if (apply_all if said.apply else try_all)(said.crates or known) else 0


if __name__ == "__main__":
    sys.exit(main())
