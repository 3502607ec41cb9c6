#!/usr/bin/env python3
"""Makes docs/DEFINITIONS.md from the comment lines of crates/*/specs.

    tools/definitions.py            compares the page; status 1 if it is not as made
    tools/definitions.py --write    writes the page
    tools/definitions.py --lacking  prints the definitions that have no comment line of their own

A definition stands on the page if the contract of a public function cites it, or if a reader of the theorem has to believe it
(tools/believed.py). Its sentence is the comment above it. docs/definitions.txt has the introduction of the page, notes on crates, and
the sentences of those that have no comment: the lines `CRATE File NAME: sentence`."""
import os
import re
import subprocess
import sys
import textwrap

TOP = os.path.dirname(os.path.dirname(os.path.abspath(__file__)))
PAGE = os.path.join(TOP, "docs", "DEFINITIONS.md")
SIDE = os.path.join(TOP, "docs", "definitions.txt")
USE = re.compile(r"^(?:unfoldable )?(?:pub )?(?:ghost )?use Rattle\.(gb_\w+)\.specs\.([\w.]+?)\.\{(.*)\};?$")
HEAD = re.compile(r"(?:unfoldable |abbrev |pub |record |data )+(\S+)")
# How many functions are named behind a definition.
MOST = 3


class Definition:
    """A definition of specs/: its crate, its file without the ending, its name, and the comment above it."""

    def __init__(self, crate, file, name, comment):
        self.crate, self.file, self.name, self.comment = crate, file, name, comment
        self.believed, self.cited = False, {}

    def key(self):
        return f"{self.crate} {self.file} {self.name}"


def read(path):
    with open(path, encoding="utf-8") as file:
        return file.read()


def files_of(crate, folder, ending):
    """Yields the files below a folder of a crate: those of specs/ in the order of Lib.antt."""
    top = os.path.join(TOP, "crates", crate, folder)
    found = []
    for place, _, names in os.walk(top):
        found += [os.path.join(place, name) for name in names if name.endswith(ending)]
    listed = []
    if os.path.exists(os.path.join(top, "Lib.antt")):
        listed = re.findall(r"^pub mod (\S+)", read(os.path.join(top, "Lib.antt")), re.M)
    order = {name: place for place, name in enumerate(listed)}
    return sorted(found, key=lambda path: (order.get(os.path.relpath(path, top).split(os.sep)[0].removesuffix(ending), 999), path))


def parts(words):
    """Yields the names that braces bring in, each with the name that the file gives it."""
    for part in words.split(","):
        own, _, given = part.strip().partition(" as ")
        yield own.split(".")[-1], given or own.split(".")[-1]


class Specs:
    """All files of specs/: their sentences, their definitions, and what they pass on."""

    def __init__(self, crates):
        self.sentences, self.found, self.passed = {}, {}, {}
        for crate in crates:
            top = os.path.join(TOP, "crates", crate, "specs")
            for path in files_of(crate, "specs", ".antt"):
                file = os.path.relpath(path, top).removesuffix(".antt").replace(os.sep, ".")
                self.read(crate, file, read(path).split("\n"))

    def read(self, crate, file, lines):
        comment, begun = [], False
        for line in lines:
            text = line.strip()
            if text.startswith("--"):
                comment.append(text[2:].strip())
                continue
            if not begun:
                self.sentences[crate, file] = " ".join(comment)
                begun, comment = True, []
            used = USE.match(line)
            if used and "pub use" in line:
                for own, given in parts(used.group(3)):
                    self.passed[crate, file, given] = (used.group(1), used.group(2), own)
            head = HEAD.match(text)
            if head and not re.search(r"\b(use|mod)\b", head.group()) and len(line) - len(text) <= 2:
                name = head.group(1).rstrip(":")
                self.found.setdefault((crate, file, name), Definition(crate, file, name, " ".join(comment)))
            comment = []

    def named(self, key):
        """Returns the definition of a name that a file has or passes on, or None."""
        seen = 0
        while key in self.passed and seen < 9:
            key, seen = self.passed[key], seen + 1
        return self.found.get(key)


def note_citations(specs, crates):
    """Notes at each definition which public functions of programs cite it, and whether the clause is an `ensures`."""
    for crate in crates:
        for path in files_of(crate, "src", ".rt"):
            module = os.path.relpath(path, os.path.join(TOP, "crates", crate, "src")).removesuffix(".rt").replace(os.sep, "::")
            lines, uses = read(path).split("\n"), {}
            for line in lines:
                used = USE.match(line.strip())
                if used and not used.group(2).startswith("declared"):
                    uses.update({given: (used.group(1), used.group(2), own) for own, given in parts(used.group(3))})
            function, holder = None, None
            for line in lines:
                block = re.match(r"(?:pub )?(?:impl|trait)\b(?:<.*?>)? ?(?:.* for )?(\w+)", line)
                if block:
                    holder = block.group(1)
                elif line.startswith("}"):
                    holder = None
                head = re.match(r"\s*(pub )?(?:const )?fn (\w+)", line)
                if head:
                    inside = holder and line.startswith(" ")
                    function = (f"{holder if inside else module}::{head.group(2)}", bool(head.group(1)))
                clause = re.match(r"\s*(ensures|requires)\b", line)
                if clause and function and function[1]:
                    for word in set(re.findall(r"[A-Za-z_][\w']*", line)) & uses.keys():
                        found = specs.named(uses[word])
                        if found is not None:
                            found.cited.setdefault((crate, function[0]), set()).add(clause.group(1))


def note_believed(specs):
    """Notes which definitions a reader of the theorem has to believe."""
    told = subprocess.run([sys.executable, os.path.join(TOP, "tools", "believed.py"), "--list"], capture_output=True, text=True, check=True).stdout
    for crate, file, names in re.findall(r"^crates/(gb_\w+)/specs/(\S+)\.antt: \d+ lines: (.*)$", told, re.M):
        for name in names.split(", "):
            found = specs.named((crate, file.replace("/", "."), name))
            if found is not None:
                found.believed = True


def side():
    """Returns the introduction, the notes by crate, and the sentences by key."""
    introduction, notes, sentences, crate = [], {}, {}, None
    for line in read(SIDE).split("\n"):
        head = re.fullmatch(r"\[(gb_\w+)\]", line)
        sentence = re.match(r"(gb_\w+ \S+ \S+): (.+)", line)
        if head:
            crate = head.group(1)
        elif sentence:
            sentences[sentence.group(1)] = sentence.group(2)
        elif crate is None:
            introduction.append(line)
        elif line:
            notes.setdefault(crate, []).append(line)
    paragraphs = "\n".join(introduction).strip().split("\n\n")
    return "\n\n".join(textwrap.fill(it, 130, break_on_hyphens=False) for it in paragraphs), notes, sentences


def carriers(definition):
    """Returns the functions that say what is proved with a definition: those whose `ensures` cites it, the ones of its crate first."""
    promised = [where for where, clauses in definition.cited.items() if "ensures" in clauses]
    where = sorted(promised or definition.cited, key=lambda it: it[0] != definition.crate)
    named = [f"`{name}`" if crate == definition.crate else f"`{name}` of {crate}" for crate, name in where[:MOST]]
    if len(where) > MOST:
        named.append(f"{len(where) - MOST} more")
    return ", ".join(named)


def entry(definition, sentences):
    sentence = (definition.comment or sentences.get(definition.key(), "")).removesuffix(".")
    text = f"`{definition.name}`{': ' if sentence else ''}{sentence}"
    marks = carriers(definition)
    text += f" [{marks}]" if marks else ""
    return textwrap.wrap(text, 130, initial_indent="- ", subsequent_indent="  ", break_on_hyphens=False, break_long_words=False)


def page(crates):
    introduction, notes, sentences = side()
    specs = Specs([name for _, names in crates for name in names])
    names = [name for _, floor in crates for name in floor if not name.endswith("_examples")]
    note_citations(specs, names)
    note_believed(specs)
    wanted = [it for it in specs.found.values() if it.cited or it.believed]
    lines = [introduction, ""]
    for heading, floor in crates:
        here = [name for name in floor if any(it.crate == name for it in wanted)]
        if not here:
            continue
        lines += [f"## {heading[:1].upper()}{heading[1:]}", ""]
        for crate in here:
            lines += [f"### {crate}", ""]
            for note in notes.get(crate, []):
                lines += textwrap.wrap(note, 130, break_on_hyphens=False, break_long_words=False) + [""]
            file = None
            for it in wanted:
                if it.crate == crate:
                    if it.file != file:
                        file = it.file
                        lines += [""] if lines[-1] else []
                        sentence = specs.sentences[crate, file].rstrip(".")
                        named = f"**specs/{file.replace('.', '/')}.**"
                        lines += textwrap.wrap(f"{named} {sentence}." if sentence else named, 130) + [""]
                    lines += entry(it, sentences)
            lines.append("")
    stale = sorted(sentences.keys() - {it.key() for it in wanted if not it.comment})
    lacking = [it.key() for it in wanted if not it.comment]
    return re.sub(r"\n{3,}", "\n\n", "\n".join(lines)), stale, lacking, [it for it in lacking if it not in sentences]


def floors():
    """Returns the headings of crates.txt with the names of their crates."""
    found = []
    for line in read(os.path.join(TOP, "crates.txt")).split("\n"):
        if line.startswith("#"):
            found.append((line[1:].strip(), []))
        elif line:
            found[-1][1].append(line.split(":")[0].split()[0])
    return found


def main():
    text, stale, lacking, silent = page(floors())
    faults = [f"docs/definitions.txt has a sentence that no definition needs: {key}" for key in stale]
    faults += [f"{key} has no comment line, and no sentence in docs/definitions.txt" for key in silent]
    if "--lacking" in sys.argv[1:]:
        print("\n".join(lacking))
        return
    if "--write" in sys.argv[1:]:
        with open(PAGE, "w", encoding="utf-8") as file:
            file.write(text)
    elif read(PAGE) != text:
        faults.append("docs/DEFINITIONS.md is not as specs/ say: run tools/definitions.py --write")
    for fault in faults:
        print(fault)
    sys.exit(1 if faults else 0)


main()
