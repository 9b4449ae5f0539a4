#!/usr/bin/env python3
"""Looks up what the pages say: that each file, crate, function, clause and definition that they name is there.

Usage: tools/check_docs.py

It reads README.md, CHANGELOG.md, docs/*.md and bench/*.md, says each name that it doesn't find, and ends with 1 then, else with 0.
Paths are given from the top of the repository, or from crates/. These forms are looked up, outside of blocks of code:

  `path/to/file`                     a file or folder; a bare name with one of the endings below is a file anywhere
  `pj_name`                          a crate, or the name of something in Rattle's code
  `path.antt`: `A`, `B`              the definitions A and B of that file
  `path.rt` `f`: `a`, `b`; `T::g`    the functions f and T::g of that file, and the clauses of f's contract, `ensures a {`
  | File of `folder` | ..            a table whose first column names files of that folder, without their ending
  [words](page#heading)              a page and one of its headings

docs/THEOREMS.md has to name a contract, a definition and a proof in each row of its tables of promises.
"""

import pathlib
import re
import sys

TOP = pathlib.Path(__file__).resolve().parent.parent
ENDINGS = (".antt", ".rt", ".md", ".py", ".edit")
SPAN = re.compile(r"`([^`]+)`")
LINK = re.compile(r"\[[^\]]*\]\(([^)\s]+)\)")
PLACEHOLDER = re.compile(r"(^|/)[A-Z]{2,}([./]|$)|\.\.|\*|<|>")
PROMISE_HEAD = ["Promise", "Call and clauses", "Definition", "Proof"]


def pages():
    """The pages that are checked, README first."""
    found = [TOP / "README.md", TOP / "CHANGELOG.md"]
    for folder in ("docs", "bench"):
        found += sorted((TOP / folder).glob("*.md"))
    return [page for page in found if page.is_file()]


class Sources:
    """The files of the repository, each read once."""

    def __init__(self):
        self.texts = {}
        self.names = None

    def find(self, path):
        """The file or folder of a path, from the top or from crates/, or None."""
        for base in (TOP, TOP / "crates"):
            if (base / path).exists():
                return base / path
        return None

    def text(self, file):
        if file not in self.texts:
            self.texts[file] = file.read_text(encoding="utf-8")
        return self.texts[file]

    def has_file_called(self, name):
        """Whether a file of this bare name stands anywhere, what was built aside."""
        if self.names is None:
            self.names = set()
            for file in TOP.rglob("*"):
                parts = file.relative_to(TOP).parts
                if "out" not in parts and ".git" not in parts:
                    self.names.add(file.name)
        return name in self.names

    def defines(self, file, name):
        """Whether a definition, a type or one of its variants of this name stands in a file of specs or proofs."""
        head = r"^\s*(?:(?:abbrev|unfoldable)\s+)?(?:pub\s+)?(?:data\s+|record\s+)?"
        return re.search(head + re.escape(name) + r"(?=\s*[:({])", self.text(file), re.M) is not None

    def contract(self, file, function):
        """The lines of a function's contract, `name` or `Type::name`, or None where the file has no such function."""
        kind, _, name = function.rpartition("::")
        lines = self.text(file).split("\n")
        inside = not kind
        for i, line in enumerate(lines):
            if kind and re.match(r"(impl|pub trait|trait)\b.*\b" + re.escape(kind) + r"\b", line):
                inside = True
            elif kind and line.startswith("}"):
                inside = False
            if inside and re.match(r"\s*(?:pub )?(?:unsafe )?fn " + re.escape(name) + r"\b", line):
                return contract_from(lines, i)
        return None


def contract_from(lines, start):
    """The lines from a function's first to its body, or to its end in a trait."""
    taken = []
    for line in lines[start:]:
        taken.append(line)
        if line.strip() in ("{", "{}") or line.rstrip().endswith((";", ") {", "> {")):
            break
    return taken


def spans_of(line):
    """The spans in backticks of a line, each with the text that stands between it and the one before."""
    found, end = [], 0
    for match in SPAN.finditer(line):
        found.append((line[end : match.start()], match.group(1)))
        end = match.end()
    return found


class Checker:
    def __init__(self):
        self.sources = Sources()
        self.faults = []
        self.crates = {folder.name for folder in (TOP / "crates").iterdir() if (folder / "src").is_dir()}

    def fault(self, page, number, words):
        self.faults.append(f"{page.relative_to(TOP)}:{number}: {words}")

    def check(self, page):
        table, fenced = None, False
        for number, line in enumerate(page.read_text(encoding="utf-8").split("\n"), 1):
            if line.lstrip().startswith("```"):
                fenced = not fenced
            if fenced:
                continue
            self.check_links(page, number, line)
            self.check_spans(page, number, spans_of(line))
            table = self.check_table(page, number, line, table)

    def check_links(self, page, number, line):
        for target in LINK.findall(SPAN.sub("x", line)):
            if "://" in target:
                continue
            path, _, heading = target.partition("#")
            file = (page.parent / path) if path else page
            if not file.exists():
                self.fault(page, number, f"no page {target}")
            elif heading and heading not in headings(file):
                self.fault(page, number, f"no heading {target}")

    def check_spans(self, page, number, spans):
        i = 0
        while i < len(spans):
            word = spans[i][1]
            i += 1
            if not is_path(word):
                self.check_name(page, number, word)
                continue
            file = self.sources.find(word)
            if file is None:
                self.fault(page, number, f"no file {word}")
            elif word.endswith(".antt"):
                i = self.check_definitions(page, number, spans, i, file)
            elif word.endswith(".rt"):
                i = self.check_functions(page, number, spans, i, file)

    def check_name(self, page, number, word):
        """A bare name of a file or a crate."""
        if word.endswith(ENDINGS) and re.fullmatch(r"[\w.-]+", word) and not PLACEHOLDER.search(word):
            if not self.sources.has_file_called(word):
                self.fault(page, number, f"no file {word}")
        if re.fullmatch(r"pj_[a-z_]+", word) and word not in self.crates:
            self.fault(page, number, f"no crate {word}")

    def check_definitions(self, page, number, spans, i, file):
        while i < len(spans) and spans[i][0] in (": ", ", ") and not is_path(spans[i][1]):
            if not self.sources.defines(file, spans[i][1]):
                self.fault(page, number, f"no definition {spans[i][1]} in {file.relative_to(TOP)}")
            i += 1
        return i

    def check_functions(self, page, number, spans, i, file):
        while i < len(spans) and spans[i][0] in (" ", "; ") and not is_path(spans[i][1]):
            function = spans[i][1]
            i += 1
            contract = self.sources.contract(file, function)
            if contract is None:
                self.fault(page, number, f"no function {function} in {file.relative_to(TOP)}")
            elif not any(re.match(r"\s*ensures\b", line) for line in contract):
                self.fault(page, number, f"{function} in {file.relative_to(TOP)} promises nothing")
            i = self.check_clauses(page, number, spans, i, function, contract)
        return i

    def check_clauses(self, page, number, spans, i, function, contract):
        first = True
        while i < len(spans) and spans[i][0] == (": " if first else ", ") and not is_path(spans[i][1]):
            clause, first = spans[i][1], False
            i += 1
            if contract is not None and not has_clause(contract, clause):
                self.fault(page, number, f"no clause {clause} of {function}")
        return i

    def check_table(self, page, number, line, table):
        """The table in which a line stands: its header's cells, or None."""
        if not line.startswith("|"):
            return None
        cells = [cell.strip() for cell in line.strip().strip("|").replace("\\|", "\0").split("|")]
        if table is None:
            return cells
        if set(line) <= set("|-: "):
            return table
        if table[0].startswith("File of `"):
            self.check_column(page, number, table[0], cells[0])
        if table == PROMISE_HEAD and page.name == "THEOREMS.md":
            self.check_promise(page, number, cells)
        return table

    def check_column(self, page, number, head, cell):
        folder = self.sources.find(SPAN.search(head).group(1))
        for name in SPAN.findall(cell):
            if folder is None or not (folder / (name + ".antt")).is_file():
                self.fault(page, number, f"no file {name}.antt as {head} says")

    def check_promise(self, page, number, cells):
        if len(cells) != len(PROMISE_HEAD):
            self.fault(page, number, "a promise has four cells")
            return
        if not re.search(r"\.rt` `", cells[1]):
            self.fault(page, number, "a promise names a function of a file")
        if not re.search(r"\.antt`: `", cells[2]):
            self.fault(page, number, "a promise names a definition of a file")
        if not (re.search(r"`[^`]*/[^`]*`", cells[3]) or cells[3] in ("the prover alone", "as above")):
            self.fault(page, number, "a promise names its proof")


def is_path(word):
    """Whether a span is a path in the repository: not a command, a file of a user, or a place for a name."""
    if " " in word or "/" not in word or PLACEHOLDER.search(word):
        return False
    first = word.split("/")[0]
    return first.startswith("pj_") or first in ("crates", "docs", "tools", "bench", "examples", ".ci")


def has_clause(contract, clause):
    return any(re.match(r"\s*ensures " + re.escape(clause) + r" \{", line) for line in contract)


def headings(file):
    """The headings of a page, as links name them."""
    found = set()
    for line in file.read_text(encoding="utf-8").split("\n"):
        if line.startswith("#"):
            words = line.lstrip("#").strip().lower()
            found.add(re.sub(r"[^\w\- ]", "", words).replace(" ", "-"))
    return found


def main():
    checker = Checker()
    for page in pages():
        checker.check(page)
    for fault in checker.faults:
        print(fault)
    print(f"{len(pages())} pages, {len(checker.faults)} faults")
    return 1 if checker.faults else 0


if __name__ == "__main__":
    sys.exit(main())
