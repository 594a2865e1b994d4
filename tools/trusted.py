#!/usr/bin/env python3
"""The definitions on which the top calls' clauses rest, found by following the words that each one cites.

Prints the table that stands in docs/THEOREMS.md. With --check it compares the two and ends with status 1 where they
differ. With --list it prints the definitions themselves, by file. A definition is what stands between two blank lines,
with the comment above it; a group of definitions that cite each other counts as one. A word that is also the name of
a variable counts as cited, so the list is an upper bound.
"""
import re
import sys
from pathlib import Path

TOP = Path(__file__).resolve().parent.parent
STATED_IN = ["crates/hc_cmd/src/answering.rt", "crates/hc_cmd/src/laws.rt", "crates/hc_words/src/laws.rt"]
IMPORT = re.compile(r"(pub )?use Rattle\.(hc_\w+)\.specs\.([\w.]+?)(?:\.\{([^}]*)\}| as (\S+))?;?\s*$")
DEFINED = re.compile(r"^\s*(?:(?:abbrev|pub|unfoldable) )*(?:(?:record|data) ([^\s:(){}=→]+)(?=\s*[:({])|((?:[^\s:(){}=→]+ )*[^\s:(){}=→]+)(?=\s*:))")


class File:
    """A file of definitions: what it imports, and its definitions by their words."""

    def __init__(self, path):
        self.path = path
        self.names, self.aliases, self.passed_on = {}, {}, []
        self.blocks, self.defined = [], {}
        lines = path.read_text(encoding="utf-8").splitlines()
        self.read_imports(lines)
        for block in split(line for line in lines if not IMPORT.search(line) and not line.startswith("use ")):
            self.blocks.append(block)
            for line in block:
                found = DEFINED.match(line)
                if found and not line.lstrip().startswith("--"):
                    for word in (found.group(1) or found.group(2)).split():
                        self.defined.setdefault(word.strip("◌"), len(self.blocks) - 1)

    def read_imports(self, lines):
        for line in lines:
            found = IMPORT.search(line)
            if not found or found.group(3).startswith("declared."):
                continue
            is_passed_on, crate, module, names, alias = found.groups()
            target = TOP / "crates" / crate / "specs" / (module.replace(".", "/") + ".antt")
            if not target.is_file():
                continue
            if is_passed_on:
                self.passed_on.append(target)
            if alias:
                self.aliases[alias] = target
            for name in re.split(r",\s*", names or ""):
                old, _, new = name.partition(" as ")
                self.names[(new or old).strip("◌ ")] = (target, old.strip("◌ "))


def split(lines):
    """The definitions of a file: at a blank line a new one begins, unless what follows is indented."""
    block, is_after_blank = [], True
    for line in lines:
        if not line.strip():
            is_after_blank = True
            continue
        if is_after_blank and block and not line.startswith(" "):
            yield block
            block = []
        is_after_blank = False
        if not line.startswith("-- ----"):
            block.append(line)
    if block:
        yield block


def words(text):
    """The words of a text, each with the word before its point, if it has one."""
    for piece in re.split(r"[\s(){}\[\],;:λ⟦⟧]+", text):
        parts = [part for part in piece.split(".") if part]
        for at, part in enumerate(parts):
            yield parts[at - 1] if at else None, part.strip("◌")


class Closure:
    def __init__(self):
        self.files, self.met = {}, set()

    def file(self, path):
        if path not in self.files:
            self.files[path] = File(path)
        return self.files[path]

    def home(self, path, name):
        """Where a word that this file offers is defined."""
        file = self.file(path)
        if name in file.defined:
            return path, file.defined[name]
        if name in file.names:
            return self.home(*file.names[name])
        for target in file.passed_on:
            found = self.home(target, name)
            if found:
                return found
        return None

    def cited(self, path, text):
        file = self.file(path)
        for before, word in words(text):
            found = self.home(file.aliases[before], word) if before in file.aliases else self.home(path, word)
            if found:
                yield found

    def follow(self, todo):
        while todo:
            path, number = todo.pop()
            if (path, number) not in self.met:
                self.met.add((path, number))
                code = "\n".join(line.split("--")[0] for line in self.file(path).blocks[number])
                todo.extend(self.cited(path, code))


def closure():
    found = Closure()
    for name in STATED_IN:
        path = TOP / name
        stated = found.file(path)
        found.follow([home for target, word in stated.names.values() for home in [found.home(target, word)] if home])
    return found


def table(found):
    rows = {}
    for path, number in found.met:
        crate = path.relative_to(TOP / "crates").parts[0]
        files, lines = rows.setdefault(crate, (set(), []))
        files.add(path.stem)
        lines.append(len(found.file(path).blocks[number]))
    out = ["| crate | files of `specs/` | definitions | lines |", "|---|---|---|---|"]
    for crate in sorted(rows):
        files, lines = rows[crate]
        out.append(f"| `{crate}` | {', '.join(f'`{name}`' for name in sorted(files))} | {len(lines)} | {sum(lines)} |")
    everything = [lines for _, lines in rows.values()]
    out.append(f"| in all | {sum(len(files) for files, _ in rows.values())} | {sum(map(len, everything))} | {sum(map(sum, everything))} |")
    return out


def listed(found):
    for path in sorted({path for path, _ in found.met}):
        yield f"---- {path.relative_to(TOP)}"
        for number in sorted(number for other, number in found.met if other == path):
            yield "\n".join(found.file(path).blocks[number]) + "\n"


def main():
    found = closure()
    wanted = table(found)
    if "--list" in sys.argv[1:]:
        print("\n".join(listed(found)))
    elif "--check" not in sys.argv[1:]:
        print("\n".join(wanted))
    elif "\n".join(wanted) not in (TOP / "docs/THEOREMS.md").read_text(encoding="utf-8"):
        print("docs/THEOREMS.md: the table of trusted definitions is not what tools/trusted.py prints", file=sys.stderr)
        return 1
    return 0


if __name__ == "__main__":
    sys.exit(main())
