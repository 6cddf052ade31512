#!/usr/bin/env python3
"""Refuses names in README.md and docs/*.md that nothing in the repository has.

    python3 outside/names.py

What stands between back-quotes, or in a block of code, is read word by word. A path must be that of a file or folder, perhaps
from one of its folders on; an option must stand in some program; and any other word must stand in some source, outside its
comments. Where the text says of which crate a name is (`run` of leap_run), or is the README's paragraph on a crate, it must be
of that crate, or of one that was named before it in that line.
"""

import fnmatch
import pathlib
import re
import subprocess
import sys

from program import TOP

DOCUMENTS = re.compile(r"(docs/)?[^/]*\.md")
SOURCES = (".rt", ".antt", ".py", ".c", ".h", ".s", ".S", ".sh", ".toml", ".edit", ".txt", "")
COMMENTS = {".rt": r"//.*$", ".antt": r"--(?=\s|$).*$", ".c": r"//.*$", ".h": r"//.*$", ".s": r"#.*$"}
CRATE_FOLDERS = r"crates/(\w+)/(?:src|specs|proofs)/"
WORD = re.compile(r"(?<![\w$])[A-Za-z_]\w*")
OPTION = re.compile(r"(?<![\w-])--[a-z][a-z-]*")
PATH = re.compile(r"(?<![\w@=])[\w./*-]*/[\w./*-]+|[\w*-]+\.(?:rt|antt|py|md|sh|toml|edit|txt|svg)")
SPAN = re.compile(r"`([^`]+)`")
# As in **low**, or **one**, **another**; and what may stand between a name and its crate.
HEADING = re.compile(r"(?:(?:, )?\*\*[^*]*\*\*)+")
OWNER = re.compile(r"(?:(?:,| and|, and) `[^`]+`)* of (?:crate )?`?(\w+)`?")
# Spans that begin so are words of the toolchain's, and of others' tools; some names of theirs stand alone.
FOREIGN_SPANS = re.compile(r"rt\b|rattle|valgrind|rustfmt")
FOREIGN = set("--no-relax --only --test --incremental arg fffffcb0 lgcc Ttext slk2".split())
# The program's commands, which a text on any crate may name.
COMMANDS = {"run", "gen", "list", "pack", "asm"}
# Names that a text gives to what a reader has, or gives as examples.
EXAMPLES = {"Loading.antt", "Tests.antt"}


def words_in(text):
    return set(WORD.findall(text))


def is_placeholder(word):
    """As in `exit CODE at T`."""
    return word.isupper()


def paths_within(file):
    """The paths from each of a file's folders on, to it, to it without its ending, and to folders of it."""
    parts = file.split("/")
    for start in range(len(parts)):
        yield from ("/".join(parts[start:end]) for end in range(start + 1, len(parts) + 1))
        yield "/".join(parts[start:]).rsplit(".", 1)[0]


class Repository:
    """The files of a repository and the words of its sources: those of all, and those of each crate."""

    def __init__(self, top=TOP):
        self.top = pathlib.Path(top)
        listed = subprocess.run(["git", "ls-files", "-co", "--exclude-standard"], cwd=top, capture_output=True, text=True, check=True)
        self.files = [path for path in listed.stdout.splitlines() if (self.top / path).is_file()]
        self.paths = {path for file in self.files for path in paths_within(file)}
        self.words, self.options, self.crates = set(), set(), {}
        for path in self.files:
            self.words |= set(re.split(r"[/.]", path))
            if pathlib.Path(path).suffix in SOURCES:
                self.read(path)

    def read(self, path):
        text = (self.top / path).read_text(errors="replace")
        self.options |= set(OPTION.findall(text))
        words = words_in(re.sub(COMMENTS.get(pathlib.Path(path).suffix, r"(?!)"), "", text, flags=re.M))
        self.words |= words
        crate = re.match(CRATE_FOLDERS, path)
        if crate:
            self.crates.setdefault(crate[1], set()).update(words)

    def documents(self):
        return [path for path in self.files if DOCUMENTS.fullmatch(path)]

    def has_path(self, path):
        """Of a file, of a file without its ending, or of a folder; what is built stands in folders `out`."""
        wanted = path.removeprefix("./").strip("/")
        if path.startswith("/") or "out" in wanted.split("/"):
            return True
        return wanted in self.paths or "*" in wanted and any(fnmatch.fnmatch(path, wanted) for path in self.paths)

    def has_word(self, word, crates):
        """Whether a crate of these has the word, or any source where no crate is told; a crate's name may stand anywhere."""
        if crates and word not in self.crates:
            return any(word in self.crates[crate] for crate in crates)
        return word in self.words


def owner(repository, line, place):
    """The crate of which the name before this place of a line is said to be, as in `a`, `b` and `c` of `crate`."""
    found = OWNER.match(line, place)
    return {found[1]} & set(repository.crates) if found else set()


def section(repository, line, now):
    """The crates on which the README's paragraph is."""
    if re.match(r"\*\*[a-z_]+[,*]", line):
        return words_in(HEADING.match(line)[0]) & set(repository.crates)
    return now if line.startswith("- ") or not line else set()


def missing_in_span(repository, span, crates):
    """The names of a span that nothing has: a word that stands alone must be of the crates, where some are told."""
    paths = PATH.findall(span) if "://" not in span else []
    yield from (path for path in paths if path not in EXAMPLES and not repository.has_path(path))
    yield from (option for option in OPTION.findall(span) if option not in repository.options | FOREIGN)
    if re.search(r"\s", span):
        crates = set()
    for word in WORD.findall(OPTION.sub(" ", PATH.sub(" ", span))):
        if not is_placeholder(word) and word not in FOREIGN | COMMANDS and not repository.has_word(word, crates):
            yield word


def missing_in_block(repository, line):
    """The names of a line of code that nothing has: words with an underscore, and paths with a folder that aren't written."""
    yield from (path for path in PATH.findall(line.split(">")[0]) if "/" in path and not repository.has_path(path))
    yield from (word for word in WORD.findall(PATH.sub(" ", line)) if "_" in word and not repository.has_word(word, set()))


def missing_in_line(repository, line, crates):
    """The names of a line that nothing has."""
    if line.startswith("    "):
        yield from missing_in_block(repository, line)
        return
    for span in SPAN.finditer(line):
        if not span[1].isascii() or FOREIGN_SPANS.match(span[1]):
            continue
        before = words_in(line[: span.start()]) & set(repository.crates)
        own = owner(repository, line, span.end()) or (crates | before if crates else set())
        yield from missing_in_span(repository, span[1], own)


def missing(repository, text):
    """The numbers of lines, and the names on them that nothing has."""
    crates = set()
    for number, line in enumerate(text.splitlines(), 1):
        crates = section(repository, line, crates)
        yield from ((number, name) for name in missing_in_line(repository, line, crates))


def main():
    repository, wrong = Repository(), 0
    for path in repository.documents():
        for number, name in missing(repository, (repository.top / path).read_text()):
            print(f"{path}:{number}: nothing has the name {name}")
            wrong += 1
    print(f"{len(repository.documents())} documents, {wrong} wrong names")
    sys.exit(wrong > 0)


if __name__ == "__main__":
    main()
