"""Edits of a copy of this checkout, and what the check says of the copy then. wrong-bodies and wrong-definitions use it."""

import os
import re
import shutil
import subprocess

TOP = os.path.dirname(os.path.dirname(os.path.abspath(__file__)))

# the seconds that a check may take: one that hangs is given up
LIMIT = 3600


def libraries():
    """Of each crate the libraries that it uses, by crates.txt, whose order is from the lowest crate up."""
    used = {}
    for line in open(f"{TOP}/crates.txt", encoding="utf-8"):
        head, colon, tail = line.split("#")[0].partition(":")
        if colon:
            used[head.split()[0]] = tail.split()
    return used


def edits_in(folder):
    """The edits of a folder, in the order of their names; none where it isn't there."""
    names = sorted(os.listdir(folder)) if os.path.isdir(folder) else []
    return [Edit(f"{folder}/{name}") for name in names if name.endswith(".edit")]


class Edit:
    """What the lines `file:`, `old:` and `new:` of an edit change, and the law that a line `law:` names."""

    def __init__(self, path):
        self.name = os.path.basename(path).removesuffix(".edit")
        self.law, self.changes = None, []
        for line in open(path, encoding="utf-8").read().split("\n"):
            word, _, text = line.partition(":")
            text = text.removeprefix(" ")
            if word == "file":
                file = text
            elif word == "law":
                self.law = text
            elif word == "old":
                old = text
            elif word == "new":
                self.changes.append((file, old, text))

    def texts(self, folder):
        """The texts of the changed files of a folder, or None where an old text doesn't stand in its file just once."""
        texts = {}
        for file, old, new in self.changes:
            text = texts.get(file) or open(f"{folder}/{file}", encoding="utf-8").read()
            if text.count(old) != 1:
                return None
            texts[file] = text.replace(old, new)
        return texts


class Copy:
    """A crate and those beneath it, copied into a folder. What was checked is kept, so that later checks are short."""

    def __init__(self, crate, room, kept):
        self.top = f"{room}/{crate}"
        self.folder = f"{self.top}/crates/{crate}"
        used = libraries()
        needed = {crate}
        for name in reversed(used):
            needed |= set(used[name]) if name in needed else set()
        for name in needed & set(used):
            source = f"{TOP}/crates/{name}"
            shutil.copytree(source, f"{self.top}/crates/{name}", ignore=shutil.ignore_patterns("out"))
        kit = os.path.dirname(subprocess.run(["rt", "doc"], cwd=TOP, capture_output=True, text=True).stdout.split()[0])
        self.words = [f"{kit}/bin/rattle", "check", "--crate-name", crate, "src/lib.rt", "--incremental", kept]
        os.makedirs(kept, exist_ok=True)
        self.words += ["--antt-project", f"{kit}/rattle/logic/antt-project.json", "--logic-built", f"{kit}/logic_built"]
        self.words += ["-L", f"dependency={kit}/rlibs"]
        for name in ["std", *sorted(needed - set(used))]:
            self.words += ["--extern", f"{name}={kit}/rlibs/{name}.rlib"]
        for name in used:
            if name in needed - {crate}:
                self.words += ["--lib", f"{name}:{','.join(['std', *used[name]])}=../{name}/src/lib.rt"]

    def check(self, only):
        """The status and the lines of a check of these functions or modules."""
        words = self.words + [word for path in only for word in ("--only", path)]
        said = {"stdout": subprocess.PIPE, "stderr": subprocess.STDOUT, "text": True, "errors": "replace"}
        try:
            ran = subprocess.run(words, cwd=self.folder, timeout=LIMIT, **said)
        except subprocess.TimeoutExpired:
            return 3, [f"the check took more than {LIMIT} seconds"]
        return ran.returncode, ran.stdout.rstrip("\n").split("\n")

    def tried(self, edit, folder, only):
        """What a check says with an edit of files of a folder of the copy: a word, and the first reason."""
        texts = edit.texts(folder)
        if not texts:
            return "bad", "an old text doesn't stand in its file just once"
        before = {file: open(f"{folder}/{file}", encoding="utf-8").read() for file in texts}
        write(folder, texts)
        status, lines = self.check(only)
        write(folder, before)
        return verdict(status, lines)

    def is_proved(self, only):
        """Whether these are proved without an edit, and what is told first where they aren't."""
        status, lines = self.check(only)
        return status == 0, verdict(status, lines)[1]


def write(folder, texts):
    for file, text in texts.items():
        with open(f"{folder}/{file}", "w", encoding="utf-8") as it:
            it.write(text)


def verdict(status, lines):
    """`PROVED`, `refused` where the prover came to its end and didn't prove all, and else `bad`, each with the first reason."""
    if status == 0:
        return "PROVED", lines[-1]
    errors = [line for line in lines if re.match(r"\S+:\d+:\d+: error", line)]
    unproved = [line.removeprefix("fn ") for line in lines if re.match(r"fn \S+: (no proof|not proved)", line)]
    reason = re.sub(r"expected answers in \S+; ", "", (errors + unproved + lines)[0])
    if status == 1 and lines[-1].startswith("only=") and not any(unread(line) for line in errors):
        return "refused", reason
    return "bad", reason


def unread(line):
    """Whether a text of src/ or specs/ could not be read, so that no statement was tried."""
    at = re.match(r"(?:\S*/)?(?:src|specs)/\S+: error: (?:`[^`]*`: )?(.*)", line)
    return bool(at) and bool(re.search(r"is not in scope|has no field|is no name|operand is missing|expected the end", at[1]))
