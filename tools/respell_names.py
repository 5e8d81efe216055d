#!/usr/bin/env python3
"""Spells this repository's own names of specs/ and proofs/ as today's Rattle does: snake case, with no dash and no inner capital.

usage: tools/respell_names.py [--report]

Run once, right behind the kit's port.py. Functions, fields and constants of src/, types, modules and facts (upper camel case) keep their names. What a file
imports from a library keeps its name there. Where two names would fall together in some file, the later of the table below gets `_lem` behind it.
The texts of must-fail edits follow the files that they edit. --report writes nothing and says what would fall together.
"""

import collections
import glob
import os
import re
import sys

WORD = re.compile(r'[^\s(){}.;,@"«»\[\]]+')
LINE_COMMENT = re.compile(r"(?<![^\s(){}.;,@\"«»])--[^\n]*")
DECLARED = re.compile(r"^ *(?:(?:abbrev|pub|opaque|unfoldable|private) )*([^\s(){}.;,@\"«»:]+)(?: \{[^:{}\n]*\}| [({][^:\n]*:[^\n]*?[)}]| [^\s(){}.;,@\"«»:=]+)* :(?= |$)")
BOUND = re.compile(r"[({]([^(){}:\n]+) :(?= )|(?:λ|let) ([^.=\n]+?)(?:\.| [:=])")
USE = re.compile(r"(?m)^[ \t]*(?:pub )?use ([^\s;{]+?)(?:\.\{([^}]*)\})?(?: as (\S+))?[ \t]*$")
GHOST_USE = re.compile(r"ghost use ([^\s;{]+?)(?:\.\{([^}]*)\})?(?: as (\w+))?;")
CLAUSE = re.compile(r"\b(?:requires|ensures|decreases|invariant)\b(?:\s+\w+)?\s*\{|ghost\s+\w+\s*:\s*\{")


def spelled(name):
    """The spelling of today."""
    name = name.replace("′", "'")
    if not re.match(r"_*[a-z0-9]", name) or not re.search(r"[a-z]", name):
        return name
    name = re.sub(r"(?<=[a-z0-9₀-₉'])[A-Z]", lambda m: "_" + m[0].lower(), name)
    return re.sub(r"(?<=[^\W_])-(?=[^\W_])", "_", name)


def files(root, ends):
    for folder, dirs, names in os.walk(os.path.join(root, "crates")):
        dirs[:] = sorted(d for d in dirs if d not in ("out", "target", "data"))
        for n in sorted(names):
            if n.endswith(ends):
                yield os.path.join(folder, n)


def read(path):
    with open(path, encoding="utf-8", newline="") as f:
        return f.read()


def without_comments(text):
    return LINE_COMMENT.sub("", text)


def own_crates(root):
    return set(os.listdir(os.path.join(root, "crates")))


def is_own(path, crates):
    parts = path.split(".")
    return parts[0] == "Rattle" and len(parts) > 1 and parts[1] in crates


def imported(text, crates, use=USE):
    """The names that a file imports from libraries, and those from this repository."""
    library, own = set(), set()
    for path, items, alias in use.findall(text):
        names = set()
        for item in (items or "").split(","):
            item = item.strip()
            if item:
                names |= set(item.split(" as "))
        (own if is_own(path, crates) else library).update(names)
    return library, own


class Repository:
    def __init__(self, root):
        self.root, self.crates = root, own_crates(root)
        self.texts = {p: read(p) for p in files(root, (".antt", ".rt"))}
        self.names = set()
        for path, text in self.texts.items():
            if path.endswith(".antt"):
                self.collect(without_comments(text))
        self.source = self.of_source()
        self.names = {n for n in self.names if spelled(n) != n and n not in self.source}
        self.table = {n: spelled(n) for n in self.names} | APART
        self.names |= set(APART)

    def collect(self, text):
        for line in text.split("\n"):
            if re.match(r"\s*(?:pub )?use ", line):
                self.names.update(re.findall(r" as ([^\s,{}]+)", line))
                continue
            m = DECLARED.match(line)
            if m:
                self.names.update(WORD.findall(re.sub(r"[({][^:]*:.*", "", line.split(" : ")[0] if " : " in line else line.rstrip(" :"))))
        for m in BOUND.finditer(text):
            self.names.update(WORD.findall((m[1] or m[2] or "")))
        # what an equation's left side binds
        for m in re.finditer(r"(?m)^ *\S+ ([^=\n:]*?) =(?: |$)", text):
            self.names.update(WORD.findall(m[1]))

    def of_source(self):
        """Names of Rust items, which keep their spelling."""
        found = set()
        for path, text in self.texts.items():
            if path.endswith(".rt"):
                found |= set(re.findall(r"\b(?:fn|const|static|struct|enum|mod|let|mut)\s+(\w+)", text))
                found |= set(re.findall(r"\b(\w+)\s*:", text))
        return found

    def tokens(self, path):
        """The words of a file that may be own names: of .antt the code, of .rt its clauses and ghost items."""
        text = self.texts[path]
        if path.endswith(".antt"):
            return bare(USE.sub(lambda m: m[2] or "", without_comments(text)))
        return bare(" ".join(GHOST_USE.sub(lambda m: m[2] or "", text[a:b]) for a, b in clauses(text)))

    def clashes(self):
        by_new = collections.defaultdict(set)
        for old, new in self.table.items():
            by_new[new].add(old)
        together = collections.defaultdict(lambda: collections.defaultdict(list))
        for path in self.texts:
            words = self.tokens(path)
            library, _ = imported(self.texts[path], self.crates, USE if path.endswith(".antt") else GHOST_USE)
            for old in words & self.names - library:
                new = self.table[old]
                others = ({new} | by_new[new]) & words - {old}
                for other in others:
                    together[new][tuple(sorted((old, other)))].append(os.path.relpath(path, self.root))
        return together

    def settle(self):
        """Gives `_lem` to the dashed one of two names that would meet in a file."""
        for new, pairs in self.clashes().items():
            for pair in pairs:
                for n in [n for n in pair if "-" in n][:1]:
                    self.table[n] = new + "_lem"

    def turned(self, path, text):
        library, _ = imported(text, self.crates, USE if path.endswith(".antt") else GHOST_USE)
        if path.endswith(".antt"):
            return self.turned_antt(text, library, os.path.basename(path) == "Proof.antt")
        out, last = [], 0
        for a, b in clauses(text):
            out += [text[last:a], self.words(text[a:b], library, False)]
            last = b
        return "".join(out) + text[last:]

    def turned_antt(self, text, library, by_hand):
        out, last = [], 0
        for m in LINE_COMMENT.finditer(text):
            out += [self.words(text[last : m.start()], library, by_hand), self.comment(m[0])]
            last = m.end()
        return "".join(out) + self.words(text[last:], library, by_hand)

    def comment(self, text):
        """In a comment a name with an inner capital is no English word; one with a dash may be, and turns only between backticks."""
        text = re.sub(r"`[^`\n]*`", lambda m: WORD.sub(lambda w: self.table.get(w[0], w[0]), m[0]), text)
        return re.sub(r"(?<![\w`-])[a-z]\w*[A-Z]\w*", lambda w: self.table.get(w[0], w[0]), text)

    def words(self, text, library, by_hand):
        def one(m):
            w = m[0]
            if w not in self.table or w in library:
                return w
            behind = text[: m.start()]
            if by_hand and re.search(r"(?:^|[\s(,;{])tie\.$", behind[-8:]):
                return w
            return self.table[w]

        return WORD.sub(one, text)


def bare(text):
    """The words that stand behind no dot, which may be any name in scope."""
    return {m[0] for m in WORD.finditer(text) if text[m.start() - 1 : m.start()] != "."}


def clauses(text):
    """Where a Rust text has antt: clauses, ghost items and imports of ghosts."""
    spans = [m.span() for m in GHOST_USE.finditer(text)]
    for m in CLAUSE.finditer(text):
        depth, i = 1, m.end()
        while depth and i < len(text):
            depth += {"{": 1, "}": -1}.get(text[i], 0)
            i += 1
        spans.append((m.end() - 1, i))
    return sorted(spans)


def tight(text):
    """A projection as it is written today: `(p .x)` and `p .x` become `p.x`."""
    for _ in range(4):
        text = re.sub(r"\((\w[\w'.«»]*(?: \.[\w«»]+)+)\)", lambda m: re.sub(r" \.", ".", m[1]), text)
        text = re.sub(r"(?<=[\w)»]) \.(?=[a-z«])", ".", text)
    return text


# Names that the rule would let fall together, and what they are called.
APART = {"dataLen": "data_len_at", "intervalLen": "interval_len_at", "at-root": "at_the_root", "of_end": "of_end_lem", "head_ok": "head_ok_lem"}
LIBRARY = [("getD", "get_or"), ("_≡_", "◌≡◌")] + [(f"_{o}_", f"◌{o}◌") for o in ("+", "-", "*", "/", "<", "≤", "&&", "∷", "^")]


def edited(text, repository):
    """A line of a must-fail edit in the spelling of today."""
    text = re.sub(r"ensures \{ λ r\. ⌜ (.*) ⌝ \}", lambda m: "ensures { " + re.sub(r"(?<![\w.])r(?![\w])", "result", m[1]) + " }", text)
    text = re.sub(r"now \((\w+) \.entry\)", r"\1.entry", text)
    text = re.sub(r"now \((\w+) \.exit\)", r"\1.exit", text)
    text = text.replace("Rattle·", "Rattle.").replace("Bool·beq", "bool_eq")
    for old, new in LIBRARY:
        text = re.sub(rf"(?<![\w]){re.escape(old)}(?![\w])", new, text)
    text = text.replace("(columns .columns)", "columns.columns").replace("(after .words)", "after.words")
    text = re.sub(r"\((\w+\.(?:entry|exit))\)", r"\1", text)
    text = tight(WORD.sub(lambda m: repository.table.get(m[0], spelled(m[0])), text)).replace("«", "").replace("»", "")
    text = re.sub(r"(?<=\w)\.exit\b", ".new", text)
    return re.sub(r"(?<=\w)\.entry\b", ".old" if ".new" in text else ".now", text).replace("Joins pool.old", "Joins pool.now").replace("Permutes pool.old", "Permutes pool.now").replace("JoinsAfter pool.old", "JoinsAfter pool.now")


IMPORT = re.compile(r"use (?:lib\.ListN|lib\.Dec|Prim\.Native\.Nat|mathlib\.Core\.\w+)\.\{(.*)\}$")
PRELUDE = "use Rattle.std.specs.Prelude.{"


def more_imported(old, new, text, repository):
    """What an edit that imports more from a library, whose names stand in one import today, adds to it: a pair of lines, or None if they are there."""
    items = lambda line: [it.strip() for it in IMPORT.match(line)[1].split(",")]
    more = [edited(it, repository) for it in items(new) if it not in items(old)]
    there = re.search(re.escape(PRELUDE) + r"([^}]*)\}", text)
    more = [it for it in more if it not in re.split(r",\s*", there[1])]
    return (PRELUDE, PRELUDE + ", ".join(more) + ", ") if more else None


GONE = "\0"


def turn_edits(repository):
    """Brings the lines of must-fail edits over that no longer stand in their file."""
    for path in files(repository.root, ".edit"):
        crate = os.path.dirname(os.path.dirname(path))
        lines, texts, file = read(path).split("\n"), {}, None
        for i, line in enumerate(lines):
            if line.startswith("file: "):
                file = os.path.join(crate, line[6:])
                texts.setdefault(file, read(file))
            elif line.startswith("old: ") and i + 1 < len(lines):
                old, new = line[5:], lines[i + 1][5:]
                if texts[file].count(old) != 1:
                    if IMPORT.match(old):
                        pair = more_imported(old, new, texts[file], repository)
                    else:
                        pair = edited(old, repository), edited(new, repository)
                    lines[i : i + 2] = ["old: " + pair[0], "new: " + pair[1]] if pair else [GONE, GONE]
                    old, new = pair or (PRELUDE, PRELUDE)
                if texts[file].count(old) != 1:
                    print("left: " + os.path.relpath(path, repository.root) + ": " + old)
                texts[file] = texts[file].replace(old, new, 1)
        with open(path, "w", encoding="utf-8", newline="") as f:
            f.write("\n".join(it for it in lines if it != GONE))


def main(argv):
    root = os.path.dirname(os.path.dirname(os.path.realpath(__file__)))
    if os.environ.get("RESPELL_ROOT"):
        root = os.environ["RESPELL_ROOT"]
    repository = Repository(root)
    if argv == ["--report"]:
        for new, pairs in sorted(repository.clashes().items()):
            for pair, where in pairs.items():
                print(new, pair, sorted(set(where))[:6])
        print(len(repository.table))
        return 0
    repository.settle()
    for path, text in repository.texts.items():
        new = repository.turned(path, text)
        if new != text:
            with open(path, "w", encoding="utf-8", newline="") as f:
                f.write(new)
    turn_edits(repository)
    return 0


if __name__ == "__main__":
    raise SystemExit(main(sys.argv[1:]))
