#!/usr/bin/env python3
"""Respells the repository's own definitions and lemmas as today's Rattle does: functions, lemmas, constructors and fields in snake case.

usage: tools/respell_names.py [--list] [ROOT]

Run once, after port.py and on its result, in the repository or in ROOT, a checkout of it. It rewrites the .antt files, the clauses of the .rt
files and the must-fail edits of every crate, and the names that README.md and docs/ quote. Types, facts and modules keep their capitals, and
functions of src/ their names. A name that a file takes from a library that is not the repository's stays in that file.
--list writes nothing and prints each old name with its new one. A line that begins 'look:' names two names that would fall together.
"""

import os
import re
import sys

NAME = r"[^\s(){}\[\].;,:@\"«»=|`\\]+"
TOKEN = re.compile(r"--[^\n]*|" + NAME)
USE = re.compile(r"^(\s*(?:pub |ghost )*use )([^\s{;]+?)(?:\.\{([^}]*)\}|\s+as\s+(\S+?))?(;?)\s*$", re.M)
# What the library calls what these were called after.
OF_STD = {"getD": "get_or"}
# Lemmas whose new name a file has for something of the library's, and modules whose short name a definition now has.
OWN_NAMES = {"bit-and": "bit_and_lem", "bit-or": "bit_or_lem", "bit-xor": "bit_xor_lem"}
OWN_MODULES = {"record_of": "frame_record"}
# A word of clauses, in the files that bring or declare it.
WORD_OF_CLAUSES = {"result": "result_of"}


def snake(word):
    for old, new in OF_STD.items():
        word = re.sub(rf"(?<![A-Za-z]){old}(?![a-z])", new, word)
    word = re.sub(r"(?<=[a-z0-9₀-₉])([A-Z])", lambda it: "_" + it[0].lower(), word)
    return re.sub(r"-+", "_", word)


def respelled(name):
    """The new name: a type or a fact keeps its first part, and what a dash joins to it keeps the dash."""
    if name[0].isupper():
        head, dash, rest = name.partition("-")
        return head + dash + snake(rest) if rest and not rest[0].isupper() else name
    if not re.match(r"[a-z]", name) or re.search(r"[◌_]?[+*/<>≡≤∷&|]", name):
        return name
    return snake(name)


def files(top, ends):
    for folder, below, names in os.walk(top):
        below[:] = sorted(it for it in below if it not in ("out", ".git", "target"))
        yield from (os.path.join(folder, it) for it in sorted(names) if it.endswith(ends))


def read(path):
    with open(path, encoding="utf-8") as it:
        return it.read()


def generated(signature):
    """Whether a declaration answers a goal that Rattle names."""
    return bool(re.search(r"\b(tie|goal|stated)\.", signature)) or "statement M" in signature


def declared(text):
    """Yields the names that a file declares, each with its part: top, or member of a record, of a data type or of a where."""
    lines, record = text.split("\n"), False
    for i, line in enumerate(lines):
        if line[:1].strip():
            record = bool(re.match(r"(pub )?record ", line))
        found = re.match(rf"^( *)((?:abbrev |unfoldable |pub )*)(record |data )?({NAME}(?: {NAME})*)( :|$| \(| \{{)(.*)$", line)
        if not found or re.match(r"\s*(--|pub use |use |unfolding|mod |pub mod |infix|where\b|let\b|in\b|ruleset)", line):
            continue
        indent, _, kind, names, after, rest = found.groups()
        if kind:
            yield names.split()[0], "top", ""
        elif after == " :":
            signature, j = rest, i + 1
            while j < len(lines) and lines[j].startswith(indent + "  "):
                signature += " " + lines[j].strip()
                j += 1
            for name in names.split():
                yield name, "field" if indent and record else "top", signature


def used(text):
    """The names that a file brings by its use lines, each with its module, and the modules that it names by another name."""
    names, modules = {}, {}
    for line in USE.finditer(text):
        path, group, alias = line[2], line[3], line[4]
        if group is not None:
            for it in group.split(","):
                it = it.strip()
                if it:
                    names[it.split(" as ")[-1].strip()] = path
                    names[it.split(" as ")[0].strip()] = path
        else:
            modules[alias or path.split(".")[-1]] = path
    return names, modules


class Repository:
    def __init__(self, root):
        self.root = root
        self.crates = sorted(it for it in os.listdir(f"{root}/crates") if os.path.isdir(f"{root}/crates/{it}/src"))
        self.top, self.members = {}, {}
        defined, self.declared = set(), set()
        for crate in self.crates:
            for part in ("specs", "proofs"):
                for path in files(f"{root}/crates/{crate}/{part}", ".antt"):
                    for name, where, signature in declared(read(path)):
                        self.declared.add(name)
                        if not generated(signature):
                            (self.members if where == "field" else self.top)[name] = respelled(name)
                            if part == "specs" and where == "top" or re.search("[a-z][A-Z]", name):
                                defined.add(name)
        # A lemma that would have a definition's name gets `_lem`, and a field that would `_holds`.
        kept = {}
        for old in sorted(self.top, key=lambda it: (it not in defined, "-" in it, self.top[it] != it, it)):
            new = OWN_NAMES.get(old, self.top[old])
            if kept.setdefault(new, old) != old:
                new += "_lem"
            self.top[old] = new
        for old, new in self.members.items():
            if new in kept and old != new:
                self.members[old] = new + "_holds"
        for of in (self.top, self.members):
            for old in [it for it in of if of[it] == it]:
                del of[old]

    def own(self, path):
        """Whether a module is the repository's: one that Rattle makes of a function is not."""
        found = re.match(r"Rattle\.(\w+)\.", path)
        return bool(found) and found[1] in self.crates and not re.search(r"\.(Tie|Goals|Given|Lts|Code|Met|Statement|Reads|Symbol|Key|Mir)\b", path)

    def turned(self, text, which=None):
        names, modules = used(text)
        local = {it for it, _, signature in declared(text) if generated(signature)}
        here = {it for it, where, _ in declared(text) if where == "top"}
        answers = re.search(r"proofs\.\S+\.(Tie|Goals)\b", text)
        aliases = {it: OWN_MODULES.get(it, snake(it)) for it in modules if re.match("[a-z]", it) and re.search(rf" as {re.escape(it)}\\s*;?$", text, re.M)}

        def one(found):
            word = found[0]
            if word.startswith("--"):
                # A comment: what it quotes, and words that only a name can be.
                return re.sub(rf"(?<![\w-])({NAME})", lambda it: self.top.get(it[1], it[1]) if re.search("[a-z][A-Z]", it[1]) else it[1], word)
            if word in aliases and (text[found.end() : found.end() + 1] == "." or re.search(r" as $", text[max(0, found.start() - 4) : found.start()])):
                return aliases[word]
            if word in WORD_OF_CLAUSES and (word in here or self.own(names.get(word, ""))):
                return word if text[found.start() - 1 : found.start()] == "." else WORD_OF_CLAUSES[word]
            new = self.top.get(word) or self.members.get(word)
            if not new:
                return word
            before = text[max(0, found.start() - 120) : found.start()]
            behind = re.search(rf"({NAME})?\.$", before)
            if behind and not before.endswith(".."):
                of = behind[1] or ""
                if of in modules:
                    return new if self.own(modules[of]) else word
                if word in self.members or re.search("[a-z][A-Z]", word):
                    # A step or a goal that Rattle names keeps its dashes here: converting the proof turns it.
                    return word if answers and "-" in word and word not in self.members else new
                return word
            if word in local:
                return word
            if word in names and not self.own(names[word]):
                return word
            return new

        return TOKEN.sub(one, text)

    def turned_source(self, text):
        """A .rt file: its ghost use lines and its clauses."""
        brought = "\n".join(it.replace("ghost use", "use") for it in re.findall(r"(?m)^[ \t]*ghost use [^;]*", text))
        text = re.sub(r"(?m)^([ \t]*)(ghost use [^;]*);", lambda it: it[1] + self.turned(it[2]) + ";", text)
        out, at = [], 0
        for clause in re.finditer(r"(?m)^\s*(?:requires|ensures|ghost|pub ghost)\*?(?: \w+)?:? ?\{", text):
            if clause.start() < at:
                continue
            depth, end = 1, clause.end()
            while depth:
                depth += {"{": 1, "}": -1}.get(text[end], 0)
                end += 1
            body = text[clause.end() : end]
            heads = brought
            head, lambda_of = text[at : clause.end()], re.fullmatch(r"\s*λ (\w+)\. ⌜ (.*) ⌝ \}", body, re.S)
            if not lambda_of:
                heads = re.sub(r"(?<=[{ ])result, |, result(?=})", "", heads)
            turned = self.turned(heads + "\n=====\n" + body).split("\n=====\n", 1)[1]
            if lambda_of:
                # What port.py leaves where a definition is called as the word of clauses for what is returned.
                it = re.fullmatch(r"\s*λ (\w+)\. ⌜ (.*) ⌝ \}", turned, re.S)
                turned = " " + re.sub(rf"(?<![\w.]){it[1]}(?!\w)", "result", it[2]) + " }"
                head = re.sub(r"ensures\*( \w+)? \{$", r"ensures\1 {", head)
            out += [head, turned]
            at = end
        return "".join(out) + text[at:]

    def quoted(self, text):
        """A page: the names between backquotes."""
        known = {*self.declared, *self.top.values(), *self.members.values()}

        def one(word):
            new = self.top.get(word) or self.members.get(word) or (respelled(word) if respelled(word) in known else word)
            return new if re.search("[a-z][A-Z]|[a-z]-[a-z0-9]", word) else word

        return re.sub(r"`([^`\n]+)`", lambda it: "`" + re.sub(NAME, lambda w: one(w[0]), it[1]) + "`", text)

    def edits(self, text):
        return re.sub(r"(?m)^(old|new): (.*)$", lambda it: f"{it[1]}: " + re.sub(NAME, lambda w: self.top.get(w[0]) or self.members.get(w[0]) or w[0], it[2]), text)

    def look(self):
        for crate in self.crates:
            for path in files(f"{self.root}/crates/{crate}", ".antt"):
                text = read(path)
                # Neither comments nor the modules that use lines name.
                words = set(re.findall(NAME, re.sub(r"(?m)--[^\n]*|^\s*(?:pub )?use [^\s{]*", "", text)))
                after = {}
                for word in words:
                    new = self.top.get(word) or self.members.get(word)
                    if new and new in words and not (new in self.top and self.top[new] != new):
                        print(f"look: {path}: {word} and {new}")
                    if new:
                        after.setdefault(new, set()).add(word)
                for new, olds in after.items():
                    if len(olds) > 1:
                        print(f"look: {path}: {' and '.join(sorted(olds))} become {new}")
        fields = set()
        for crate in self.crates:
            for path in files(f"{self.root}/crates/{crate}/src", ".rt"):
                fields |= set(re.findall(r"(\w+): ", read(path)))
        for old, new in sorted({**self.members, **self.top}.items()):
            if new in fields:
                print(f"look: {old} becomes {new}, which src/ has as a field or a parameter")


def main(argv):
    listed = "--list" in argv
    rest = [it for it in argv if it != "--list"]
    root = rest[0] if rest else os.path.dirname(os.path.dirname(os.path.abspath(__file__)))
    it = Repository(root)
    if listed:
        for old, new in sorted({**it.members, **it.top}.items()):
            print(old, new)
        it.look()
        return 0
    paths = 0
    for crate in it.crates:
        here = f"{root}/crates/{crate}"
        for path in [*files(here, (".antt", ".rt", ".edit"))]:
            text = read(path)
            new = it.turned(text) if path.endswith(".antt") else it.turned_source(text) if path.endswith(".rt") else it.edits(text)
            if new != text:
                paths += 1
                with open(path, "w", encoding="utf-8") as to:
                    to.write(new)
    pages = [f"{root}/README.md", *(f"{root}/docs/{p}" for p in sorted(os.listdir(f"{root}/docs")) if p.endswith(".md")), *files(f"{root}/crates", ".md")]
    for path in pages:
        text = read(path)
        new = it.quoted(text)
        if new != text:
            paths += 1
            with open(path, "w", encoding="utf-8") as to:
                to.write(new)
    print(f"{paths} files rewritten")
    return 0


if __name__ == "__main__":
    raise SystemExit(main(sys.argv[1:]))
