#!/usr/bin/env python3
"""Brings the repository's own definitions and lemmas to the spelling of Rattle's library: words in snake case, a dash only between two
names. Run once at the top of the repository, after the kit's port.py, over files that have its spelling. It says on standard output each
name that it changes, and each that it leaves because the new spelling is taken.

Functions of src/, exported names, strings, inputs and outputs keep their names: only what antt declares is looked at.
"""

import os
import re
import sys

CRATES = "crates"
# what ends a name in antt
BREAK = r"\s(){}\[\],;.«»\"λ∀⌜⌝`"
TOKEN = re.compile(rf"[^{BREAK}]+")
MODIFIERS = {"abbrev", "pub", "unfoldable", "mutual", "instance", "open", "infix", "infixl", "infixr"}
KEYWORDS = {"data", "record", "ruleset", "open", "use", "mod", "where", "let", "in", "if", "then", "else", "do", "elim", "absurd", "search",
            "omega", "grind", "simp", "rw", "cc", "subst", "refl", "ground", "assumption", "unfolding", "infix", "infixl", "infixr", "syntax"}

# lemmas that stand in one file with a definition whose new spelling is theirs: they give way
CHOSEN = {"all_right": "all_pairs_right", "is_open": "open_or_closed", "is_one": "one_of_mismatch", "no_fields": "fields_none",
          "of_one": "of_lone_type", "of_types": "of_two_types", "written_out": "write_out_reads", "in_a_row": "in_a_row-append"}
# definitions whose new spelling a field has
RENAMED = {"oneLeft": "one_type_left", "toEnd": "to_the_end", "noSize": "no_size_given", "inARow": "in_a_row"}


def files(ending, below=CRATES):
    for folder, folders, names in os.walk(below):
        folders[:] = sorted(f for f in folders if f != ".git" and not (f == "out" and folder.count(os.sep) == 1))
        for name in sorted(names):
            if name.endswith(ending):
                yield os.path.join(folder, name)


def read(path):
    with open(path, encoding="utf-8") as f:
        return f.read()


def of_a_function(path):
    """A file of proofs/F/: what it declares are goals, which are named by the check."""
    parts = path.split(os.sep)
    return parts[2] == "proofs" and len(parts) > 4


def declared(path):
    """The names that a file declares: definitions, lemmas, constructors, fields."""
    for line in read(path).splitlines():
        line = line.split("--")[0] if line.lstrip().startswith("--") else line
        words = line.split()
        while words and words[0] in MODIFIERS:
            words = words[1:]
        if not words or words[0] in ("use", "mod"):
            continue
        if words[0] in ("data", "record", "ruleset"):
            if len(words) > 1:
                yield words[1]
            continue
        before = []
        for w in words:
            if w == ":":
                yield from before
                break
            if w.startswith(("{", "(")):
                # implicit arguments of a definition stand before its colon
                if ":" in line and re.match(r"\s*((abbrev|pub|unfoldable)\s+)*\S+\s*(\{[^}]*\}\s*)+:", line):
                    yield from before[:1]
                break
            if not TOKEN.fullmatch(w) or w in ("=", "→", "←", "|", "↦"):
                break
            before.append(w)


def snake(part):
    """A word that begins in lower case, with an underscore for each capital."""
    if not part or not part[0].islower():
        return part
    return re.sub(r"(?<=[A-Za-z0-9'?])([A-Z])", lambda m: "_" + m.group(1).lower(), part)


def is_word(name):
    return re.fullmatch(r"[A-Za-z][A-Za-z0-9_'?]*", name) is not None


def respelled(name, words):
    """The new spelling: each part in snake case; a dash stays where the parts on both sides of it are names."""
    parts = [snake(p) for p in name.split("-")]
    # the longest runs of parts that are a name
    runs = []
    i = 0
    while i < len(parts):
        for j in range(len(parts), i, -1):
            run = "_".join(parts[i:j])
            if run in words or j == i + 1:
                runs.append(run)
                i = j
                break
    out = runs[0]
    for before, after in zip(runs, runs[1:]):
        out += ("-" if before in words and after in words else "_") + after
    return out


def main():
    antt = list(files(".antt"))
    own, seen, lent = {}, set(), set()
    for path in antt:
        text = re.sub(r"(?m)^\s*--.*$", "", read(path))
        # a name that stands alone; behind a point it is a step of a proof, a field or a module
        seen.update(re.findall(rf"(?<![^{BREAK}])(?<!\.)[^{BREAK}]+", text))
        for names_of in re.findall(r"(?m)^(?:pub )?use (?:Rattle\.std|(?!Rattle\.))\S*\.\{(.*)\}", text):
            lent.update(TOKEN.findall(names_of))
        if of_a_function(path):
            continue
        for name in declared(path):
            if re.match(r"[A-Za-z]", name) and re.fullmatch(r"[\w'?\-₀-₉]+", name):
                own.setdefault(name, path)
    for path in files(".rt"):
        for line in re.findall(r"(?m)^ghost use .*$", read(path)):
            seen.update(TOKEN.findall(line))
    # what a definition gives a name to, beside lemmas: the words between which a dash stands
    words = {snake(n) for n in own if "-" not in n} | {n for n in lent if is_word(n)}
    names, taken = CHOSEN | RENAMED, {}
    together = [set(re.findall(rf"(?<![^{BREAK}])(?<!\.)[^{BREAK}]+", re.sub(r"(?m)^\s*--.*$", "", read(path)))) for path in antt]

    def apart(a, b):
        """No file has both names, so that one may get the other's."""
        return not any(a in t and b in t for t in together)

    for name in sorted(own, key=lambda n: ("-" in n, n)):
        new = respelled(name, words)
        if new == name and name not in CHOSEN:
            taken[name] = name
    for name in sorted(own, key=lambda n: ("-" in n, n)):
        if name in taken or name in CHOSEN or name in RENAMED:
            continue
        new = respelled(name, words)
        if new in CHOSEN:
            pass
        elif "-" not in name and (new in taken or new in seen) and new not in KEYWORDS and apart(name, new):
            print(f"{name}\t{new}\t(as another, in other files)")
        elif new in taken or new in seen or new in KEYWORDS:
            plain = "-".join(snake(p) for p in name.split("-"))
            why = "declared" if new in taken else "used" if new in seen else "a keyword"
            if plain != name and plain not in taken and plain not in seen and plain not in KEYWORDS:
                print(f"{name}\t{plain}\t({new} is {why})")
                new = plain
            else:
                print(f"{name}\tleft\t({new} is {why})")
                continue
        taken[new] = name
        names[name] = new
    # a name that only an import or a pattern gives
    for name in sorted(seen):
        if name not in names and re.fullmatch(r"[a-z][a-z0-9]*([A-Z][a-z0-9]*)+", name) and snake(name) not in seen and snake(name) not in taken:
            names[name] = snake(name)
    fields = set()
    for path in antt:
        inside = False
        for line in read(path).splitlines():
            if re.match(r"\s*(pub )?record ", line):
                inside = True
            elif line and not line[0].isspace():
                inside = False
            elif inside and (m := re.match(r"\s+(?:pub )?([^\s:]+) :", line)):
                fields.add(m.group(1))

    def turn(text, path, in_clauses=False):
        aliases = set(re.findall(r"(?m)^(?:ghost )?use \S+ as (\S+?);?$", text))

        def one(m):
            name = m.group(0)
            if name not in names:
                return name
            before = text[:m.start()]
            if before.endswith(".") and not before.endswith(".."):
                head = re.search(rf"([^{BREAK}]+)\.$", before)
                head = head.group(1) if head else ""
                chain = re.search(rf"[^{BREAK}]+(\.[^{BREAK}]+)*\.$", before)
                is_path = chain is not None and chain.group(0).startswith("Rattle.")
                # a step of a proof, or a module: the check and the tree name these
                if not (head in aliases or name in fields or is_path and not is_module(chain.group(0) + name)):
                    return name
            return names[name]

        return TOKEN.sub(one, text)

    def is_module(path):
        parts = path.split(".")[1:]
        if len(parts) < 3:
            return True
        base = os.path.join(CRATES, *parts)
        return os.path.exists(base + ".antt") or os.path.isdir(base) or parts[-1] in ("Tie", "Statement", "Goals", "Given")

    for path in antt:
        old = read(path)
        new = turn(old, path)
        if new != old:
            with open(path, "w", encoding="utf-8") as f:
                f.write(new)
    # in a source and in an edit: names in clauses, ghost lines and comments; a name there that antt declares has a capital or a dash
    for path in list(files(".rt")) + list(files(".edit")):
        old = read(path)

        def line_of(m):
            line = m.group(0)
            if '"' in line and not re.match(r"\s*(ghost|requires|ensures|//)", line):
                return line
            return turn_line(line)

        def turn_line(line):
            def one(m):
                return names.get(m.group(0), m.group(0)) if re.search(r"[a-z][A-Z]|-", m.group(0)) else m.group(0)
            return TOKEN.sub(one, line)

        new = re.sub(r"(?m)^.*$", line_of, old)
        if new != old:
            with open(path, "w", encoding="utf-8") as f:
                f.write(new)
    for name, new in sorted(names.items()):
        print(f"{name}\t{new}")
    print(f"respell: {len(names)} names of {len(own)}", file=sys.stderr)


if __name__ == "__main__":
    main()
