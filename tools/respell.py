#!/usr/bin/env python3
"""Brings this repository's own definitions and lemmas to the spelling of today's Rattle: words in snake case, types and modules in camel
case, and a dash only between two names that are both words of a definition.

usage: tools/respell.py [--map]     at the top of the repository, once, after the kit's port.py; --map only prints old and new names

It renames what specs/ and proofs/ of a crate define (lemmas of a function's own proof folder keep the names that its goals give them),
wherever a file of crates/ names it: definitions, proofs, clauses and the texts of must-fail edits. Functions of src/, strings, inputs and
outputs keep their names. A lemma whose new name is a definition's gets the ending _lem.
"""
import collections
import os
import re
import sys

TOKEN = re.compile(r"[^\s(){}.;,@\"«»\[\]\\`]+")
DEFINED = re.compile(r"(\s*)((?:abbrev |unfoldable |pub )*)(?:record |data )?([^\s:(){}|]+)\s*(?:[({].*)?:\s")
# Words of std that lemmas of this repository are named for.
STD = set("length get_or take drop append map set replicate sum true false zero suc reverse".split())


def files(root, ends):
    for folder, dirs, names in os.walk(os.path.join(root, "crates")):
        dirs[:] = sorted(d for d in dirs if d != "out")
        for name in sorted(names):
            if name.endswith(ends):
                yield os.path.join(folder, name)


def read(path):
    with open(path, encoding="utf-8", newline="") as it:
        return it.read()


def own_folder(path):
    """Whether a proof file stands in the folder of a function."""
    return "/proofs/" in path and os.path.basename(os.path.dirname(path)) != "proofs"


def snake(word):
    """A word in snake case; a type or a module keeps its capital."""
    if not word or not word[0].islower():
        return word
    return re.sub(r"(?<=[a-zA-Z0-9])([A-Z])", lambda m: "_" + m.group(1).lower(), word.replace("getD", "get_or").replace("orElse", "or_else"))


def imported(root):
    """What files import from elsewhere: those names are not this repository's."""
    found = set()
    for path in files(root, (".antt", ".rt")):
        for module, names in re.findall(r"(?m)^\s*(?:ghost |pub )*use ([^\s{]+)\.\{([^}]*)\}", read(path)):
            first = module.split(".")
            if first[0] != "Rattle" or not os.path.isdir(os.path.join(root, "crates", first[1])) or "declared" in first:
                found |= {n.split(" as ")[0].strip() for n in names.split(",")}
    return found


def renamed(root):
    """Old name to new name, of each name that is to change."""
    named, words = [], set(STD)
    for path in files(root, ".antt"):
        top = not own_folder(path)
        for line in read(path).splitlines():
            m = DEFINED.match(line)
            if not m or (not top and not (m.group(1) == "" and re.search("[a-z][A-Z]", m.group(3)))):
                continue
            name = m.group(3)
            if re.search(r"[()=≡≤<→λ∷◌]", name):
                continue
            named.append(name)
            if "/specs/" in path and "-" not in name and re.search("abbrev|unfoldable", m.group(2)):
                words.add(snake(name))
    taken, to = collections.Counter(), {}
    seen, others = set(), imported(root)
    for name in named:
        if name in seen or name in others:
            continue
        seen.add(name)
        parts = [snake(p) for p in name.split("-")]
        new = parts[0]
        for left, right in zip(parts, parts[1:]):
            joins = left in words and right in words or left == "" or right == "" or left.isdigit() and right.isdigit()
            new += ("-" if joins else "_") + right
        to[name] = new
        taken[new] += 1
    kept = {n for n in to if to[n] == n}
    out = {}
    for name, new in to.items():
        if new == name:
            continue
        if taken[new] > 1 or new in kept:
            if "-" in name:
                new += "_lem"
            elif sum(to[n] == new and "-" not in n for n in to) > 1 and new not in kept:
                print("respell: two definitions fall together: " + name, file=sys.stderr)
        out[name] = new
    # what already has a definition's new name is a lemma, which port.py respelled
    spelled = {new for name, new in out.items() if "-" not in name}
    for name in sorted(kept & spelled):
        out[name] = name + "_lem"
    return out


def code_token(text, to, own, path, aliases):
    def one(m):
        word = m.group(0)
        if word not in to:
            return word
        before = text[: m.start()]
        if before.endswith("."):
            chain = re.search(r"([^\s(){};,@\"\[\]]+)\.$", before)
            base = chain.group(1).split(".")[0] if chain else ""
            if base == "Rattle" and to[word] == word + "_lem":
                return word
            if own and base not in aliases and base != "Rattle" and ("-" in word or to[word] == word + "_lem"):
                return word
        return to[word]

    return TOKEN.sub(one, text)


def comment(text, to):
    """A comment: names in camel case, and whatever stands in backticks."""
    text = re.sub(r"`[^`]*`", lambda q: TOKEN.sub(lambda m: to.get(m.group(0), m.group(0)), q.group(0)), text)
    return TOKEN.sub(lambda m: to[m.group(0)] if m.group(0) in to and re.search("[a-z][A-Z]", m.group(0)) and m.group(0)[0].islower() else m.group(0), text)


def turn_antt(path, text, to):
    own = own_folder(path)
    aliases = set(re.findall(r"(?m)^\s*use [^\n{]* as (\S+)$", text)) - {"tie", "goal"}
    lines = []
    for line in text.split("\n"):
        cut = re.search(r"(^|\s)-- ", line)
        code, rest = (line[: cut.start()], line[cut.start():]) if cut else (line, "")
        lines.append(code_token(code, to, own, path, aliases) + comment(rest, to))
    return "\n".join(lines)


def turn_rt(text, to):
    """Clauses and ghost lines: what looks like a name of Rattle's source is in snake case already."""
    lines = []
    for line in text.split("\n"):
        cut = re.search(r"//", line)
        code, rest = (line[: cut.start()], line[cut.start():]) if cut else (line, "")
        ghost = code.lstrip().startswith(("ghost", "requires", "ensures"))
        pick = to if ghost else {n: v for n, v in to.items() if re.search("[a-z][A-Z]", n) and n[0].islower()}
        lines.append(TOKEN.sub(lambda m: pick.get(m.group(0), m.group(0)), code) + comment(rest, to))
    return "\n".join(lines)


def turn_edit(text, to):
    out, rt = [], False
    for line in text.split("\n"):
        if line.startswith("file: "):
            rt = line.endswith(".rt")
        if line.startswith(("old: ", "new: ")):
            pick = {n: v for n, v in to.items() if not rt or re.search("[a-z][A-Z]", n) and n[0].islower()}
            line = line[:5] + TOKEN.sub(lambda m: pick.get(m.group(0), m.group(0)), line[5:])
        out.append(line)
    return "\n".join(out)


def main(argv):
    root = "."
    to = renamed(root)
    if argv == ["--map"]:
        for name in sorted(to):
            print(name, to[name])
        return 0
    for path in files(root, (".antt", ".rt", ".edit")):
        old = read(path)
        new = turn_antt(path, old, to) if path.endswith(".antt") else turn_rt(old, to) if path.endswith(".rt") else turn_edit(old, to)
        if new != old:
            with open(path, "w", encoding="utf-8", newline="") as it:
                it.write(new)
    return 0


if __name__ == "__main__":
    sys.exit(main(sys.argv[1:]))
