"""What the gate's scripts read from the sources: contracts of calls, law files, imports, edits."""
import re
from pathlib import Path

ROOT = Path(__file__).resolve().parent.parent

# Files of crates/NAME/specs whose every definition is a promise, or a word that one is said in.
LAW_FILES = [
    "Bench.antt",
    "Conservation.antt",
    "Delivery.antt",
    "Laws.antt",
    "Limits.antt",
    "Lists.antt",
    "Margin.antt",
    "RowRead.antt",
    "Solution.antt",
    "Witness.antt",
]

# Those of them that have words alone.
WORD_FILES = ["Lists.antt", "RowRead.antt", "Solution.antt"]

# Definitions of other files that laws take for granted: file -> names.
LAWS_ELSEWHERE = {
    "crates/block/specs/Block.antt": ["Bytes"],
    "crates/block/specs/Writer.antt": ["BodyPasses"],
    "crates/cardsite/specs/Running.antt": ["Running"],
    "crates/uptake/specs/Routes.antt": ["RoutesLimits"],
}

# Files of contracts between functions, which promise nothing to a caller of the engine.
INTERNAL_FILES = ["Bounds.antt", "Decoded.antt", "Internal.antt"]

# Libraries that the exports stand on and that are the C interface too: what they call is open.
C_LIBRARIES = ["jurengate"]

# Calls that a request asks for by what they answer, though neither a program nor the C interface makes them: [6].
ASKED = ["uptake::parts::day_routes", "routes::monthly_sums"]

# Calls that stay open, though programs reach them through others (what is read of a file) or make others in their place (lines put into
# lent bytes).
KEPT = ["console::read_full", "printout::line", "cardline::put_lines_first"]

# The head of a definition in a specs file.
HEAD = r" *(?:(?:abbrev|unfoldable) pub|pub (?:record|data))"


def name_of(path):
    return path.relative_to(ROOT).as_posix()


def files(pattern):
    """The files of a pattern, without those that rt builds in a crate's out/."""
    return sorted(path for path in ROOT.glob(pattern) if "out" not in path.relative_to(ROOT).parts)


def crates():
    """The crates of crates.txt, in its order."""
    lines = (ROOT / "crates.txt").read_text(encoding="utf-8").splitlines()
    return [line.split(":")[0].split()[0] for line in lines if re.match(r"\w+( staticlib)?:", line)]


def code(path):
    """A file's lines without comments: one that is a comment alone is left out whole."""
    mark = "//" if path.suffix == ".rt" else "--"
    comment = re.compile(r"(^|\s+)%s.*$" % mark)
    lines = path.read_text(encoding="utf-8").splitlines()
    return [comment.sub("", line).rstrip() for line in lines if not line.lstrip().startswith(mark)]


def imports(lines):
    """Module -> the items that the lines take from it, as written."""
    found = {}
    for module, items in re.findall(r"\buse\s+([^\s{;]+)\.\{([^}]*)\}", "\n".join(lines)):
        found.setdefault(module, []).extend(item.strip() for item in items.split(","))
    return found


def definitions(lines):
    """The lines below the imports, parted at blank lines: each part is a definition, or the head of a module."""
    body = [line for line in lines if not re.match(r"(pub )?(use|mod) ", line)]
    return [part.strip("\n") for part in re.split(r"\n\n+", "\n".join(body)) if part.strip()]


def propositions(path):
    """The types that a file defines, laws and what they are made of: name -> definition."""
    parts = [re.sub(r"^module .* where\n", "", part) for part in definitions(code(path))]
    found = [(re.match(HEAD + r" (\S+) [^=]*?\bType 0(?: where)?$", part, re.M), part) for part in parts]
    return {head[1]: part for head, part in found if head}


def defines(name, part):
    return re.search(r"^%s %s( |$)" % (HEAD, re.escape(name)), part, re.M) is not None


def mentions(word, text):
    return re.search(r"(?<![^\s(){}])%s(?![^\s(){}])" % re.escape(word), text) is not None


def contract(lines, function):
    """A public function's signature with its contract, or None: the lines up to the brace that opens its body."""
    head = []
    for line in lines:
        if head or re.match(r'pub (extern "C" )?fn %s(<[^(]*>)?\(' % function, line):
            opens_body = line.endswith("{") and not line.startswith(" ")
            head.append(line.rstrip("{ ") if opens_body else line)
            if opens_body:
                return [line for line in head if line]
    return None


def calls_in(path):
    """The calls of other crates' functions that a file makes, as `engine::run`."""
    text = "\n".join(code(path))
    return {call for call in re.findall(r"(\w+(?:::\w+)+)\(", text) if call.split("::")[0] in crates()}


def file_of(call):
    crate, *modules, _ = call.split("::")
    return ROOT / "crates" / crate / "src" / ("/".join(modules or ["lib"]) + ".rt")


# The files of a program whose calls of other crates are open: its `main`, and leadcard's walk through a text.
PROGRAM_FILES = ["main.rt", "reading.rt"]

# Methods of std's types that a program calls by the name of a method of ours.
STD_METHODS = ["read"]


def methods(lines, type_name):
    """The lines of a type's `impl` blocks, as they would stand outside of them."""
    found, inside = [], False
    for line in lines:
        if re.match(r"impl(<[^>]*>)? (.* for )?%s\b" % type_name, line):
            inside = True
        elif line == "}":
            inside = False
        elif inside:
            found.append(line.removeprefix("    "))
    return found


def methods_in(path):
    """The methods of other crates' types that a file takes in and calls: (call, file, signature and contract)."""
    lines = code(path)
    text = "\n".join(lines)
    found = []
    for place, items in re.findall(r"^use ([\w:]+)::(\w+|\{[^}]*\});", text, re.M):
        crate = place.split("::")[0]
        for type_name in re.findall(r"\b[A-Z]\w*[a-z]\w*", items) if crate in crates() else []:
            for file in files("crates/%s/src/**/*.rt" % crate):
                own = methods(code(file), type_name)
                for method in re.findall(r"^pub fn (\w+)", "\n".join(own), re.M):
                    called = r"\b%s::%s\(" if method in STD_METHODS else r"(?:\.|\b%s::)%s\("
                    if re.search(called % (type_name, method), text):
                        found.append(("%s::%s::%s" % (crate, type_name, method), file, contract(own, method)))
    return found


def types_asked(signature):
    """The types that a call is handed, and those in their fields: (type, file, its ghost fields), of those that have such."""
    structs = {}
    for path in files("crates/*/src/**/*.rt"):
        for head, body in re.findall(r"^pub struct (\w+)[^{;]*\{\n(.*?)^\}", "\n".join(code(path)), re.M | re.S):
            structs[head] = (path, body.splitlines())
    found, left = [], re.findall(r"\b[A-Z]\w*[a-z]\w*", signature)
    while left:
        name = left.pop(0)
        path, body = structs.pop(name, (None, []))
        ghosts = [line for line in body if line.startswith("    pub ghost ")]
        found += [(name, path, ghosts)] if ghosts else []
        left += re.findall(r"\b[A-Z]\w*[a-z]\w*", "\n".join(line for line in body if line not in ghosts))
    return found


def calls():
    """The open calls, which are those that a program or the C interface makes, the asked, the kept and the exported ones: (name, file,
    signature and contract or None)."""
    opened, own, exported = set(ASKED + KEPT), [], []
    for path in files("crates/*/src/**/*.rt"):
        lines = code(path)
        exports = re.findall(r'^pub extern "C" fn (\w+)', "\n".join(lines), re.M)
        exported += [(function, path, contract(lines, function)) for function in exports]
        if exports or path.name in PROGRAM_FILES:
            opened |= calls_in(path)
            own += [one for one in methods_in(path) if one not in own]
        if exports:
            for library in {file_of(call) for call in calls_in(path) if call.split("::")[0] in C_LIBRARIES}:
                opened |= calls_in(library)
    found = []
    for call in sorted(opened):
        if not call.split("::")[-2][0].isupper():
            path = file_of(call)
            found.append((call, path, contract(code(path), call.split("::")[-1]) if path.exists() else None))
    return found + own + exported


def law_files():
    return [path for path in files("crates/*/specs/*.antt") if path.name in LAW_FILES]


def edits():
    return files("crates/*/must-fail/*.edit")


def pairs(edit):
    """The pairs of an edit: (file, old text, new text). As in rt, a `file:` line holds for the pairs below it."""
    name = old = ""
    for line in edit.read_text(encoding="utf-8").splitlines():
        if line.startswith("file: "):
            name = line[len("file: ") :]
        elif line.startswith("old: "):
            old = line[len("old: ") :]
        elif line.startswith("new:"):
            yield name, old, line[len("new:") :].removeprefix(" ")
            old = ""
