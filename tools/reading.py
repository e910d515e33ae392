"""What the other tools read off the text of the repository: the crates in the order of their layers, the definitions and laws of the antt files, and the
functions of the rt files with their contracts. It reads text and proves nothing.
"""
import io
import os
import re
import subprocess
import tarfile
from typing import NamedTuple

ROOT = os.path.dirname(os.path.dirname(os.path.abspath(__file__)))


# ---- the files of a tree

def read_tree(commit=None):
    """The text of crates.txt and of every .antt and .rt file, by path: of the work tree, or of a commit."""
    return tree_of_commit(commit) if commit else tree_on_disk()


def is_read(path):
    parts = path.split("/")
    return path == "crates.txt" or parts[0] == "crates" and len(parts) > 3 and parts[2] in ("src", "specs", "proofs") and path.endswith((".antt", ".rt"))


def tree_on_disk():
    files = {"crates.txt": open(os.path.join(ROOT, "crates.txt"), encoding="utf-8").read()}
    for folder, _, names in os.walk(os.path.join(ROOT, "crates")):
        for name in names:
            path = os.path.relpath(os.path.join(folder, name), ROOT)
            if is_read(path):
                files[path] = open(os.path.join(folder, name), encoding="utf-8").read()
    return files


def tree_of_commit(commit):
    packed = subprocess.run(["git", "-C", ROOT, "archive", commit, "crates.txt", "crates"], stdout=subprocess.PIPE, check=True).stdout
    files = {}
    with tarfile.open(fileobj=io.BytesIO(packed)) as archive:
        for member in archive:
            if member.isfile() and is_read(member.name):
                files[member.name] = archive.extractfile(member).read().decode("utf-8")
    return files


def crate_of(path):
    return path.split("/")[1]


def layers(files):
    """The crates from the lowest layer up, each with its layer; a layer is one above the highest that it names. Within a layer by name."""
    below = {}
    for line in files["crates.txt"].splitlines():
        line = line.split("#")[0]
        if ":" in line:
            # the name may have 'staticlib' after it
            name, named = line.split(":", 1)
            below[name.split()[0]] = named.split()
    known = {}

    def layer(name):
        if name not in known:
            known[name] = 1 + max((layer(n) for n in below[name] if n in below), default=0)
        return known[name]

    return [(name, layer(name)) for name in sorted(below, key=lambda n: (layer(n), n))]


# ---- antt

class Item(NamedTuple):
    """A definition or a law: where it stands, its name, its text with the comment above it, and the text alone, with the parameters of its section."""
    path: str
    name: str
    text: str
    bare: str
    kind: str
    type: str
    public: bool


DIRECTIVE = re.compile(r"(pub )?(use|mod|open|infix[lr]?|ruleset|syntax)\b")
MODIFIER = re.compile(r"(pub|abbrev|unfoldable|opaque|record|data)\s+")


def without_comments(text):
    return " ".join(re.sub(r"(^|\s)--.*", "", line) for line in text.split("\n"))


def folded(text):
    return " ".join(text.split())


def colon(text):
    """Where ' : ' stands outside brackets and before any ' = ', or -1."""
    depth = 0
    for k, c in enumerate(text):
        if c in "({[":
            depth += 1
        elif c in ")}]":
            depth -= 1
        elif depth == 0 and c == "=" and text[k - 1:k + 2] in (" = ", " =", "= "):
            return -1
        elif depth == 0 and c == ":" and text[k - 1:k + 2] == " : ":
            return k
    return -1


def depth_of(text):
    return sum(text.count(c) for c in "({[") - sum(text.count(c) for c in ")}]")


def blocks(lines, indent):
    """The lines by blocks, each beginning at the indentation, with the comment that stands right above it."""
    found, comment = [], []
    for line in lines:
        stripped = line.strip()
        at = len(line) - len(line.lstrip())
        if not stripped:
            comment = []
            if found:
                found[-1][1].append(line)
        elif at > indent or (found and at == indent and stripped[0] in ")}]"):
            if found:
                found[-1][1].append(line)
        elif stripped.startswith("--"):
            comment.append(line)
        else:
            found.append((comment, [line]))
            comment = []
    return found


def items(path, text):
    """The definitions and laws of an antt file, those inside sections too."""
    return section(path, text.split("\n"), 0, "")


def section(path, lines, indent, header):
    found = []
    for comment, block in blocks(lines, indent):
        first = block[0].strip()
        if DIRECTIVE.match(first):
            continue
        if re.match(r"(pub )?module\b", first):
            found += inner(path, block, header)
            continue
        bare = folded(without_comments("\n".join(block)))
        body = "\n".join(block).rstrip()
        kind, signature = "law", bare
        while MODIFIER.match(signature):
            word = MODIFIER.match(signature).group(1)
            kind = word if word != "pub" else kind
            signature = signature[MODIFIER.match(signature).end():]
        at = colon(signature)
        begins = kind in ("record", "data") or at >= 0 and not first.startswith("unfolding ")
        if begins:
            name = signature.split()[0]
            whole = "\n".join(comment + [body])
            kept = signature[at + 1:].strip() if at >= 0 else ""
            found.append(Item(path, name, whole, folded(header + " " + bare), kind, kept, bare.startswith("pub ") or " pub " in bare[:16]))
        elif found:
            last = found[-1]
            found[-1] = last._replace(text=last.text + "\n" + body, bare=last.bare + " " + bare)
    return found


def inner(path, block, header):
    """The items of a section; its parameters are part of each."""
    end = 0
    while end < len(block) - 1 and not re.search(r"\bwhere\s*$", block[end]):
        end += 1
    rest = block[end + 1:]
    first = next((line for line in rest if line.strip()), None)
    if first is None:
        return []
    indent = len(first) - len(first.lstrip())
    return section(path, rest, indent, folded(header + " " + without_comments("\n".join(block[:end + 1]))))


# ---- function proofs

# What stands in proofs/F/ of the function F; every other file of proofs/ holds laws.
FUNCTION_PROOFS = ("Invariants.antt", "Answers.antt", "Proof.antt")


def is_function_proof(path):
    parts = path.split("/")
    return parts[2] == "proofs" and len(parts) > 4 and parts[-1] in FUNCTION_PROOFS


# ---- rt

class Function(NamedTuple):
    """A function: its name with its modules, its text from `fn` to the body (signature, requires, ensures), with what the impl of a trait that it stands in
    says of it (`ghost from_gives = { .. };`) after that, and what it is marked with. `public` are those that another crate can call: marked `pub`, or of a
    trait. `ensures` is whether it promises anything, in a clause of its own or by such a line."""
    path: str
    name: str
    text: str
    public: bool
    exported: bool
    requires: bool
    ensures: bool


class Declared(NamedTuple):
    """A struct, an enum, a constant or another item that is no function."""
    path: str
    name: str
    text: str
    bare: str


def module_of(path):
    parts = path.split("/")
    inside = [p[:-3] if p.endswith(".rt") else p for p in parts[3:]]
    return "::".join([parts[1]] + [p for p in inside if p not in ("lib", "main")])


HIDDEN = re.compile(r"""//[^\n]*|/\*.*?\*/|\b(?:b|c)?r(\#*)".*?"\1|\b[bc]?"(?:\\.|[^"\\])*"|"(?:\\.|[^"\\])*"|\bb?'(?:\\[^\n']+|[^'\\\n])'|'(?:\\[^\n']+|[^'\\\n])'""",
                    re.S)


def blanked(text):
    """The text, as long as it was, with blanks for comments, strings and characters, so that the brackets left in it are code and clauses."""
    return HIDDEN.sub(lambda m: re.sub(r"[^\n]", " ", m.group()), text)


def closing(text, at):
    """The place after the bracket that closes the one at `at`."""
    depth = 0
    for k in range(at, len(text)):
        depth += (text[k] in "({[") - (text[k] in ")}]")
        if depth == 0:
            return k + 1
    return len(text)


FN = re.compile(r'^[ \t]*(pub(?:\([^)\n]*\))? )?((?:const |unsafe |extern "C" )*)fn (\w+)', re.M)
CLAUSE = re.compile(r"(requires|ensures|ghost)\b[^{;]*\{")
MEMBER = re.compile(r"^[ \t]*ghost \w+ = \{", re.M)
OWNER = re.compile(r"^[ \t]*(pub(?:\([^)\n]*\))? )?(?:unsafe )?(impl|trait)\b([^{;]*)\{", re.M)


def header(plain, at):
    """From behind a function's name: the kinds of its clauses, and the place of its body or of the ';' that stands for one."""
    clauses, angles = set(), 0
    while at < len(plain):
        c = plain[at]
        clause = CLAUSE.match(plain, at) if not re.match(r"\w", plain[at - 1]) else None
        if clause:
            clauses.add(clause.group(1))
            at = closing(plain, clause.end() - 1)
        elif c in "([" or c == "{" and angles > 0:
            at = closing(plain, at)
        elif c in "{;":
            return clauses, at
        else:
            angles += (c == "<") - (c == ">" and plain[at - 1] not in "-=")
            at += 1
    return clauses, at


def without_generics(head):
    """The words of an impl's head without its parameters in angle brackets."""
    while re.search(r"<[^<>]*>", head):
        head = re.sub(r"<[^<>]*>", "", head)
    return head.split(" where ")[0].split()


def owners(plain):
    """Each impl and trait: where it begins and ends, the name of its type, or of the trait, and whether it gives what callers reach by a trait."""
    for m in OWNER.finditer(plain):
        words = without_generics(m.group(3))
        name = words[-1] if m.group(2) == "impl" else words[0].rstrip(":")
        of_trait = "for" in words if m.group(2) == "impl" else m.group(1) == "pub "
        yield m.start(), closing(plain, m.end() - 1), name, of_trait


def members(text, plain, start, end):
    """What an impl says of its functions, a line for each of its ghost members."""
    return ["\n        " + folded(text[m.start():plain.find(";", closing(plain, m.end() - 1)) + 1]) for m in MEMBER.finditer(plain, start, end)]


def functions(path, text):
    plain = blanked(text)
    owned = list(owners(plain))
    found = []
    for m in FN.finditer(text):
        if plain[m.start(3)] != text[m.start(3)]:
            continue
        clauses, end = header(plain, m.end())
        start, stop, owner, of_trait = next(((a, b, "::" + name, by) for a, b, name, by in reversed(owned) if a < m.start() < b), (0, 0, "", False))
        told = members(text, plain, start, stop)
        attributes = re.search(r"(?:^[ \t]*#\[[^\n]*\n)*\Z", text[:m.start()], re.M).group()
        exported = "extern" in m.group(2) or "no_mangle" in attributes or "export_name" in attributes
        name = module_of(path) + owner + "::" + m.group(3)
        found.append(Function(path, name, text[m.start():end].strip() + "".join(told), m.group(1) == "pub " or of_trait, exported, "requires" in clauses,
                              "ensures" in clauses or told != []))
    return found


def declared(path, text):
    plain = blanked(text)
    found = []
    for m in re.finditer(r"^(?:pub(?:\([^)\n]*\))? )?(struct|enum|const|static|trait|type) (\w+)", plain, re.M):
        end = m.end()
        while end < len(plain) and plain[end] not in ";{":
            end = closing(plain, end) if plain[end] in "([" else end + 1
        end = closing(plain, end) if plain[end:end + 1] == "{" and m.group(1) not in ("const", "static") else plain.find(";", end) + 1
        found.append(Declared(path, module_of(path) + "::" + m.group(2), text[m.start():end], folded(re.sub(r"//[^\n]*", "", text[m.start():end]))))
    return found


# ---- entry points and demands

# Whoever calls these need know nothing: they answer for every input.
ENTRY_POINTS = [
    "finder::find::find",
    "search::roots::search",
    "heads::states::empty",
    "calls::shape::shape",
    "calls::encode::encode",
    "calls::locate::locate",
    "calls::repair::repair",
    "slicing::start::start",
    "slicing::next::next",
    "slicing::peek::peek",
    "dispatch_calls::empty::empty",
    "dispatch_calls::shape::shape",
    "dispatch_calls::encode::encode",
    "dispatch_calls::locate::locate",
    "dispatch_calls::repair::repair",
    "dispatch_slices::start::start",
    "dispatch_slices::peek::peek",
    "dispatch_steps::step::step",
    "dispatcher::turn::turn",
]

# What the program does with the bytes that it is given. Its callers meet what these ask for.
PROGRAM = ["record::line::line", "window::input::filled", "window::output::put_lines", "tomkhadi::turn", "tomkhadi::run"]


# Spec files that state a demand, or a part of one, and that the rule below does not find.
MORE_DEMANDS = ["crates/examples/specs/Examples.antt", "crates/job/specs/Left.antt", "crates/lines/specs/Examples.antt"]


def all_items(files, folder):
    """What the antt files of specs/ define, or the laws of proofs/; the proofs of functions are no laws."""
    paths = [p for p in sorted(files) if p.endswith(".antt") and p.split("/")[2] == folder and not p.endswith("/Lib.antt") and not is_function_proof(p)]
    return [i for path in paths for i in items(path, files[path])]


def all_functions(files):
    return [f for path in sorted(files) if path.endswith(".rt") for f in functions(path, files[path])]


def all_declared(files):
    return [d for path in sorted(files) if path.endswith(".rt") for d in declared(path, files[path])]


def demand_paths(files, definitions, laws):
    """The spec files that state demands: those named Demands.., and those that hold the whole type of a public law, as in `each-round : EachRound`."""
    stated = {}
    for d in definitions:
        if d.kind == "record" or d.kind == "abbrev" and d.type.startswith("Type"):
            stated.setdefault(d.name, []).append(d.path)
    paths = {d.path for d in definitions if os.path.basename(d.path).startswith("Demands")} | {p for p in MORE_DEMANDS if p in files}
    for law in laws:
        if law.public and law.kind == "law" and law.type in stated:
            near = [p for p in stated[law.type] if crate_of(p) == crate_of(law.path)]
            paths.update(near or stated[law.type])
    return paths


# ---- what a text names

USE = re.compile(r"^[ \t]*(?:pub )?(ghost )?use\s+([^\s;{}]+(?:\{(?:[^{}]|\{[^{}]*\})*\})?)(?:\s+as\s+([^\s;]+))?", re.M)
WORD = re.compile(r"[^\s(){}\[\],;.⌜⌝«»]+")


def uses(path, text):
    """What each `use` of the file brings in of antt: the path before the braces, and what stands in them, or no braces and the name that the module gets."""
    text = "\n".join(re.sub(r"(^|\s)--.*", "", line) for line in text.split("\n")) if path.endswith(".antt") else blanked(text)
    for m in USE.finditer(text):
        if path.endswith(".antt") or m.group(1):
            module, _, names = m.group(2).partition("{")
            yield module.rstrip("."), names.removesuffix("}") if names else None, m.group(3)


def listed(module, names):
    """The names that stand in braces: the module of each, the name there and the name here. Braces may hold braces."""
    for part in re.findall(r"(?:[^,{}]|\{[^{}]*\})+", names):
        inner = re.match(r"\s*(\S+)\.\{([^{}]*)\}", part)
        words = part.replace("«", "").replace("»", "").split()
        if inner:
            yield from listed(f"{module}.{inner.group(1)}", inner.group(2))
        elif words:
            above, _, name = words[0].rpartition(".")
            yield f"{module}.{above}" if above else module, name or words[0], words[-1] if len(words) > 1 else name or words[0]


def imported(path, text):
    """Each name that the file brings in from a module: the module, the name there, the name here."""
    for module, names, known_as in uses(path, text):
        if names is not None:
            yield from listed(module, names)
        elif path.endswith(".rt"):
            # in code a path without braces names one thing
            above, _, name = module.rpartition(".")
            yield above, name, known_as or name


RUST_USE = re.compile(r"^[ \t]*(?:pub(?:\([^)\n]*\))? )?use\s+([^;]+);", re.M)


def rust_names(path, text):
    """The names that the code's own `use` items bring in, which a clause may use too: the crate of each, the name there and the name here."""
    def under(crate, tree):
        for part in re.findall(r"(?:[^,{}]|\{(?:[^{}]|\{[^{}]*\})*\})+", tree):
            above, brace, inner = part.strip().partition("{")
            steps = [step for step in above.split("::") if step.strip()]
            first = crate or (steps[0].strip() if steps else "")
            if brace:
                yield from under(first, inner.removesuffix("}"))
            elif steps:
                words = steps[-1].split()
                yield first, words[0], words[-1]

    for m in RUST_USE.finditer(blanked(text)):
        for crate, name, here in under("", m.group(1)):
            yield crate_of(path) if crate in ("crate", "self", "super") else crate, name, here


def modules(path, text):
    """Each module that the file brings in whole: its path, and the name that it gets here."""
    for module, names, known_as in uses(path, text):
        if names is None:
            yield module, known_as or module.rpartition(".")[2]


def spec_path(module):
    """The file of a module such as Rattle.frame.specs.Frame, of this repository; of a type declared in code the crate."""
    m = re.match(r"Rattle\.(\w+)\.specs\.(.+)$", module)
    if not m:
        return None
    parts = m.group(2).split(".")
    return f"crates/{m.group(1)}/src" if parts[0] == "declared" else f"crates/{m.group(1)}/specs/{'/'.join(parts)}.antt"


class Names:
    """Which definition a name stands for, in each file."""

    def __init__(self, files):
        self.files = files
        self.definitions = {}
        for item in all_items(files, "specs"):
            self.definitions[item.path, item.name] = item
            if item.kind == "data":
                for m in re.finditer(r"^\s+(?:pub )?(\S+) : ", item.text, re.M):
                    self.definitions.setdefault((item.path, m.group(1)), item)
        for d in all_declared(files):
            self.definitions[f"crates/{crate_of(d.path)}/src", d.name.split("::")[-1]] = d
        self.scopes = {}

    def scope(self, path):
        """The names of a file: what it imports, what it defines, and whole modules under a name of their own."""
        if path not in self.scopes:
            names = {}
            text = self.files[path]
            for module, name, here in imported(path, text):
                names[here] = self.find(spec_path(module), module, name)
            for where, name in self.definitions:
                if where == path:
                    names[name] = self.definitions[where, name]
            if path.endswith(".rt"):
                for d in declared(path, text):
                    names.setdefault(d.name.split("::")[-1], d)
                for crate, name, here in rust_names(path, text):
                    names.setdefault(here, self.definitions.get((f"crates/{crate}/src", name)))
            for module, here in modules(path, text):
                where = spec_path(module)
                for there, name in self.definitions:
                    if where and there == where:
                        names[here + "." + name] = self.definitions[there, name]
            self.scopes[path] = {k: v for k, v in names.items() if v}
        return self.scopes[path]

    def find(self, where, module, name):
        if where is None:
            return None
        if where.endswith("/src"):
            kind = module.split("declared.", 1)[1].split(".")
            owner = next((k for k in reversed(kind) if k != "TheVariants"), name)
            return self.definitions.get((where, name)) or self.definitions.get((where, owner))
        if (where, name) not in self.definitions and where in self.files:
            # passed on by a `pub use`
            for module, there, here in imported(where, self.files[where]):
                if here == name and spec_path(module) not in (None, where):
                    return self.find(spec_path(module), module, there)
        return self.definitions.get((where, name))

    def named(self, path, text):
        scope = self.scope(path)
        found = set()
        qualified = set(re.findall(r"\b\w+\.[^\s(){}\[\],;.]+", text))
        for word in set(WORD.findall(text)) | qualified:
            if word in scope:
                found.add(scope[word])
        return found

    def reached(self, roots):
        """All definitions that the roots, pairs of a path and a text, name; and those that these name; and so on."""
        seen = set()
        waiting = list(roots)
        while waiting:
            path, text = waiting.pop()
            if path.endswith(".antt") or path in self.files:
                for d in self.named(path, text):
                    if d not in seen:
                        seen.add(d)
                        if isinstance(d, Item):
                            waiting.append((d.path, d.bare))
                        else:
                            seen.update(self.held(d))
        return seen

    def held(self, d):
        """The declared types that a struct or an enum holds, and what these hold."""
        crates = [crate_of(d.path)] + re.findall(r"^use (\w+)::", self.files[d.path], re.M)
        found = set()
        for word in set(re.findall(r"\b[A-Z]\w+", d.bare)):
            inner = next((self.definitions[f"crates/{c}/src", word] for c in crates if (f"crates/{c}/src", word) in self.definitions), None)
            if inner and inner != d:
                found |= {inner} | self.held(inner)
        return found


def is_predicate(item):
    """Whether a definition is a proposition about its parameters, and no type of data."""
    if not isinstance(item, Item):
        return False
    if item.kind == "record":
        return re.search(r"\brecord " + re.escape(item.name) + r"\s*[({]", item.bare) is not None
    return item.kind == "abbrev" and item.type.endswith("Type 0") or item.kind == "data" and "→ Type 0 where" in item.bare
