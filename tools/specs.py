"""What the scripts here read of a crate: the definitions of specs/*.antt and proofs/*.antt with their comments and sections, the types and functions of src/*.rt, and
which definitions a text names. By text alone, nothing is run.

A name is followed where it stands free: not as a bound variable (`(x : T)`, `λ x.`, a pattern), not as a field (`r.x`, `record { x = .. }`). A field's record and a
pattern's data type need not be followed by their own names: some type that is read anyway names them."""

import collections
import pathlib
import re

ROOT = pathlib.Path(__file__).resolve().parents[1]
CRATES = ROOT / "crates"

# What a definition is known by: its crate, its file below the crate without the ending ("specs/Line", "src/lib.rt" for code), and its name.
Key = collections.namedtuple("Key", "crate file name")


class Section:
    """`module _ (..) where`: its header's lines with the comment above, its indentation, its place, and the sections around it."""

    def __init__(self, at, indent, comment, lines, outer):
        self.at, self.indent, self.comment, self.lines, self.outer = at, indent, comment, lines, outer

    def chain(self):
        return (self.outer.chain() if self.outer else []) + [self]


class Definition:
    """A definition, law, or type of the code. `comment` stands above it, `head` is its first lines up to the first clause (of a record or data type: all), `body` the clauses."""

    def __init__(self, key, at, kind, words, comment, section):
        self.key, self.at, self.kind, self.words, self.comment, self.section = key, at, kind, words, comment, section
        self.head, self.body, self.parts = [], [], []

    @property
    def lines(self):
        return self.comment + self.head + self.body

    @property
    def public(self):
        return "pub" in self.words


class File:
    """A file of definitions: what it imports, re-exports and defines."""

    def __init__(self, crate, path):
        self.crate, self.path = crate, path
        self.name = str(path.relative_to(CRATES / crate).with_suffix(""))
        self.text = path.read_text()
        self.imports = imports(self.text)
        self.definitions = definitions(crate, self.name, self.text)


def module_key(path):
    """`Rattle.CRATE.specs.A.B` or `Rattle.CRATE.proofs.A.B`: the crate and the file; `declared` names a type of the code."""
    m = re.match(r"Rattle\.(\w+)\.(specs|proofs)\.(.+)$", path)
    if not m:
        return None
    parts = m[3].split(".")
    if parts[0] == "declared":
        return m[1], "src", parts[1]
    return m[1], "/".join([m[2]] + parts), None


def imports(text):
    """Each name that `use` brings in, and where from."""
    found = {}
    for m in re.finditer(r"^(?:[a-z]+ )*use (\S+?)\.\{([^}]*)\}", text, re.M):
        module = module_key(m[1])
        for item in re.split(r"[,\n]", m[2]):
            old, _, new = item.strip().partition(" as ")
            if module and old:
                found[(new or old).strip()] = Key(module[0], module[1], module[2] or old.strip())
    return found


def definitions(crate, name, text):
    """The definitions of an antt file, in their order."""
    found, here, comment, section, header = [], None, [], None, None
    for at, line in enumerate(text.split("\n"), 1):
        bare, indent = line.strip(), len(line) - len(line.lstrip())
        if header:  # a section's header that takes more lines
            header.lines.append(line)
            header = None if bare.endswith("where") else header
            continue
        inside = here is not None and here.kind != "law" and indent > here.indent
        if not bare or re.match(r"(?:abbrev |unfoldable )*(?:pub )?(?:use|mod) ", line):
            comment = []
            if here is not None and not bare:
                here.gap = True
            continue
        if bare.startswith("--") and not inside:
            comment.append(line)
            continue
        while section and indent <= section.indent:
            section = section.outer
        level = section.indent + 2 if section else 0
        if indent == level and re.match(r"module _ ", bare):
            section = Section(at, indent, comment, [line], section)
            header = None if bare.endswith("where") else section
            comment, here = [], None
            continue
        m = re.match(r"((?:abbrev |unfoldable |pub )*)(record |data )?([^\s(){}]+)(?=\s|$)", bare)
        starts = m and indent == level and (m[2] or re.match(r":(\s|$)", bare[m.end():].lstrip()))
        if starts:
            here = Definition(Key(crate, name, m[3]), at, (m[2] or "law").strip(), m[1].split(), comment, section)
            here.indent, here.gap = indent, False
            here.head.append(line)
            found.append(here)
        elif here is not None:
            clause = here.kind == "law" and indent == here.indent
            (here.body if here.body or clause else here.head).extend(comment + [line])
        comment = []
    for definition in found:
        definition.last = definition.at + len(definition.head) + len(definition.body) - 1
        if definition.kind in ("record", "data"):
            definition.parts = re.findall(rf"^ {{{definition.indent + 2}}}(?:pub )?([^\s(){{}}]+) : ", "\n".join(definition.head), re.M)
    return found


class Type:
    """A struct or enum of the code: its lines with the comment above."""

    def __init__(self, key, path, at, lines, parts):
        self.key, self.path, self.at, self.lines, self.parts, self.kind = key, path, at, lines, parts, "type"


class Function:
    """A public function of the code: its lines from the comment to the contract's end, and what its file imports."""

    def __init__(self, crate, path, at, name, lines, text):
        self.crate, self.path, self.at, self.name, self.lines, self.text = crate, path, at, name, lines, text

    @property
    def asks(self):
        return any(re.match(r"\s*requires\b", line) for line in self.lines)


def with_comment(lines, at):
    """The first line of what stands at line `at` (from 0), attributes and the comment above it taken in."""
    while at > 0 and re.match(r"\s*(//|#\[)", lines[at - 1]):
        at -= 1
    return at


CLAUSE = r"\s*(?:requires|ensures|ghost)\b"


def contract_end(lines, i):
    """The last line of the head and the contract of the function that begins in line i: behind clauses the body begins with a line `{`."""
    asks = False
    for j in range(i, len(lines)):
        asks = asks or bool(re.match(CLAUSE, lines[j]))
        if lines[j].startswith("{"):
            return j - 1
        if not asks and lines[j].rstrip().endswith(("{", "}")):
            return j
    return i


def code_of(crate):
    """The types and the public functions of a crate's code."""
    types, functions = {}, []
    for path in sorted((CRATES / crate / "src").rglob("*.rt")):
        text = path.read_text()
        lines = text.split("\n")
        for i, line in enumerate(lines):
            m = re.match(r"pub (struct|enum) (\w+)", line)
            if m:
                end = i if line.rstrip().endswith((";", "}")) else next(j for j in range(i, len(lines)) if lines[j].startswith("}"))
                body = lines[with_comment(lines, i) : end + 1]
                parts = re.findall(r"^\s+(?:pub )?(\w+)\s*(?=[,:({]|$)", "\n".join(lines[i + 1 : end]), re.M)
                types[m[2]] = Type(Key(crate, "src", m[2]), path, i + 1, body, parts)
            m = re.match(r'pub (?:extern "C" )?fn (\w+)', line)
            if m:
                end = contract_end(lines, i)
                body = lines[with_comment(lines, i) : end + 1]
                body[-1] = re.sub(r" \{.*$", "", body[-1]) if not any(re.match(CLAUSE, line) for line in body) else body[-1]
                functions.append(Function(crate, path, i + 1, m[1], body, text))
    return types, functions


TOKEN = re.compile(r"[(){}\[\];,]|[^\s(){}\[\];,]+")


def free_names(text, patterns=False):
    """The names of a text that are not bound in it, fields and labels aside. `patterns`: a clause, whose left side binds all of its names; these are given in the second set,
    since a constructor among them is none."""
    tokens = TOKEN.findall(re.sub(r"(?m)^\s*--.*$", "", text))
    free, bound_left, frames = set(), set(), [set()]
    i, left = 0, patterns
    while i < len(tokens):
        t = tokens[i]
        if t in "({[":
            frames.append(set())
            names, j = [], i + 1
            while j < len(tokens) and not re.search(r"[(){}\[\];,]", tokens[j]) and tokens[j] != ":" and not tokens[j].startswith((".", "λ")):
                names.append(tokens[j])
                j += 1
            if names and j < len(tokens) and tokens[j] == ":":
                frames[-2].update(names)
                i = j
        elif t in ")}]":
            if len(frames) > 1:
                frames.pop()
        elif t in ("λ", "\\"):
            i += 1
            while i < len(tokens) and not tokens[i].endswith("."):
                if not re.fullmatch(r"[(){}\[\];,:]", tokens[i]):
                    frames[-1].add(tokens[i])
                i += 1
            if i < len(tokens):
                frames[-1].add(tokens[i][:-1])
        elif t == "=" and left and len(frames) == 1:
            left = False
            frames[0].update(bound_left)
        elif t.startswith(".") or t in (":", "=", "→", "×", ";", ",", "←"):
            pass
        elif i + 1 < len(tokens) and tokens[i + 1] == "=" and len(frames) > 1:
            pass  # the label of a field or of an implicit argument
        elif left:
            bound_left.add(t)
        else:
            for name in (t, t.split(".")[0]):  # of `r.x` the record alone
                if name and not any(name in frame for frame in frames):
                    free.add(name)
        i += 1
    return free, bound_left


def uses(text):
    """The crate that each name comes from which a file of code brings in: `use graph::Line;`, `use graph::{Block, Line as Row};`."""
    found = {}
    for crate, braced, name in re.findall(r"^(?:pub )?use (\w+)::(?:\w+::)*(?:\{([^}]*)\}|(\w+(?: as \w+)?));", text, re.M):
        for item in re.split(r",\s*", braced or name):
            found[item.split(" as ")[-1].strip()] = crate
    return found


class Repository:
    """All crates of crates.txt, read once."""

    def __init__(self):
        self.listed = re.findall(r"^(\w+)[^:\n]*:", (ROOT / "crates.txt").read_text(), re.M)
        self.files, self.types, self.functions, self.definitions, self.parts = {}, {}, {}, {}, {}
        for crate in self.listed:
            types, self.functions[crate] = code_of(crate)
            for name, kind in types.items():
                self.types[crate, name] = kind
            for folder in ("specs", "proofs"):
                for path in sorted((CRATES / crate / folder).rglob("*.antt")):
                    worked = path.name in ("Proof.antt", "Invariants.antt", "Answers.antt") and path.parent.parent != CRATES / crate
                    if path.name != "Lib.antt" and not worked:
                        self.add(File(crate, path))

    def add(self, file):
        self.files[file.crate, file.name] = file
        for definition in file.definitions:
            self.definitions[definition.key] = definition
            if definition.kind == "data":
                for part in definition.parts:
                    self.parts[Key(file.crate, file.name, part)] = definition.key

    def find(self, key):
        """The definition or type that a key names: itself, the data type of a constructor, or what another file re-exports."""
        if key is None:
            return None
        if key.file == "src":
            return self.types.get((key.crate, key.name))
        if key in self.definitions:
            return self.definitions[key]
        if key in self.parts:
            return self.definitions[self.parts[key]]
        file = self.files.get((key.crate, key.file))
        return self.find(file.imports.get(key.name)) if file else None

    def in_file(self, file, name):
        """What a name means in a file: its own definition or constructor, or an import."""
        own = Key(file.crate, file.name, name)
        return self.find(own if own in self.definitions or own in self.parts else file.imports.get(name))

    def cited(self, definition, whole=True):
        """What a definition names; without `whole` only its statement."""
        if isinstance(definition, Type):
            return self.cited_by_type(definition)
        file = self.files[definition.key.crate, definition.key.file]
        sections = definition.section.chain() if definition.section else []
        head = "\n".join([line for section in sections for line in section.lines] + [re.sub(r"^\s*(?:(?:pub|abbrev|unfoldable|record|data) )*", "", definition.head[0])] + definition.head[1:])
        bound = set(definition.parts) if definition.kind == "record" else set()
        outer = {name for section in sections for group in re.findall(r"[({]([^(){}:]+) : ", "\n".join(section.lines)) for name in group.split()}
        names = free_names(head)[0] - bound
        if whole:
            for clause in clauses(definition):
                free, pattern = free_names(clause, patterns=True)
                names |= free | {name for name in pattern if Key(file.crate, file.name, name) in self.parts or self.is_part(file.imports.get(name))}
        found = {}
        for name in sorted(names - outer):
            other = self.in_file(file, name)
            if other is not None and other is not definition:
                found[other.key] = other
        return found

    def is_part(self, key):
        return key is not None and (key in self.parts or key.file == "src" and key.name != key.name.lower())

    def cited_by_type(self, kind):
        """The types that a struct's fields or an enum's cases name: those of its crate and those that its file uses."""
        text = kind.path.read_text()
        used = uses(text)
        found = {}
        for name in re.findall(r"\b[A-Z]\w*", "\n".join(line for line in kind.lines if not line.lstrip().startswith("//"))):
            other = self.types.get((kind.key.crate, name)) or self.types.get((used.get(name), name))
            if other is not None and other is not kind:
                found[other.key] = other
        return found

    def named_by(self, function):
        """What the contract of a function names, and the types of what it takes and answers."""
        known = imports(function.text)
        text = "\n".join(line for line in function.lines if not re.match(r"\s*//", line))
        contract = text[min([m.start() for m in re.finditer(rf"(?m)^{CLAUSE}", text)] or [len(text)]) :]
        contract = re.sub(r"(?m)^\s*(requires|ensures)\*? (\w+ )?\{", "{", contract)
        found = {}
        for name in sorted(free_names(contract)[0]):
            other = self.find(known.get(name))
            if other is not None:
                found[other.key] = other
        used = uses(function.text)
        for crate, name in re.findall(r"(?:\b(\w+)::)?\b([A-Z]\w*)", text[: len(text) - len(contract)]):
            other = self.types.get((crate or used.get(name) or function.crate, name)) or self.types.get((function.crate, name))
            if other is not None:
                found[other.key] = other
        return found

    def reached(self, roots):
        """All that the roots name, and what these name, and so on: by key."""
        seen, todo = {}, list(roots)
        while todo:
            one = todo.pop()
            if one.key not in seen:
                seen[one.key] = one
                todo += self.cited(one).values()
        return seen

    def law(self, crate, name):
        """The public law of this name in the crate's proofs, if there is one."""
        for (of, _), file in self.files.items():
            if of == crate and file.name.startswith("proofs/"):
                for definition in file.definitions:
                    if definition.key.name == name and definition.public and definition.kind == "law" and "abbrev" not in definition.words:
                        return definition
        return None


def clauses(definition):
    """The clauses of a definition, each with the lines that continue it."""
    found = []
    for line in definition.body:
        if line.lstrip().startswith("--") or re.match(r"\s*unfolding ", line):
            continue
        if len(line) - len(line.lstrip()) == definition.indent:
            found.append(line.strip()[len(definition.key.name):] if line.strip().startswith(definition.key.name) else line.strip())
        elif found:
            found[-1] += "\n" + line
    return found
