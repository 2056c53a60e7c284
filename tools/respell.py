#!/usr/bin/env python3
"""Respells the definitions and lemmas of this repository: snake_case in place of camelCase and of hyphens.

usage: tools/respell.py [FOLDER]      (default: this repository)

Names are what specs/ and the lemma files of proofs/ declare: definitions, lemmas, fields of records, constructors. Types keep their spelling, and so do
names of the kit, functions of src/ and exported names. A lemma that would fall together with a definition gets `_lem`. Run once, right behind the porting script.
"""
import collections
import glob
import os
import re
import sys

HERE = os.path.dirname(os.path.realpath(__file__))
TOP = next((a for a in sys.argv[1:] if not a.startswith("--")), os.path.dirname(HERE))
TOKEN = re.compile(r"[^\s(){}\[\],;.:λ\"⟨⟩`]+")
DECLARED = re.compile(r"^( *)((?:(?:pub|abbrev|unfoldable|record|data|mutual|instance)\s+)*)([^\s(){}\[\]:,;.=]+(?: +[^\s(){}\[\]:,;.=]+)*) *((?:[({].*)?):(?: |$)")
WORKED = ("Proof.antt", "Invariants.antt", "Answers.antt", "Lib.antt")


def files(pattern):
    return sorted(glob.glob(os.path.join(TOP, pattern), recursive=True))


def antt():
    return [f for f in files("crates/*/specs/**/*.antt") + files("crates/*/proofs/**/*.antt") if "/out/" not in f]


def text_of(file):
    with open(file, encoding="utf-8") as it:
        return it.read()


def snake(name):
    """The name in snake case, where it is a word; a type keeps its spelling."""
    if not re.match(r"[a-z]", name):
        return name
    if not re.fullmatch(r"[a-zA-Z0-9_'₀₁₂₃-]+", name):
        return name
    name = re.sub(r"([a-z0-9])([A-Z])", lambda m: m[1] + "_" + m[2].lower(), name)
    return name.replace("-", "_").lower()


def declared():
    """Every name that is declared, with the files that declare it."""
    names = collections.defaultdict(set)
    for file in antt():
        if "/proofs/" in file and os.path.basename(file) in WORKED:
            continue
        for line in text_of(file).splitlines():
            if line.lstrip().startswith(("--", "use ")):
                continue
            m = DECLARED.match(line)
            if m and (not m[1] or "pub" in m[2] or m[1] in ("  ", "    ")):
                words = m[3].split()
                if len(words) > 1 and not m[1]:
                    continue
                for word in words:
                    names[word].add(file)
    return names


def imports(text):
    """The names that the file brings from the kit."""
    found = set()
    for m in re.finditer(r"(?m)^(?:ghost )?use ([^\s{]+?)\.?\{([^}]*)\}|^(?:ghost )?use ([^\s{;]+)", text):
        path = m[1] or m[3]
        if re.match(r"Rattle\.(?!std\b|io\b|libc\b|core\b)", path):
            continue
        for word in re.split(r",\s*", m[2] or ""):
            found.add(word.split(" as ")[-1].strip())
    return found


def main():
    names = declared()
    turned = {n: snake(n) for n in names if snake(n) != n}
    met = collections.defaultdict(set)
    for n in names:
        met[turned.get(n, n)].add(n)
    apart = {}  # names in snake case already that give way in the files of proofs/ which declare or bring them
    for k, v in sorted(met.items()):
        if len(v) < 2:
            continue
        for n in v:
            if "-" in n:
                turned[n] = k + "_lem"
        if k in v and any("-" not in n and n != k for n in v):
            apart[k] = k + "_lem"
    of_kit = {w for f in antt() for w in imports(text_of(f))}
    for n, new in turned.items():
        if new in of_kit and "-" in n:
            turned[n] = new + "_lem"
    now = collections.defaultdict(set)
    for n in names:
        now[turned.get(n, n)].add(n)
    for k, v in sorted(now.items()):
        if len(v) > 1 and not (len(v) == 2 and k in apart):
            print(f"fall together: {k}: {', '.join(sorted(v))}")
    print(f"{len(turned)} names turned, {len(apart)} that stood in snake case give way")
    for file in antt() + files("crates/*/src/**/*.rt"):
        text = text_of(file)
        kit = imports(text)
        here = dict(turned)
        if "/proofs/" in file:
            brought = {w.strip() for m in re.finditer(r"(?m)^use Rattle\.\w+\.proofs\.[^\s{]+\.\{([^}]*)\}", text) for w in m[1].split(",")}
            for k in apart:
                if k in brought or file in names.get(k, ()):
                    here[k] = apart[k]
        is_code = file.endswith(".rt")
        bare = re.sub(r"--[^\n]*|//[^\n]*", "", text)
        tokens = set(TOKEN.findall(bare))
        for word in sorted(tokens & set(here) - kit):
            if here[word] in tokens | kit and here[word] not in apart:
                print(f"look: {os.path.relpath(file, TOP)}: {word} -> {here[word]}, which stands there already")

        def turn(m):
            return m[0] if m[0] in kit else here.get(m[0], m[0])

        lines = []
        for line in text.splitlines():
            clause = re.match(r"\s*(ghost |requires|ensures|//|&&|×|∧)", line) or re.search(r"[a-z][A-Z]", line)
            lines.append(TOKEN.sub(turn, line) if not is_code or clause else line)
        new = "\n".join(lines) + "\n"
        if new != text and "--list" not in sys.argv:
            with open(file, "w", encoding="utf-8") as it:
                it.write(new)


if __name__ == "__main__":
    main()
