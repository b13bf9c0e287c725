#!/usr/bin/env python3
# Respells the repository's own definitions and lemmas after port.py, once, at the top: words in snake case, types in camel case.
# A lemma whose new name a definition already has gets _lem. Functions of src/, strings, inputs and outputs keep their names.
import collections
import glob
import re
import subprocess
import sys

IDENT = r"[^\s(){}\[\].,;:`\"|λ∷×→≡=]"
WORD = re.compile(IDENT + "+")


def lemma_files():
    specs = glob.glob("crates/*/specs/**/*.antt", recursive=True)
    return sorted(specs + glob.glob("crates/*/proofs/*.antt"))


def declared(path):
    """The names that a file declares at its top, in a module or as a member of a type."""
    names, member = [], False
    for line in open(path, encoding="utf-8"):
        if line.startswith("--") or not line.strip():
            continue
        if re.match(r"\s*(?:pub\s+)?(?:data|record)\s", line):
            name = [w for w in line.split() if w not in ("pub", "data", "record")][0]
            names.append(name)
            member = True
            continue
        signature = re.match(r"(\s*)(?:(?:abbrev|unfoldable|pub)\s+)*(" + IDENT + r"+(?:\s+" + IDENT + r"+)*)\s+:\s", line)
        nested = re.match(r"\s+pub\s", line)
        if signature and (not signature.group(1) or member or nested or len(signature.group(1)) == 2):
            words = signature.group(2).split()
            if len(words) == 1 or not signature.group(1) or member:
                names += words if member else words[-1:]
        if not line.startswith(" "):
            member = False
    return names


def snake(name):
    if not re.search(r"[a-z][A-Z]|-", name) or "◌" in name:
        return name
    if re.match(r"[A-Z]", name) and "-" not in name:
        return name
    parts = []
    for part in name.split("-"):
        if re.match(r"[A-Z]", part):
            parts.append(part)
        else:
            parts.append(re.sub(r"(?<=[a-z0-9])([A-Z]+)", lambda m: "_" + m.group(1).lower(), part))
    return "_".join(parts)


def main():
    names = collections.Counter()
    defined = set()
    for path in lemma_files():
        for name in declared(path):
            names[name] += 1
            if "/specs/" in path:
                defined.add(name)
    new = {}
    for name in sorted(names, key=lambda n: (n not in defined, n)):
        to = snake(name)
        if to == name:
            continue
        # a definition keeps the plain name: a lemma or a constructor of another module may have it too
        if name not in defined and (to in names or to in new.values()):
            to += "_lem"
        if name not in defined and (to in names or to in new.values()):
            sys.exit(f"respell: two names would be {to}")
        new[name] = to
    if len(sys.argv) > 1:
        for name in sorted(new):
            print(name, new[name])
        return
    listed = subprocess.run(["git", "ls-files"], capture_output=True, text=True, check=True).stdout.split("\n")
    changed = 0
    for path in listed:
        if not path.endswith((".antt", ".rt", ".edit", ".md")) or path.startswith("docs/PORT"):
            continue
        text = open(path, encoding="utf-8").read()
        prose = path.endswith(".md")

        def one(match):
            word = match.group(0)
            if path.endswith(".rt") and "-" in word:
                return word
            if prose and "-" in word:
                return word
            return new.get(word, word)

        turned = WORD.sub(one, text)
        if prose:
            turned = re.sub(r"`([a-z]+(?:-[a-z0-9]+)+)`", lambda m: "`" + new.get(m.group(1), m.group(1)) + "`", turned)
        if turned != text:
            open(path, "w", encoding="utf-8").write(turned)
            changed += 1
    print(f"respell: {len(new)} names in {changed} files")


main()
