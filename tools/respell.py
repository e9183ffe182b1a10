#!/usr/bin/env python3
"""Respells this repository's own specification names as Rattle's library spells its own: words in snake case, types in camel case.

usage: tools/respell.py [--list]      at the top of the repository; --list prints what it would rename, and changes nothing

A name is this repository's where a definition, a field, a parameter or a binding of a file of specs/ or proofs/, or an `as` of
an import, makes it. Names that come from a library, and the names that the check makes of the code (goals, calls, branches),
stay as they are, and so do the names of the code itself.
"""
import collections
import os
import re
import sys

NAME = r"[A-Za-zα-ω][A-Za-zα-ω0-9_'₀-₉]*(?:[-·][A-Za-zα-ω0-9_'₀-₉]+)*"
TOKEN = re.compile(r"(?<![\w'₀-₉·-])(" + NAME + r")")
KEYWORDS = r"(?:(?:abbrev|unfoldable|pub|opaque|record|data|ruleset|syntax)\s+)*"
MAKES = [
    re.compile(r"^\s*" + KEYWORDS + "(" + NAME + r")\s*:(?!:)"),
    re.compile(r"^\s*" + KEYWORDS + r"(?:record|data)\s+(" + NAME + r")\b"),
    re.compile(r"\bas\s+(" + NAME + r")"),
    re.compile(r"\blet\s+(" + NAME + r")\s*[:=]"),
    re.compile(r"λ\s*\(?\s*(" + NAME + r")\b"),
]
ARGUMENTS = re.compile(r"^\s*" + NAME + r"((?:\s+" + NAME + r")+)\s*=(?!\S)")
BINDER = re.compile(r"[({]\s*(" + NAME + r"(?:\s+" + NAME + r")*)\s*:(?!:)")
MADE_BY_CHECK = re.compile(r"\b(?:goal|given)\.(" + NAME + r")|\b(" + NAME + r")\s*:\s*(?:goal|given)\.")
USE = re.compile(r"^\s*(?:ghost\s+)?(?:pub\s+)?use\s+([\w.·'-]+?)(?:\.\{([^}]*)\})?(?:\s+as\s+(" + NAME + r"))?;?\s*$")


def files():
    for folder, dirs, names in os.walk("crates"):
        dirs[:] = sorted(d for d in dirs if d != "out")
        for name in sorted(names):
            if name.endswith((".antt", ".rt", ".edit")):
                yield os.path.join(folder, name)


def own_crates():
    return {c for c in os.listdir("crates") if os.path.isdir(os.path.join("crates", c, "src"))}


def code_of(line, path):
    """The line without its comment, and the comment."""
    mark = "--" if path.endswith(".antt") else "//"
    if path.endswith(".antt"):
        found = re.search(r"(?:^|\s)--(?:\s|$)", line)
        return (line[: found.start()], line[found.start() :]) if found else (line, "")
    at = line.find(mark)
    return (line[:at], line[at:]) if at >= 0 else (line, "")


def odd(name):
    return "-" in name or re.search(r"^[a-z][a-z0-9]*[A-Z]", name) or "·" in name


def respelled(name):
    if name[0].isupper() and "-" in name:
        return "".join(part[0].upper() + part[1:] for part in re.split("[-·]", name))
    name = re.sub("[-·]", "_", name)
    return re.sub(r"([a-z0-9])([A-Z])", lambda m: m.group(1) + "_" + m.group(2).lower(), name)


def names():
    made, by_check, foreign, seen = collections.Counter(), set(), set(), collections.Counter()
    crates = own_crates()
    for path in files():
        if path.endswith(".edit"):
            continue
        for line in open(path, encoding="utf-8"):
            code, _ = code_of(line.rstrip("\n"), path)
            for token in TOKEN.findall(code):
                seen[token] += 1
            use = USE.match(code)
            if use:
                parts = use.group(1).split(".")
                ours = parts[0] == "Rattle" and len(parts) > 1 and parts[1] in crates
                generated = parts[-1] in ("Goals", "Given")
                for item in (use.group(2) or "").split(","):
                    item = item.strip()
                    old = item.split(" as ")[0].strip()
                    if old and not ours:
                        foreign.add(old)
                    if old and generated:
                        by_check.update(old.split("+"))
            for found in MADE_BY_CHECK.finditer(code):
                by_check.add(found.group(1) or found.group(2))
            if path.endswith(".antt"):
                for form in MAKES:
                    for name in form.findall(code):
                        made[name] += 1
                for group in ARGUMENTS.findall(code) + BINDER.findall(code):
                    for name in group.split():
                        made[name] += 1
            else:
                for name in re.findall(r"\bas\s+(" + NAME + r")", code):
                    made[name] += 1
    return {n: respelled(n) for n in made if odd(n) and n not in by_check and n not in foreign}, seen, by_check, foreign, made


def turn(path, renames):
    lines = open(path, encoding="utf-8").read().split("\n")
    edits_specs = path.endswith(".edit") and lines[0].startswith(("file: specs/", "file: proofs/"))
    if path.endswith(".edit") and not edits_specs:
        return False
    out = []
    for line in lines:
        code, comment = code_of(line, path) if not path.endswith(".edit") else (line, "")
        if path.endswith(".rt"):
            # the text of strings is the program's own
            parts = re.split(r'("(?:[^"\\]|\\.)*")', code)
            code = "".join(p if p.startswith('"') else swap(p, renames) for p in parts)
        else:
            code = swap(code, renames)
        out.append(code + comment)
    if out != lines:
        open(path, "w", encoding="utf-8").write("\n".join(out))
        return True
    return False


def swap(text, renames):
    return TOKEN.sub(lambda m: renames.get(m.group(1), m.group(1)), text)


def main():
    renames, seen, by_check, foreign, made = names()
    together = collections.defaultdict(list)
    for old, new in renames.items():
        together[new].append(old)
    for new, olds in sorted(together.items()):
        if len(olds) > 1:
            print(f"fall together: {' '.join(sorted(olds))} as {new}")
        if new in seen:
            print(f"there already: {new}, which {olds[0]} would become")
    if "--list" in sys.argv:
        for old in sorted(renames):
            print(f"{old} {renames[old]}")
        for name in sorted(n for n in seen if odd(n) and n not in renames and n[0].islower()):
            print(f"stays: {name} {'check' if name in by_check else ''} {'library' if name in foreign else ''} {'made' if name in made else ''}")
        return 0
    changed = sum(turn(p, renames) for p in files())
    print(f"{len(renames)} names respelled in {changed} files")
    return 0


if __name__ == "__main__":
    raise SystemExit(main())
