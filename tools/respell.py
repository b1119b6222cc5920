#!/usr/bin/env python3
"""Brings the names of definitions, lemmas, fields and variables in .antt files, and where clauses of .rt files cite them, to snake case.

usage: tools/respell.py [--dry | --names]     at the top of the repository, once, after port.py

A name is respelled if it is declared in this repository: not if a library or Rattle itself makes it. Functions and types of src/ keep their names.
"""
import collections
import json
import os
import re
import sys

SKIP = set("()[]{};,\"«» \t\n.")
TOKEN = re.compile(r"[^\s()\[\]{};,\"«».]+")
DECLARED = re.compile(r"^(\s*)((?:pub |abbrev |unfoldable |private )*)(?:(record|data|ruleset) )?([^\s:(){}.;,=]+)(?:\s*\{[^}]*\})?\s*(:|\(|=)")

# Where the plain respelling would fall together with another name: what to take in its place.
CHOSEN = {
    "handed_out": "handed_out_lem",
    # port.py respelled its declaration, and not each use
    "is-open": "is_open",
    "bit-or": "bit_of_or",
    # port.py made this of getD-tabulate, and today's word for getD is get_or
    "get_d_tabulate": "get_or_tabulate",
    "block-fits": "block_fits_lem",
    "fresh-multiplexer": "fresh_multiplexer_lem",
    "has-line": "has_line_lem",
    "keys-refused": "refused_keys",
    "located-on": "located_on_lem",
    "marked-in": "marked_in_lem",
    "no-parameters": "no_parameters_lem",
    "port-right": "port_right_lem",
    "start-refused": "refused_start",
    "text-after": "text_after_lem",
    "text-bytes": "text_bytes_lem",
    "put-back": "put_back_lem",
    "marked_by": "marked_by_lem",
}


def texts(root="crates"):
    for folder, dirs, files in os.walk(root):
        dirs[:] = sorted(d for d in dirs if d != "out")
        for f in sorted(files):
            if f.endswith((".antt", ".rt")):
                yield os.path.join(folder, f)


def of_function(path):
    return os.path.basename(os.path.dirname(path)) not in ("specs", "proofs")


def code(line):
    """The line up to its comment."""
    at = re.search(r"(^|\s)--(\s|$)", line)
    return (line[:at.start()], line[at.start():]) if at else (line, "")


def snake(name):
    name = name.replace("′", "'")
    name = name.replace("-", "_")
    name = re.sub(r"IfLF", "_if_lf", name)
    name = re.sub(r"gotoXY", "goto_xy", name)
    name = re.sub(r"MouseText", "_mousetext", name)
    if name[:1].islower() or not name[:1].isalpha():
        name = re.sub(r"([a-z0-9])([A-Z])", lambda m: m.group(1) + "_" + m.group(2).lower(), name)
    return name


def imports(text):
    """Names that a file takes from elsewhere: those of a library, those of this repository."""
    lib, own = set(), set()
    for m in re.finditer(r"(?m)^(?:ghost )?use ([^\s{;]+?)(?:\.\{([^}]*)\})?;?$", text):
        names = {n.strip() for n in (m.group(2) or "").split(",") if n.strip()}
        here = m.group(1).startswith("Rattle.") and os.path.isdir(os.path.join("crates", m.group(1).split(".")[1]))
        (own if here else lib).update(names)
    return lib, own


def collect():
    declared, fields, where = collections.defaultdict(set), set(), collections.defaultdict(set)
    libs, used = collections.defaultdict(set), collections.Counter()
    for path in texts():
        text = open(path).read()
        lib, own = imports(text)
        libs[path] = lib
        if not path.endswith(".antt"):
            continue
        for line in text.splitlines():
            body, _ = code(line)
            for t in TOKEN.findall(body):
                used[t] += 1
            if body.startswith(("use ", "pub mod", "mod ")):
                continue
            m = DECLARED.match(body)
            if m and (m.group(5) == ":" or m.group(3)):
                name = m.group(4)
                if of_function(path) and not m.group(1):
                    continue
                if m.group(1) and "pub " in m.group(2):
                    fields.add(name)
                declared[name].add(path)
            # what a term binds
            for b in re.findall(r"\(([^():]+) : ", body):
                for n in b.split():
                    declared[n].add(path)
            for b in re.findall(r"\{([^{}():]+) : ", body):
                for n in b.split():
                    declared[n].add(path)
            for b in re.findall(r"λ ([^.()]+)\.", body):
                for n in b.split():
                    declared[n].add(path)
            for n in re.findall(r"\blet ([^\s:=]+)", body):
                declared[n].add(path)
            # the patterns of a clause
            m = re.match(r"^\s*[^\s]+((?: (?:[^\s=]+|\([^=]*\)))+) =(?:\s|$)", body)
            if m:
                for n in TOKEN.findall(m.group(1)):
                    declared[n].add(path)
    return declared, fields, libs, used


def needs(name):
    return "-" in name[1:] or "′" in name or (name[:1].islower() and re.search(r"[a-z0-9][A-Z]", name))


def plan():
    declared, fields, libs, used = collect()
    every_lib = set().union(*libs.values())
    out = {}
    for n in declared:
        if not needs(n) and n not in CHOSEN or n in every_lib and not any(n not in libs[p] for p in declared[n]):
            continue
        if re.search(r"[→≡◌λ]", n) or n.startswith("--"):
            continue
        out[n] = CHOSEN.get(n, snake(n))
    out.update(CHOSEN)
    return out, declared, fields, libs, used


def main(argv):
    names, declared, fields, libs, used = plan()
    if "--names" in argv:
        print(json.dumps(names, ensure_ascii=False, indent=0, sort_keys=True))
        return
    if "--dry" in argv:
        every_lib = set().union(*libs.values())
        back = collections.defaultdict(set)
        for old, new in names.items():
            back[new].add(old)
        for new, olds in sorted(back.items()):
            more = []
            if len(olds) > 1:
                more.append("together")
            if new in declared:
                more.append("own:" + ",".join(sorted(os.path.relpath(p, "crates") for p in declared[new]))[:150])
            if new in every_lib:
                more.append("lib")
            if more:
                print(new, sorted(olds), more, [sorted(os.path.relpath(p, "crates") for p in declared[o])[:3] for o in sorted(olds)])
        for path in texts():
            text = "\n".join(code(l)[0] for l in open(path).read().splitlines())
            here = collections.defaultdict(set)
            for t in TOKEN.findall(text):
                here[t if t not in names or t in libs[path] else names[t]].add(t)
            for new, olds in here.items():
                if len(olds) > 1:
                    print("SAME FILE", path, new, sorted(olds))
        print(len(names))
        return
    for path in texts():
        text = open(path).read()
        lib = libs[path]
        antt = path.endswith(".antt")

        def respell(body):
            def one(m):
                t = m.group(0)
                if t not in names or t in lib:
                    return t
                before = body[:m.start()]
                if before.endswith(("tie.", ".Goals.", ".Given.")):
                    return t
                return names[t]
            return TOKEN.sub(one, body)

        lines, inside = [], 0
        for line in text.splitlines(keepends=True):
            if antt:
                body, comment = code(line.rstrip("\n"))
                comment = re.sub(r"`[^`]*`", lambda m: respell(m.group(0).replace("`", " ` ")).replace(" ` ", "`"), comment)
                lines.append(respell(body) + comment + "\n")
            else:
                s = line.strip()
                if s.startswith(("ghost use", "requires", "ensures", "ghost ")) or inside:
                    lines.append(respell(line.rstrip("\n")) + "\n")
                    inside += line.count("{") - line.count("}")
                    inside = max(inside, 0) if not s.startswith("ghost use") else 0
                else:
                    lines.append(line)
        new = "".join(lines)
        if new != text:
            open(path, "w").write(new)


if __name__ == "__main__":
    main(sys.argv[1:])
