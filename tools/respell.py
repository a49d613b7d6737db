#!/usr/bin/env python3
"""Respells the repository's own definitions and lemmas as today's Rattle has names: words in snake case, facts and types in camel case, a dash between two names.

usage: python3 tools/respell.py [--plan]     in the repository, once, after the kit's port/port.py; --plan writes nothing

It goes by whole names. Names of src/ (functions, fields, variants), strings and comments in English stay. The table of what was renamed is docs/respelled.tsv.
Where two names would fall together in a file, the lemma gets `_lem` behind it.
"""

import collections
import os
import re
import sys

STD = """length take drop set get_or min max map append reverse add mul sub div mod pow shl shr zero suc some none true false fst snd
all any sum replicate range index insert swap concat filter fold count nth head tail last pick cons nil""".split()
NAME = r"[^\s(){}\[\],;.λ→\"`∷≡×]+"
MODS = r"(?:(?:abbrev|unfoldable|pub|instance|private|opaque)\s+)*"


def files(root):
    for folder, dirs, names in os.walk(os.path.join(root, "crates")):
        dirs[:] = sorted(d for d in dirs if d != "out")
        for n in sorted(names):
            if n.endswith((".rt", ".antt")):
                yield os.path.join(folder, n)


def declared(text, path):
    """Names that a file declares, each with whether its type is a type (a fact)."""
    lines = text.split("\n")
    spec = "/specs/" in path
    out = []
    for i, l in enumerate(lines):
        m = re.match(rf"^(\s*){MODS}(?:(data|record)\s+)?({NAME})((?:\s+[({{][^)}}]*[)}}])*)\s+:(?:\s+(.*)|$)", l)
        if not m or l.lstrip().startswith(("--", "use ", "|", "record {")) or re.match(r"^\s+(let|in|λ)", l):
            continue
        sig = m.group(5) or ""
        j = i + 1
        while j < len(lines) and lines[j].strip() and len(lines[j]) - len(lines[j].lstrip()) > len(m.group(1)) and not re.match(rf"^\s*{MODS}{NAME}\s+:", lines[j]):
            sig += " " + lines[j].strip()
            j += 1
        if re.match(r"tie\.", sig) or ".Tie" in sig:
            continue
        if len(m.group(1)) > 4:
            continue
        fact = bool(re.search(r"(^|→\s*)Type\b[^→]*$", sig.split(" where")[0].strip()))
        out.append((m.group(3), fact, spec, len(m.group(1))))
    return out


def snake(word):
    return re.sub(r"(?<=[a-z0-9])([A-Z])", r"_\1", word).lower()


def camel(word):
    return "".join(p[:1].upper() + p[1:] for p in re.split(r"[-_]", word))


def plain_code(text):
    """A source without ghost lines, clauses, comments and strings."""
    text = re.sub(r"(?m)//.*$", "", text)
    text = re.sub(r'"(\\.|[^"\\])*"', '""', text)
    text = re.sub(r"ghost use [^;]*;", "", text, flags=re.S)
    out, i = "", 0
    for m in re.finditer(r"\b(requires|ensures|ghost|invariant)\*?[ \w]*\{", text):
        if m.start() < i:
            continue
        out += text[i:m.start()]
        depth, j = 1, m.end()
        while depth and j < len(text):
            depth += {"{": 1, "}": -1}.get(text[j], 0)
            j += 1
        i = j
    return out + text[i:]


def main(argv):
    root = os.getcwd()
    texts = {p: open(p, encoding="utf-8").read() for p in files(root)}
    source = set()
    for p, t in texts.items():
        if p.endswith(".rt"):
            source |= set(re.findall(r"[A-Za-z_]\w*", plain_code(t)))
    names, inner = {}, set()
    for p, t in texts.items():
        if p.endswith(".antt"):
            for n, fact, spec, depth in declared(t, p):
                f, s = names.get(n, (False, False))
                names[n] = (f or fact, s or spec)
                if depth:
                    inner.add(n)
    words = {n for n in names if re.fullmatch(r"[a-z][a-z0-9_]*'?", n)} | {snake(n) for n, (f, s) in names.items() if re.fullmatch(r"[a-z][A-Za-z0-9]*", n)}
    known = words | set(STD)
    sentences = {n.lower() for n, (f, s) in names.items() if re.match(r"[A-Z]", n) and "-" in n}

    def dashed(n):
        parts = [snake(p) for p in n.split("-")]
        if n.lower() in sentences or n.endswith("-spec") or re.search(r"-\d+$", n):
            return "_".join(parts)
        out, i, was = "", 0, None
        while i < len(parts):
            for j in range(len(parts), i, -1):
                seg = "_".join(parts[i:j])
                if seg in known and not (i == 0 and j == len(parts)):
                    break
            else:
                j, seg = i + 1, parts[i]
            here = seg in known
            out += ("" if was is None else "-" if was and here else "_") + seg
            was, i = here, j
        return out

    plan = {}
    for n, (fact, spec) in names.items():
        base = n
        if re.search(r"[^A-Za-z0-9_'\-]", n) and not re.fullmatch(r"◌?[A-Za-z][A-Za-z0-9\-]*◌?", n):
            continue
        if n in source and "-" not in n:
            continue
        if re.match(r"[A-Z]", n):
            if "-" in n:
                new = camel(n)
            else:
                continue
        elif fact and re.match(r"[a-z]", n) and re.search(r"[A-Z\-]", n) and n not in inner:
            new = camel(n)
        elif "-" in n:
            new = dashed(n)
        else:
            new = snake(n)
        if new != base:
            plan[n] = new

    token = {p: set(re.findall(r"(?<![.A-Za-z0-9_'\-◌₀-₉])[A-Za-z0-9_'\-◌₀-₉]+(?![.A-Za-z0-9_'\-◌₀-₉])", re.sub(r"(?m)(^|\s)(--|//)(\s.*)?$", "", t))) for p, t in texts.items()}
    params = {p: set(re.findall(r"\b([a-z_]\w*)\s*:(?!:)", plain_code(t))) if p.endswith(".rt") else set() for p, t in texts.items()}
    for _ in range(6):
        clash = {}
        for p, t in token.items():
            to = collections.defaultdict(set)
            for w in t:
                to[plan.get(w, w)].add(w)
            for new, olds in to.items():
                if len(olds) > 1 and any(o in plan for o in olds) and p.endswith(".antt"):
                    clash.setdefault(new, set()).update(olds)
                if p.endswith(".rt") and new in params[p] and any(o in plan for o in olds):
                    clash.setdefault(new, set()).update(olds)
        if not clash:
            break
        for new, olds in sorted(clash.items()):
            moved = sorted((o for o in olds if o in plan), key=lambda o: ("-" not in o, o))
            if os.environ.get("SHOW"):
                print("clash", new, sorted(olds))
            keep = len(moved) == len(olds)
            for k, o in enumerate(moved):
                if keep and k == len(moved) - 1:
                    continue
                plan[o] = plan[o] + ("_lem" if "-" in o else "_of")
    else:
        print("names still fall together")
    print(len(names), "names,", len(plan), "respelled")
    if "--plan" in argv:
        for o, n in sorted(plan.items()):
            print(o, n, sep="\t")
        return 0

    def turn(text, path):
        rt = path.endswith(".rt")

        def name(m):
            w = m.group(0)
            if w not in plan:
                return w
            before = text[m.start() - 1: m.start()]
            if before == "." and path.endswith("/Proof.antt") and "-" in w and not re.match(r"[A-Z]", w) and not re.search(r"(?:\bthis|[a-z0-9]-[a-z]+)\.$", text[max(0, m.start() - 30): m.start()]) and w not in spec_names:
                return w
            return plan[w]

        out = []
        for line in text.split("\n"):
            mark = "//" if rt else "--"
            cut = re.search(r"(^|\s)" + re.escape(mark) + r"(\s|$)", line) if not (rt and '"' in line) else None
            code, said = (line, "") if not cut else (line[: cut.start()], line[cut.start():])
            out.append((code, said))
        text_lines = []
        for code, said in out:
            text = code
            if rt:
                pieces = re.split(r'("(?:\\.|[^"\\])*")', code)
                for i in range(0, len(pieces), 2):
                    text = pieces[i]
                    pieces[i] = re.sub(r"[A-Za-z0-9_'\-◌₀-₉]+", name, text)
                code = "".join(pieces)
            else:
                code = re.sub(r"[A-Za-z0-9_'\-◌₀-₉]+", name, code)
            text = said
            said = re.sub(r"[A-Za-z0-9_'\-]+", lambda m: plan.get(m.group(0), m.group(0)) if re.search(r"[a-z][A-Z]|^[A-Z]\w*-", m.group(0)) else m.group(0), said)
            text_lines.append(code + said)
        return "\n".join(text_lines)

    spec_names = {n for n, (f, s) in names.items() if s}
    for p, t in texts.items():
        n = turn(t, p)
        if n != t:
            with open(p, "w", encoding="utf-8") as f:
                f.write(n)
    if "--table" not in argv:
        with open(os.path.join(root, "docs", "respelled.tsv"), "w", encoding="utf-8") as f:
            f.write("was\tis\n" + "".join(f"{o}\t{n}\n" for o, n in sorted(plan.items())))
    return 0


if __name__ == "__main__":
    raise SystemExit(main(sys.argv[1:]))
