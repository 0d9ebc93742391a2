#!/usr/bin/env python3
"""Brings the repository's own definitions and lemmas to the spelling of today's Rattle: words in snake case, a prime as an apostrophe.

usage: tools/respell.py [--dry] [ROOT]

Run once, after the kit's port.py. In .antt files each word in lower camel case, and each own definition or lemma with a dash, becomes snake case; in .rt files
only lines of clauses and of `ghost use` change, so functions, exported names and strings stay. Where a new name stands in a file already, the pair is printed.
"""
import glob
import os
import re
import sys

WORD = re.compile(r"[^\W\d][\w'\u2032]*(?:-[\w'\u2032]+)*(?:-)?|[\u0300-\U0010ffff]")
TOKEN = re.compile(r"[^\s(){}\[\].,;:=\u2261\u2192\u03bb\u00d7\u2295\u228e\u00ab\u00bb\u2237\u25cc|&+*/<>\u2264\u2262\u2194\u2190\u2192\u27e8\u27e9\u22a5@\"]+")
CAMEL = re.compile(r"[a-z][a-z0-9]*[A-Z]")
DEFINED = re.compile(r"^\s*(?:unfoldable |abbrev |pub )*([a-z][^\s:(){}]*)(?: \{[^}]*\})? :(?:\s|$)")
# facts that had a word's spelling: module, then old and new name
FACTS = {
    "Rattle.model.specs.Given": {"given(?= [0-9n(:])": "GivenWhen", "named(?= [s:] ?)": "GivenNamed", "writing(?= [s:] ?)": "GivenWriting", "given(?=[,}])": "GivenWhen", "named(?=[,}])": "GivenNamed"},
    "Rattle.step.proofs.Keeping": {"keeps": "Keeps"},
    "Rattle.table_buckets.specs.Upstream": {
        "sorted": "IsSorted",
        "in_range": "IsInRange",
        "contains": "Contains",
        "first_invalid": "IsFirstInvalid",
        "bucket_result": "BucketResult",
        "equivalent_results": "EquivalentResults",
        "unique_buckets": "UniqueBuckets",
    },
}
# own lemmas whose dash port.py took, and whose new name a definition gets now: the dash is put back
DASHED = """found_first has_ended in_order in_place is_read keep_all kept_by kept_in key_in list_at listed_in match_by no_key one_more place_found pointer_in read_at read_view
reads_in rows_in same_key set_next step_in too_many too_short update_all written_at""".split()


def snake(word):
    """lower camel case and dashes to snake case"""
    word = word.replace("\u2032", "'")
    word = re.sub(r"(?<=[a-z0-9'])([A-Z])(?=[A-Z]?[a-z0-9_'-]|$)", lambda m: "_" + m.group(1).lower(), word)
    return word


def dashed(f, text):
    """the lemmas of DASHED with their dash again, where they are not a part of a path, a field or a function's own name"""
    if f.endswith(".rt"):
        return text
    for w in DASHED:
        text = re.sub(r"(?<![\w'-])" + w + r"(?![\w.'-])", w.replace("_", "-"), text)
    return text


def facts(f, text):
    """the names of FACTS in the module that defines them and in those that bring them in"""
    for module, names in FACTS.items():
        own = f.endswith("crates/" + module[len("Rattle."):].replace(".", "/") + ".antt")
        if not own and "use " + module + "." not in text:
            continue
        brought = set()
        for m in re.finditer(r"use " + re.escape(module) + r"\.\{([^}]*)\}", text):
            brought |= {w.strip() for w in m.group(1).split(",")}
        for w, fact in names.items():
            if own or w.split("(")[0] in brought:
                lines = [l if l.lstrip().startswith("--") else re.sub(r"(?<![\w.'-])" + w + r"(?![\w.'-])", fact, l) for l in text.split("\n")]
                text = "\n".join(lines)
    return text


def own_files(root):
    for ext in ("antt", "rt"):
        for f in sorted(glob.glob(os.path.join(root, "crates", "*", "**", "*." + ext), recursive=True)):
            if "/out/" not in f:
                yield f


def walks(f):
    """a file of a function's own folder: what it names besides its own lemmas the check makes"""
    return "/proofs/" in f and os.path.basename(f) == "Proof.antt"


def definitions(files, texts):
    shared, local = set(), {}
    for f in files:
        if not f.endswith(".antt"):
            continue
        own = set()
        lines = texts[f].split("\n")
        for i, l in enumerate(lines):
            m = DEFINED.match(l)
            if not m:
                continue
            rest = l[m.end():] + " " + (lines[i + 1] if i + 1 < len(lines) else "")
            if walks(f) and re.match(r"\s*tie\.", rest):
                continue
            own.add(m.group(1))
        if walks(f):
            local[f] = {w for w in own if not w.endswith("-spec")}
        else:
            shared |= own
    return shared, local


def main(argv):
    dry = "--dry" in argv
    rest = [a for a in argv if not a.startswith("--")]
    root = rest[0] if rest else "."
    files = list(own_files(root))
    texts = {f: dashed(f, open(f, encoding="utf-8").read()) for f in files}
    shared, local = definitions(files, texts)
    said, renamed = set(), {}
    for f in files:
        if f.endswith(".rt"):
            continue
        names = shared | local.get(f, set())

        def new(word, names=names):
            if not CAMEL.match(word):
                return word
            return snake(word)

        words = set(TOKEN.findall(texts[f]))
        made = {}
        for w in words:
            n = new(w)
            if n != w:
                if n in words:
                    said.add((os.path.relpath(f, root), w, n))
                if n in made:
                    said.add((os.path.relpath(f, root), w + " and " + made[n], n))
                made[n] = w
                renamed[w] = n
        if not dry:
            out = []
            for line in texts[f].split("\n"):
                if line.lstrip().startswith("--"):
                    line = re.sub(r"`([^`]+)`", lambda m: "`" + TOKEN.sub(lambda t: renamed.get(t.group(0), t.group(0)), m.group(1)) + "`", line)
                else:
                    line = TOKEN.sub(lambda t: new(t.group(0)), line)
                out.append(line)
            open(f, "w", encoding="utf-8").write("\n".join(out))
    if not dry:
        for f in files:
            if f.endswith(".antt"):
                text = open(f, encoding="utf-8").read()
                open(f, "w", encoding="utf-8").write(facts(f, text))
    for f in files:
        if not f.endswith(".rt"):
            continue
        out, depth = [], 0
        for line in texts[f].split("\n"):
            s = line.lstrip()
            ghost = s.startswith(("ghost use ", "ensures", "requires", "ghost ")) or depth > 0
            if ghost:
                depth += line.count("{") - line.count("}")
                line = TOKEN.sub(lambda t: snake(t.group(0)) if CAMEL.match(t.group(0)) or (t.group(0) in shared and "-" in t.group(0)) else t.group(0), line)
            out.append(line)
        if not dry:
            open(f, "w", encoding="utf-8").write("\n".join(out))
    for f, w, n in sorted(said):
        print(f"look: {f}: {w} is now {n}, which stands there already")
    clash = {}
    for w, n in renamed.items():
        clash.setdefault(n, set()).add(w)
    for n, ws in sorted(clash.items()):
        if len(ws) > 1 or n in shared:
            print(f"together: {', '.join(sorted(ws))} -> {n}" + (" (a definition already)" if n in shared else ""))
    print(f"respell: {len(renamed)} names")


if __name__ == "__main__":
    main(sys.argv[1:])
