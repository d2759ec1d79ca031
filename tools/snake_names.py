#!/usr/bin/env python3
"""Spells the repository's own definitions and lemmas as today's Rattle does: words in snake case.

usage: tools/snake_names.py         once, at the top, right after the port.py of the kit

    push-dirty, pairsOrdered, link-all-more  ->  push_dirty, pairs_ordered, link_all_more

Turned are names with a dash, and names in camel case that begin with a small letter, where they are bound in this repository: in
specs/, in the lemma files of proofs/, in the clauses of src/, in the texts of must-fail edits, and where a proof of a function cites them.
Names of the library, of what Rattle makes (goals, steps, declared types) and all other text stay.

Names that would fall together in some file are kept apart: a lemma gets `_lem`, a definition of level Words beside one of a higher level
gets `_words`. Those still alike are printed.
"""

import glob
import os
import re

W = r"[^\s(){}.;,@\"«»\[\]\\|]+"
TOKEN = re.compile(r"--[^\n]*|//[^\n]*|\"(?:[^\"\\\n]|\\.)*\"|«[^»]*»|" + W + r"|\n|.")
USE = re.compile(r"^(?:ghost )?(?:pub )?use ([^\s{;]+?)(?:\.\{(.*?)\}| as (\S+))?;?$", re.M)
MADE = re.compile(r"\.(?:declared|contracts)(?:\.|$)|\.proofs\.\S*(?:Reads|Lts\S*|Tie|Statement|Goals|Given|Met|Code|Proof)$")
DECLARED = re.compile(r"\s*((?:(?:abbrev|unfoldable|pub|instance|mutual|data|record|module|irreducible)\s+)*)(" + W + r")\s.*?:\s")
ODD = re.compile(r"^(?=.*[A-Za-z])(?:.*[^-]-[^->].*|[a-z]\w*[A-Z]\w*'*)$")


def snake(name):
    """An own name as it is spelled from now on."""
    name = re.sub(r"(?<=[a-z0-9])([A-Z])(?=[a-z0-9]|$)", lambda m: "_" + m.group(1).lower(), name) if name[0].islower() else name
    return re.sub(r"(?<=[^-])-(?=[^->])", "_", name)


def read(path):
    with open(path, encoding="utf-8", newline="") as f:
        return f.read()


def crates():
    return {os.path.basename(d) for d in glob.glob("crates/*")}


def of_a_function(path):
    return "/proofs/" in path and os.path.basename(path) in ("Proof.antt", "Answers.antt", "Invariants.antt")


def imports(text, own):
    """The names that a file takes from the library or from what Rattle makes, and those that it takes from own files."""
    theirs, ours = set(), set()
    for m in USE.finditer(text):
        crate = re.match(r"Rattle\.([a-z_0-9]+)\.", m.group(1) + ".")
        made = not crate or crate.group(1) not in own or MADE.search(m.group(1))
        names = [part for part in re.split(r"\s*,\s*", m.group(2) or "") if part]
        for part in names:
            (theirs if made else ours).update(w for w in part.split(" as ") if w)
        if m.group(3):
            theirs.add(m.group(3))
    return theirs, ours


def kinds_in(text):
    """What a file declares: by name, whether it is a definition (unfoldable or abbrev) or not."""
    out = {}
    for line in text.split("\n"):
        m = DECLARED.match(line + " ")
        if m:
            out[m.group(2)] = out.get(m.group(2), False) or bool(re.search("abbrev|unfoldable", m.group(1)))
    return out


def ending(name, is_definition, rivals, kinds):
    """What keeps a name apart from those that would be spelled alike."""
    camel = lambda w: bool(re.search(r"[a-z0-9][A-Z]", w))
    first = min(rivals, key=lambda w: (not any(k.get(w) for k in kinds.values()), not camel(w), "-" in w))
    if name == first or len(rivals) == 1:
        return ""
    return "_words" if is_definition else "_lem"


def own_spelling(path, text, spelt, kinds):
    """The names that this file declares, or takes from a file that declares them, with a spelling of their own."""
    out = {}
    taken = [w for m in USE.finditer(text) for w in re.split(r"\s*,\s*| as ", m.group(2) or "")]
    for m in USE.finditer(text):
        for w in re.findall(r" as ([^\s,}]+)", m.group(2) or ""):
            if any(snake(w) == snake(other) != "" and w != other for other in taken if other):
                out[w] = snake(w) + "_words"
        where = re.match(r"Rattle\.([a-z_0-9]+)\.(specs|proofs)\.(.+)$", m.group(1))
        if where:
            source = "crates/%s/%s/%s.antt" % (where.group(1), where.group(2), where.group(3).replace(".", "/"))
            for w in re.split(r"\s*,\s*| as ", m.group(2) or ""):
                if (source, w) in spelt:
                    out[w] = spelt[source, w]
    out.update({w: new for (p, w), new in spelt.items() if p == path})
    return out


def turned(text, theirs, may_turn, own_names, alike):
    """The text with each of the repository's own names in its new spelling."""
    out, before = [], ""
    for m in TOKEN.finditer(text):
        word = m.group(0)
        if re.match(r"[A-Za-z]", word) and (before == "." or word not in theirs):
            if word in own_names and before != ".":
                word = own_names[word]
            elif ODD.match(word) and may_turn(word, before == "."):
                word = snake(word)
            if before != "." and word != m.group(0):
                alike.setdefault(word, set()).add(m.group(0))
        out.append(word)
        before = m.group(0)
    return "".join(out)


def main():
    own = crates()
    antt = [p for p in glob.glob("crates/*/*/**/*.antt", recursive=True) if "/out/" not in p]
    rt = glob.glob("crates/*/src/**/*.rt", recursive=True)
    edits = glob.glob("crates/*/must-fail/**/*.edit", recursive=True)
    lemma_files = [p for p in antt if not of_a_function(p)]
    texts = {p: read(p) for p in antt + rt + edits}
    taken = {p: imports(t, own) for p, t in texts.items()}

    bound, declared = set(), set()
    for p in lemma_files:
        theirs = taken[p][0]
        for m in TOKEN.finditer(texts[p]):
            w = m.group(0)
            if re.match(r"--|\"|«", w) or w in theirs:
                continue
            if ODD.match(w):
                bound.add(w)
        declared |= {w for w in kinds_in(texts[p]) if ODD.match(w)}

    kinds = {p: kinds_in(texts[p]) for p in lemma_files}
    apart = set()
    for p in lemma_files:
        met = {}
        theirs = taken[p][0]
        last = ""
        for m in TOKEN.finditer(texts[p]):
            w = m.group(0)
            if re.match(r"[A-Za-z]", w) and last != ".":
                met.setdefault(snake(w) if w not in theirs else w, set()).add(w)
            last = w
        apart |= {new for new, old in met.items() if len(old) > 1 and any(ODD.match(w) for w in old)}
    spelt = {}
    for new in apart:
        rivals = {w for p in lemma_files for w in kinds[p] if snake(w) == new}
        for w in rivals:
            for p in lemma_files:
                if w in kinds[p]:
                    spelt[p, w] = new + ending(w, kinds[p][w], rivals, kinds)

    alike = {}
    for p, text in sorted(texts.items()):
        theirs, ours = taken[p]
        own_names = own_spelling(p, text, spelt, kinds)
        if p.endswith(".edit"):
            for target in re.findall(r"^file: (.*)$", text, re.M):
                target = re.match(r"crates/[^/]+/", p).group(0) + target
                own_names |= own_spelling(target, texts.get(target, ""), spelt, kinds)
            may = lambda w, field: w in declared
        elif p.endswith(".rt"):
            may = lambda w, field: w in declared and w not in theirs
        elif of_a_function(p):
            local = set(re.findall(r"^(" + W + r") : (?!tie\.)", text, re.M))
            may = lambda w, field: (w in ours or w in local) and not field
        else:
            may = lambda w, field: w in declared if field else w in bound
        new = turned(text, theirs, may, own_names, alike.setdefault(p, {}))
        if new != text:
            with open(p, "w", encoding="utf-8", newline="") as f:
                f.write(new)
    for p, names in alike.items():
        for new, old in sorted(names.items()):
            if len(old) > 1:
                print("still alike:", p, new, sorted(old))


main()
