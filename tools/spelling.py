#!/usr/bin/env python3
"""Brings this repository's own names to today's spelling: words in snake case, types and modules in camel case.

usage: python3 tools/spelling.py            at the top, once, right after the kit's port.py
       python3 tools/spelling.py --names    prints each old name and its new one, and changes nothing

Own names are those that files of specs/ and proofs/ declare: definitions, lemmas, fields, helpers, variables. Names of the kit's library and names that the
kit makes of the source (they follow a dot in a proof of one function, or `tie.`) stay. Where a definition and a law would have one name, the law gets `_lem`.
"""

import os
import re
import sys

TOKEN = re.compile(r"[^\s(){}\[\],;.λ∀∃:←→↔×=|`\"«»⌜⌝⟨⟩]+")
TYPES = re.compile(r"^(Said|Given|Ending|Held)-")
ONE_FUNCTION = re.compile(r"/proofs/.*/(Proof|Answers|Invariants)\.antt$")
# `getD` is `get_or` in today's library, and own laws say so too
LIBRARY = {"getD": "get_or"}


def texts(*ends):
    for folder, dirs, names in os.walk("crates"):
        dirs[:] = sorted(d for d in dirs if d != "out")
        for n in sorted(names):
            if n.endswith(ends):
                yield os.path.join(folder, n)


def read(path):
    with open(path, encoding="utf-8") as f:
        return f.read()


def code(text):
    return re.sub(r"--.*", "", text)


def old_form(w):
    """Whether a word has a dash between two letters, or a capital inside a word that begins small."""
    return bool(re.search(r"[A-Za-z]", w)) and bool(re.search(r"[\w'′]-\w", w) or re.match(r"[a-z][\w'′]*[A-Z]", w))


def imported(text):
    """The library's names that a file imports, and the modules' short names."""
    names, shorts = set(), set()
    for m in re.finditer(r"(?m)^(?:ghost )?use ([^\s{;]+?)(?:\.\{([^}]*)\})?(?: as ([^\s;]+?))?;?$", text):
        parts = m.group(1).split(".")
        own = parts[0] == "Rattle" and os.path.isdir(os.path.join("crates", parts[1]))
        if m.group(2) and not own:
            names |= {n.strip().split(" ")[0] for n in m.group(2).split(",")}
        if m.group(3):
            shorts.add(m.group(3))
    return names, shorts


def declared(text, one):
    """The words of the old form that a file declares. Of a proof of one function, not the answers: their names are made of the source's."""
    found, answers = set(), set()
    if one:
        answers = set(re.findall(r"(?m)^(?:abbrev )?(\S+) : tie\.(?:Need|invariant|decreases)", text))
    for line in text.split("\n"):
        if line.startswith("use "):
            continue
        m = re.match(r"\s*(?:(?:pub|abbrev|unfoldable|private|opaque|record|data|module)\s+)*((?:[^\s:(){}=]+\s+)*?[^\s:(){}=]+)\s+(?::|\(|\{|where)", line)
        groups = [m.group(1)] if m else []
        groups += re.findall(r"\blet ([^\s:=]+)", line)
        groups += re.findall(r"[({]((?:[^\s:(){}=,]+\s+)*[^\s:(){}=,]+)\s+:\s", line)
        groups += re.findall(r"λ ([^.(){}]+)\.", line)
        for g in groups:
            found |= {w for w in g.split() if old_form(w) and "." not in w}
    return found - answers


def snake(w):
    for a, b in LIBRARY.items():
        w = w.replace(a, b)
    if TYPES.match(w):
        return "".join(p[:1].upper() + p[1:] for p in w.split("-"))
    if w[0].isupper():
        return w.replace("-", "_")
    w = re.sub(r"(?<=[a-z0-9])([A-Z])", lambda m: "_" + m.group(1).lower(), w)
    return w.replace("-", "_").replace("′", "'")


def new_names():
    """Each own name of the old form, and its new name."""
    library, shorts, own, plain = set(), set(), set(), set()
    for p in texts(".antt", ".rt"):
        a, b = imported(read(p))
        library |= a
        shorts |= b
    for p in texts(".antt"):
        text = code(read(p))
        own |= declared(text, ONE_FUNCTION.search(p))
        plain |= {m.group(1) for m in re.finditer(r"(?m)^\s*(?:(?:pub|abbrev|unfoldable)\s+)*([a-z]\w*)\s+:", text)}
    own |= {s for s in shorts if old_form(s)}
    own -= library
    own -= {w for w in own if w.startswith(("Goes-", "Asked-", "Need-", "After-", "At-"))}
    by_new = {}
    for w in own:
        by_new.setdefault(snake(w), set()).add(w)
    names, laws = {}, {}
    for new, olds in by_new.items():
        taken = new in plain or new in library
        for w in sorted(olds, key=lambda w: ("-" in w, w)):
            if taken and "-" not in w and new in plain and new not in library and new not in laws:
                # port.py has turned the law of that name: the definition takes the name, and the law gives it up
                laws[new] = new + "_lem"
                names[w] = new
                continue
            names[w] = new + "_lem" if taken else new
            taken = True
    return names, laws


def turned(text, names, laws, is_rt):
    """The text with its own names in the new form. In a comment only words of two cases and words in backticks are names; a string is text."""
    def word(m):
        w, s, a, b = m.group(0), m.string, m.start(), m.end()
        # between two dots it is a module or a step: functions of src/ keep their names
        if w in laws and not is_rt and not (s[a - 1 : a] == "." and s[b : b + 1] == "."):
            return laws[w]
        return names.get(w, w)

    def comment(c):
        c = re.sub(r"`[^`\n]*`", lambda m: TOKEN.sub(word, m.group(0)), c)
        return TOKEN.sub(lambda m: word(m) if "-" not in m.group(0) else m.group(0), c)

    mark = "//" if is_rt else "--"
    out = []
    for line in text.split("\n"):
        parts = re.split(r'("(?:[^"\\]|\\.)*")', line) if is_rt else [line]
        done, ended = "", False
        for i, part in enumerate(parts):
            if ended:
                done += comment(part)
            elif i % 2:
                done += part
            else:
                at = part.find(mark)
                if at >= 0 and (is_rt or at == 0 or part[at - 1] == " "):
                    done += TOKEN.sub(word, part[:at]) + comment(part[at:])
                    ended = True
                else:
                    done += TOKEN.sub(word, part)
        out.append(done)
    return "\n".join(out)


def fallen_together(path, text, names, laws):
    """Names of one file that were two and would be one."""
    seen, bad = {}, set()
    for m in TOKEN.finditer(code(text)):
        w = m.group(0)
        n = names.get(w, laws.get(w, w))
        if seen.setdefault(n, w) != w:
            bad.add((path, n, seen[n], w))
    return bad


def main(argv):
    names, laws = new_names()
    if argv == ["--names"]:
        for w in sorted(names | laws):
            print(w, (names | laws)[w])
        return 0
    bad = set()
    for p in texts(".antt", ".rt"):
        text = read(p)
        bad |= fallen_together(p, text, names, laws) if p.endswith(".antt") else set()
        new = turned(text, names, laws, p.endswith(".rt"))
        if p.endswith(".rt"):
            # every struct and enum here was copied freely
            new = new.replace("#[derive(Drop)]", "#[derive(Clone, Copy)]")
        if new != text:
            with open(p, "w", encoding="utf-8") as f:
                f.write(new)
    for b in sorted(bad):
        print("look: %s: %s was %s and %s" % b)
    return 0


if __name__ == "__main__":
    raise SystemExit(main(sys.argv[1:]))
