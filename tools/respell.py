#!/usr/bin/env python3
"""tools/respell.py [FOLDER]: spells the repository's own definitions and lemmas as today's Rattle does: words in snake case.

It goes by text, once, over what port.py left: `firstWrong` and `edit-outside` become `first_wrong` and `edit_outside` where a file of
specs/ or a file of laws in proofs/ declares them; types and modules keep their capitals, and functions of src/, exported names,
strings, inputs and outputs are not touched. In comments and pages a name with a dash turns only in a code span, since prose has such
words too. A lemma that would have a definition's name in some file gets `_lem`. Where two names of one file fall together all the same (a
function's and its definition's, or a field's), it says so, for a look.
"""
import pathlib
import re
import sys

DECLARED = re.compile(
    r"(?m)^( *(?:(?:abbrev|pub|unfoldable|data|record|infix[lr]? \d+)\s+)*)([^\s(){}.;,@\"«»:]+)(?: \{[^{}\n]*\})*(?: \([^()\n]*\))* :(?= |$)"
)
WORD = re.compile(r"[^\s(){}.;,@\"«»\[\]`:|]+")
STRING = re.compile(r'"(?:[^"\\\n]|\\.)*"')
SPAN = re.compile(r"`[^`\n]+`")
USE = re.compile(r"(?m)^\s*(?:pub )?(?:ghost )?use ([^\s;{]+?)(?:\.\{([^}]*)\})?(?: as \S+)?;?$")
FIELD = re.compile(r"(?:^\s+|[{;] )$")
# Names that keep a word of the library's, as it is spelled there now.
LIBRARY = {"getD": "get_or"}


def snake(name):
    for old, new in LIBRARY.items():
        name = re.sub(rf"(?<![A-Za-z]){old}(?![a-z])", new, name)
    name = re.sub(r"(?<=[a-z0-9])[A-Z]|(?<=[A-Z])[A-Z](?=[a-z])", lambda m: "_" + m[0].lower(), name)
    return name.replace("-", "_")


def is_law_file(path):
    """Whether the file stands in specs/, or in proofs/ beside no function."""
    parts = path.parts
    if "specs" in parts:
        return True
    return "proofs" in parts and not re.fullmatch(r"(Proof|Answers|Invariants)\.antt", path.name)


def declarations(text):
    """Each name that a file declares, and whether it is a field of a record."""
    in_record = False
    for line in text.split("\n"):
        if line[:1] not in ("", " ", "-"):
            in_record = bool(re.match(r"(pub )?record\b", line))
        for begin, name in DECLARED.findall(line):
            yield name, in_record and begin == "  pub "


def table(root):
    """The names that turn, each with its new spelling."""
    fields, others, files = set(), set(), []
    for path in sorted((root / "crates").rglob("*.antt")):
        if "out" in path.parts:
            continue
        text = STRING.sub("", path.read_text())
        files.append(set(WORD.findall(re.sub(r"(?m)--.*$", "", text))))
        if is_law_file(path):
            for name, is_field in declarations(text):
                (fields if is_field else others).add(name)
    fields -= others
    declared = {name for name in fields | others if not name[0].isupper() and re.search("[A-Za-z]", name)}
    names = {name: snake(name) for name in declared if snake(name) != name}
    # A lemma that would have a definition's name in some file gets `_lem`; a field follows a dot, and meets nothing.
    alike = {}
    for name in sorted(declared - fields):
        alike.setdefault(snake(name), []).append(name)
    for new, olds in alike.items():
        lemmas = [old for old in olds if "-" in old] or [old for old in olds if old == new]
        for lemma in lemmas:
            if any(lemma in words and any(o in words for o in olds if o != lemma) for words in files):
                names[lemma] = new + "_lem"
    return names


def library_words(text):
    """What a file takes from the kit, and not from a crate of the repository."""
    found = set()
    for module, items in USE.findall(text):
        own = module.startswith("Rattle.") and not re.match(r"Rattle\.(std|core|io|libc)\b", module)
        if not own:
            found |= {w.split(" as ")[-1].strip() for w in items.split(",")}
    return found


def turned(text, names):
    """The text with its names turned. A field is not spelled with `_lem`, even where a lemma of its name is."""

    def one(m):
        new = names.get(m[0], m[0])
        is_field = text[m.start() - 1 : m.start()] == "." or FIELD.search(text[: m.start()]) and text[m.end() :].startswith(" = ")
        return new.removesuffix("_lem") if is_field and new != m[0] else new

    return WORD.sub(one, text)


def code(text, names):
    """A line of antt, or of clauses, without its strings."""
    out, at = [], 0
    for m in STRING.finditer(text):
        out += [turned(text[at : m.start()], names), m[0]]
        at = m.end()
    return "".join(out) + turned(text[at:], names)


def prose(text, names):
    text = SPAN.sub(lambda m: turned(m[0], names), text)
    return turned(text, {old: new for old, new in names.items() if "-" not in old})


def line_of(line, names, mark):
    head, sep, tail = line.partition(mark) if line.lstrip().startswith(mark) else (line, "", "")
    if not sep and mark + " " in line and '"' not in line:
        head, sep, tail = line.partition(mark + " ")
    return code(head, names) + sep + prose(tail, names)


def is_ghost(lines):
    """Which lines of a source file hold a clause, a ghost item or a comment; Rust's own code is left."""
    depth, inside, marks = 0, False, []
    for line in lines:
        word = line.lstrip()
        begins = re.match(r"(ghost|requires|ensures)\b", word)
        if begins and not inside:
            inside = True
            depth = 0
        marks.append(inside or word.startswith("//"))
        if inside:
            depth += line.count("{") - line.count("}")
            if depth <= 0 and ("}" in line or line.rstrip().endswith(";")):
                inside = False
    return marks


def respelled(path, text, names):
    if path.suffix == ".antt":
        return "\n".join(line_of(line, names, "--") for line in text.split("\n"))
    if path.suffix == ".rt":
        lines = text.split("\n")
        return "\n".join(line_of(l, names, "//") if ghost else l for l, ghost in zip(lines, is_ghost(lines)))
    return "\n".join(SPAN.sub(lambda m: turned(m[0], names), line) for line in text.split("\n"))


def main(root):
    names = table(root)
    files = [p for k in ("*.antt", "*.rt") for p in sorted((root / "crates").rglob(k)) if "out" not in p.parts]
    files += sorted((root / "docs").glob("*.md")) + [root / "README.md"]
    written = {}
    for path in files:
        text = path.read_text()
        kept = library_words(text) if path.suffix != ".md" else set()
        here = {old: new for old, new in names.items() if old not in kept}
        here |= {name: snake(name) for name, is_field in declarations(text) if is_field and name in here}
        new = respelled(path, text, here)
        if path.suffix == ".antt":
            before, after = set(WORD.findall(text)), set(WORD.findall(new))
            met = {}
            for word in before:
                met.setdefault(here.get(word, word), set()).add(word)
            both = [sorted(olds) for olds in met.values() if len(olds) > 1]
            if both:
                print(f"respell: {path}: fall together: {both}", file=sys.stderr)
        if new != text:
            written[path] = new
    for path, new in written.items():
        path.write_text(new)
    print(f"respell: {len(names)} names, {len(written)} files")


if __name__ == "__main__":
    main(pathlib.Path(sys.argv[1] if len(sys.argv) > 1 else "."))
