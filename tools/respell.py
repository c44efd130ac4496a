#!/usr/bin/env python3
"""Brings the repository's own names to the spelling of its Rattle: `howMany` is `how_many`, `howMany-none` is `how_many-none`.

usage: python3 tools/respell.py      at the top of the repository, once, after port.py

It goes over the definitions and lemmas of crates/ (code, clauses and comments), over the must-fail edits, which port.py leaves, and over the pages.
A part of a name between dashes that begins with a small letter becomes snake case; types, facts and modules keep their capitals.
A lemma that would then have the name of its definition gets `_lem`, and a definition named as a tactic another name.
Edits are also brought to the form of clauses and paths that port.py gives the files; an old text that does not stand once in its file is named.
"""

import os
import re
import subprocess

NAME = re.compile(r"[^\W\d][\w'₀₁₂]*(?:-[\w'₀₁₂]+)*")

# A lemma whose definition takes its name, and `first_of`, which is a tactic's.
APART = {
    "none_more": "none_more_lem",
    "last_empty": "last_empty_lem",
    "with_cell": "with_cell_lem",
    "header_ok": "header_ok_lem",
    "place_after": "place_after_lem",
    "first_of": "first_some",
}
# where a name of APART is a definition's or a lemma's, and not a function's
APART_IN = {
    "none_more": ["ballot/proofs/PlaneLaws", "system/proofs/SeenLaws"],
    "last_empty": ["card_bins/proofs/StoreLaws", "card_bins/proofs/step/is_last_empty/Proof"],
    "with_cell": ["plan_grammar/proofs/MeantLaws", "plan_grammar/proofs/AcceptedTextLaws", "plan_grammar/proofs/WrittenTextLaws"],
    "header_ok": ["plan_grammar/proofs/WrittenTextLaws"],
    "place_after": ["system/proofs/StateLaws", "system/proofs/DemandLaws"],
    "first_of": ["ballot/specs/Majority", "ballot/proofs/MajorityLaws"],
}
# what port.py has respelled in the files already, for edits and pages
BY_PORT = {
    "numberOf": "number_of", "lineOf": "line_of", "testOf": "test_of", "numberIn": "number_in", "allBelow": "all_below", "firstOf": "first_some",
    "partsOf": "parts_of", "slotAt": "slot_at", "lentBy": "lent_by", "withFlags": "with_flags", "byteOf": "byte_of", "andThen": "and_then",
    "pastOf": "past_of", "blockLines": "block_lines", "nextOf": "next_of", "startOf": "start_of", "binOf": "bin_of", "cellAt": "cell_at",
    "isFinite": "is_finite", "valueOf": "value_of", "sumOf": "sum_of", "scaleOf": "scale_of", "lineAt": "line_at", "kindOf": "kind_of", "opOf": "op_of",
    "taskOf": "task_of", "planOf": "plan_of", "cellsIn": "cells_in", "inRange": "in_range", "isLast": "is_last", "linesOf": "lines_of",
    "frameAt": "frame_at", "runOf": "run_of", "withRun": "with_run", "answerOf": "answer_of", "sizeOf": "size_of", "rowOf": "row_of", "isSome": "is_some",
    "codeOf": "code_of", "wordOf": "word_of", "wordAt": "word_at", "bytesOf": "bytes_of", "callOf": "call_of", "codesOf": "codes_of",
}


def part(word):
    if not word[:1].islower() or word.startswith("is_Is"):
        return word
    snake = re.sub(r"(?<=[a-z])([A-Z])", lambda m: "_" + m.group(1).lower(), word)
    return snake.lower() if snake != word else word


def spell(word):
    return "-".join(part(it) for it in word.split("-"))


def texts(root, endings):
    for folder, dirs, files in os.walk(root):
        dirs[:] = sorted(d for d in dirs if d not in ("out", "target", ".git"))
        for it in sorted(files):
            if it.endswith(endings):
                yield os.path.join(folder, it)


def read(path):
    with open(path, encoding="utf-8") as f:
        return f.read()


def write(path, text):
    with open(path, "w", encoding="utf-8") as f:
        f.write(text)


def apart(path, text):
    for name, places in APART_IN.items():
        if any(path.endswith(it + ".antt") for it in places):
            # not a field or a part of a path
            text = re.sub(rf"(?<![\w.'-]){name}(?![\w'.-])", APART[name], text)
    return text


def form(text):
    """A piece of an edit, in the form that port.py gives files."""
    text = re.sub(r"Rattle·(\w+)(?:·(?:specs|proofs))?\.", r"Rattle.\1.", text)
    text = re.sub(r"mathlib\.Core\.(Path|Bool|List)\b|Prim\.Native\.Nat|lib\.ListN|lib\.Dec", "Rattle.std.specs.Prelude", text) if text.lstrip().startswith(("use", "ghost use")) else text
    text = re.sub(r"(?<![\w'])_([^\w\s]+)_(?![\w'])", r"◌\1◌", text)
    text = text.replace("′", "'").replace("Option·getD", "Option.get_or").replace("getD", "get_or")
    # a projection is written tight: `p .nodes`, `(f x) .nodes`
    text = re.sub(r"(?<=[\w')\]]) \.(?=[a-z0-9])", ".", text)
    text = re.sub(r"\((\w[\w']*(?:\.\w+)+)\)", r"\1", text)
    return text


def names(text):
    return NAME.sub(lambda m: spell(BY_PORT.get(m.group(), m.group())), text)


def edit(path):
    lines, said = [], []
    crate = path.split("/must-fail/")[0]
    file = None
    for line in read(path).splitlines():
        key, _, rest = line.partition(": ")
        if key == "file":
            file = rest
        if key in ("old", "new"):
            # the names of Rust's text have no capitals to turn
            line = key + ": " + names(rest if file.endswith(".rt") and "·" not in rest and "⌜" not in rest else form(rest))
        elif line.startswith("#"):
            line = names(line)
        lines.append(line)
    write(path, "\n".join(lines) + "\n")
    texts_of = {}
    file = None
    for line in lines:
        key, _, rest = line.partition(": ")
        if key == "file":
            file = os.path.join(crate, rest)
            texts_of.setdefault(file, read(file) if os.path.exists(file) else "")
        elif key == "old":
            if texts_of[file].count(rest) != 1:
                said.append(f"{path}: stands {texts_of[file].count(rest)} times: {rest}")
            old = rest
        elif key == "new":
            texts_of[file] = texts_of[file].replace(old, rest, 1)
    return said


def main():
    known = set()
    for path in texts("crates", (".antt",)):
        known |= set(NAME.findall(read(path)))
    for path in texts("crates", (".antt", ".rt")):
        text = read(path)
        new = NAME.sub(lambda m: spell(m.group()), apart(path, text))
        if new != text:
            write(path, new)
    said = []
    for path in texts("crates", (".edit",)):
        said += edit(path)
    known |= set(BY_PORT)
    for path in list(texts("docs", (".md",))) + list(texts("bench", (".md",))) + list(texts("tests", (".md",))) + ["README.md", "CONTRIBUTING.md"]:
        text = read(path)
        quoted = lambda m: "`" + NAME.sub(lambda n: spell(BY_PORT.get(n.group(), n.group())) if n.group() in known else n.group(), m.group(1)) + "`"
        new = re.sub(r"`([^`\n]*)`", quoted, text)
        if new != text:
            write(path, new)
    for crate in sorted(os.listdir("crates")):
        if os.path.isdir(os.path.join("crates", crate, "src")):
            subprocess.run(["rt", "fmt"], cwd=os.path.join("crates", crate), stdout=subprocess.DEVNULL)
    print("\n".join(said))


if __name__ == "__main__":
    main()
