#!/usr/bin/env python3
"""Brings the definitions and lemmas that port.py leaves in camel case, or with a dash in specs/, to snake case.

usage: tools/respell.py        at the top of the repository, once, right after port.py

Where no file has a name to be respelled it changes nothing, so a second run does no harm. With any word it prints this.

A definition `itemEnd` becomes `item_end`. A lemma whose name would fall together with such a definition gets `_lem`.
Names of src/, exported C names and strings stay. In must-fail edits and documents the definitions are respelled too.
"""

import os
import re
import sys

# The definitions: old name, and the new one where it is not just the old one in snake case.
DEFINITIONS = """
aConstant aStruct aWord afterByte afterFirst afterOperand anExpression appendTwo appendedIn arraySize badFile badToken
bitCast byteNumber checkOf checkedBy closingOf closingWith columnsAfter commaList constantEnd cursorIn cursorOf decimalIn
decimalOf declarationCheck derefEnd digitOf digitsFrom elementEnd factorEnd factorJoined factorOperators fieldEnd
flagsCheck heldIn holdsToken innerFrom innerType inputCheck itemBy itemEnd joinedTo keptFrom keptSlot kindIn kindsOf
lastCheck listEnd listItem listItems loadAt memberEnd memberEnding memberItem memberList memberTyped mirOf nameAlone
nameFrom nextBit nextFactor nextTerm noOperator nodeId noneAbove ofConsumed ofEntries ofParsed ofRules ofTaken oldKind
oldLoad opaqueStruct operandNext ownerOf placeCheck pointerTo prefixEnd primaryOr pushEndOfList pushListItem refusalOf
replyOf rowCheck shorthandEnd singularEnd sizeOfWord slotsCheck stepEnd takesUnary termEnd termJoined termOperand
termOperators timesAll tokenOf tokensOf typeCast typedInteger unaryEnd wordCheck wordDeclarationCheck wordKind wordLoad
writtenWord
""".split()
# `part_code` is a module of crate codes.
OTHERWISE = {"partCode": "part_number"}
# Words of specs/ with a dash.
DASHED = "at-end before-end loads-kept no-ampersand no-bracket no-builtin no-identifier no-parenthesis".split()
# Lemmas of crates/rules/proofs that would have their definition's name, and the files that cite them.
LEMMAS = "array_size inner_type joined_to next_bit step_end".split()
CITES_LEMMAS = "crates/types/proofs/Bounds.antt"
# Values in camel case, numbers of specs/ most of them, by the crate that alone has them. The new names stand nowhere else
# in it, so that no parameter hides one. (Codes and limits that src/ has under the same name, as `Limit::Tokens`, keep it.)
VALUES = {
    "expressions": {"Operated": "operated"},
    "reader": {"Temps": "temps"},
    "buffer": {"Temps": "temps"},
    "kinds": {
        "Most": "most_without_top",
        "Kinds": "kinds_a_word",
        "Words": "words_a_turn",
        "Tokens": "tokens_a_turn",
        "Ones": "ones_of_a_word",
        "Tops": "tops_of_a_word",
    },
    "replies": {"ReplyNumbers": "reply_numbers", "AcceptedCase": "accepted_case", "RefusedCase": "refused_case"},
    "penne_nodes": {
        "InputBytes": "input_bytes",
        "ProgramSlots": "program_slots",
        "Sizes": "sizes_before_kinds",
        "ProgramTokens": "program_tokens",
    },
}
# The numbers of these modules of specs/, which are always named with their module.
LIMITS = {
    "row_text": ("LineLimits", ("Tokens", "Room", "Slots", "Byte", "Times")),
    "entry_rows": ("QuestionLimits", ("Tokens",)),
    "node_slots": ("SlotLimits", ("Slots",)),
}

WORD = re.compile(r"(?<![\w'\-ʳˡ«])[A-Za-z_][\w']*(?:-[\w']+)*(?![\w'\-»])")
STRING = re.compile(r'"(?:[^"\\]|\\.)*"')


def snake(name):
    return re.sub(r"(?<=[a-z0-9])([A-Z])", lambda m: "_" + m.group(1).lower(), name).replace("-", "_")


def respelled(text, names):
    return WORD.sub(lambda m: names.get(m.group(0), m.group(0)), text)


def outside_strings(text, names):
    out, at = [], 0
    for m in STRING.finditer(text):
        out += [respelled(text[at : m.start()], names), m.group(0)]
        at = m.end()
    return "".join(out + [respelled(text[at:], names)])


def code_only(text, comment, change):
    """The text with each line changed up to its comment."""
    lines = []
    for line in text.split("\n"):
        at = line.find(comment)
        lines.append(change(line) if at < 0 else change(line[:at]) + line[at:])
    return "\n".join(lines)


def numbered(path, text):
    """The text of a file with the values respelled."""
    comment = "--" if path.endswith(".antt") else "//"
    crate = path.split("/")[1]
    names = VALUES.get(crate, {})

    def change(line):
        # a module's name, as in `specs.Words.{..}`, stays
        if line.lstrip().startswith(("mod ", "pub mod ")):
            return line
        line = re.sub(r"(?<![\w'.«])([A-Z]\w*)(?![\w'»]|\.[\w{])", lambda m: names.get(m.group(1), m.group(1)), line)
        for module, numbers in LIMITS.values():
            line = re.sub(rf"\b{module}\.({'|'.join(numbers)})\b", lambda m: f"{module}.{m.group(1).lower()}", line)
        return line

    own = [f"crates/{owner}/specs/{module}.antt" for owner, (module, _) in LIMITS.items()]
    if path in own:
        return code_only(text, comment, lambda line: re.sub(r"\b([A-Z]\w*)(?= [:=])", lambda m: m.group(1).lower(), line))
    return code_only(text, comment, change)


def documents():
    yield from ("README.md", "CONTRIBUTING.md")
    for folder in ("docs", "docs/requests"):
        for f in sorted(os.listdir(folder)):
            if f.endswith(".md") and not f.startswith("PORT"):
                yield os.path.join(folder, f)


def sources():
    for folder, dirs, files in os.walk("crates"):
        dirs[:] = sorted(d for d in dirs if d != "out")
        for f in sorted(files):
            if f.endswith((".antt", ".rt", ".edit")):
                yield os.path.join(folder, f)


def left(path):
    """Whether a file has a definition that is not respelled."""
    with open(path, encoding="utf-8") as f:
        return any(word in DEFINITIONS for word in WORD.findall(f.read()))


def main():
    if len(sys.argv) > 1:
        print(__doc__)
        return 0 if sys.argv[1:] in (["--help"], ["-h"]) else 2
    names = {n: snake(n) for n in DEFINITIONS + DASHED} | OTHERWISE
    lemmas = {n: n + "_lem" for n in LEMMAS}
    for path in sources():
        with open(path, encoding="utf-8") as f:
            old = f.read()
        new = numbered(path, old)
        if new != old:
            with open(path, "w", encoding="utf-8") as f:
                f.write(new)
            print(f"respell: values in {path}")
    if not any(map(left, sources())):
        print("respell: no file has a definition to be respelled")
        return 0
    changed = 0
    for path in [*sources(), *documents()]:
        with open(path, encoding="utf-8") as f:
            old = f.read()
        new = old
        if path.startswith("crates/rules/proofs/") or path == CITES_LEMMAS:
            new = respelled(new, lemmas)
        new = outside_strings(new, names) if path.endswith(".rt") else respelled(new, names)
        if new != old:
            with open(path, "w", encoding="utf-8") as f:
                f.write(new)
            changed += 1
    print(f"respell: {len(names)} definitions, {len(lemmas)} lemmas, {changed} files")
    return 0


if __name__ == "__main__":
    sys.exit(main())
