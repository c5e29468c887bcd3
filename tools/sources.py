"""Prints the places of the sources that tools/check-sources asks about, a line each, parted by tabs: KIND, FILE, ITEM,
TEXT. TEXT is the line as it stands, without the blanks around it, and ITEM the last one that was begun by then.
Comments, the insides of texts and all ghost code (imports, clauses, views) are passed over: nothing of it runs."""

import re
import sys

PASSED = re.compile(r"""//[^\n]*|"(?:[^"\\]|\\.)*"|'(?:\\.[^']*|[^'\\])'|#\[unsafe\(no_mangle\)\]""", re.S)
GHOST = re.compile(r"^ *(?:ghost|requires|ensures|invariant|decreases)(?=[ {\n])", re.M)
ITEM = re.compile(r"(?<![\w*])(?:fn|enum|struct|const|trait) (\w+)")
STATEMENT = re.compile(r"^ *(?:(?:pub\S* )?(use [^;]*;)|(impl[ <][^{]*\{))", re.M)
KINDS = [
    ("import", r"use .*(?:::\*| as )"),
    # An import names it below its enum. Elsewhere all count but the types of answers and arguments.
    ("memory", r"use .*(?:Fault|LineError|ReplayError|ErrorKind)::.*\b(?:OutOfMemory|Memory)\b"
               r"|(?!use ).*\b(?:(?<!: )(?<!From<)(?!(?<=, )AllocError>)AllocError|OutOfMemory|Memory)\b"),
    ("evidence", r"use .*ReplayError::.*\b(?:Read|Write)\b|(?!use ).*(?:\.(?:read|write) *[|&^]?=(?!=)"
                 r"|\b(?:read|write):(?! bool\b)|&mut [a-z_.]*\.(?:read|write)(?![a-z_(])|(?:ReplayError|Self)::(?:Read|Write))"),
    ("impl", r".*macro_rules!|impl[^{]*[ :](?:PartialEq|Eq|PartialOrd|Ord|Hash|Clone|Copy|Debug|Default|Display|Drop)"
             r"(?:<[^{]*>)? for "),
    ("pointer", r"use .*std::ptr|.*(?:\*(?:const|mut) |NonNull|addr_of|unsafe|as_ptr|as_mut_ptr|from_raw)"),
    ("forget", r".*(?:mem::(?:\{.*)?forget|ManuallyDrop|[.:]leak\(|into_raw)"),
]
# Programs may give up a gate's ticket and a seat; who hands them out, but for their tests, may not.
KEEPERS = re.compile(r"wit_(?:gates|locks|seats|shared)/src/(?!tests(?:\.rt$|/))")
GIVEN_UP = r"(?!pub fn ).*(?:[.:]abandon|abandon_all) *\("


def blank(text):
    return " " + "\n" * text.count("\n")


def without_ghosts(code):
    """Ghost code ends with the brace that closes its first one, or at a semicolon."""
    while begun := GHOST.search(code):
        depth = 0
        for mark in re.compile(r"[{};]|\Z").finditer(code, begun.end()):
            depth += {"{": 1, "}": -1}.get(mark[0], 0)
            if depth == 0 or not mark[0]:
                code = code[:begun.start()] + blank(code[begun.start():mark.end()]) + code[mark.end():]
                break
    return code


for file in sys.argv[1:]:
    with open(file, encoding="utf-8", newline="\n") as source:
        text = source.read()
    code = without_ghosts(PASSED.sub(lambda part: blank(part[0]), text))
    # An import and the head of an implementation, each in its last line.
    code = STATEMENT.sub(lambda said: blank(said[0]) + " ".join((said[1] or said[2]).split()), code)
    kinds = [*KINDS, ("forget", GIVEN_UP)] if KEEPERS.search(file) else KINDS
    kinds = [(kind, re.compile(form)) for kind, form in kinds]
    item = "-"
    for line, shown in zip(map(str.strip, code.split("\n")), text.split("\n")):
        item = named[1] if (named := ITEM.search(line)) else item
        for kind, form in kinds if line else []:
            if form.match(line):
                print(kind, file, item, shown.strip(), sep="\t")
