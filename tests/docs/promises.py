"""Holds docs/PROMISES.md to the repository, at whose top it is run. The page's first paragraphs say how it is written.

A line `- NAME: ..` with a name of FIELDS is a field of the entry above it: of a call's heading, or of a sentence, which
is any other line `- ..`. Lines that are neither go on with the line before them, or are prose.
"""

import re
import sys
from functools import cache
from pathlib import Path

PAGE = Path("docs/PROMISES.md")
WIDTH = 120
FIELDS = ["promise", "definition", "determined", "statement", "run", "shuts out", "why", "form", "where"]
AT_THE_TOP = ["crates", "docs", "examples", "host", "include", "tests"]
RUST_TESTS = Path("host/rust/tests")
EDITS = {edit.stem for edit in Path("crates").glob("*/must-fail/*.edit")}

looked = missing = 0


def wrong(what):
    global missing
    missing += 1
    print(f"docs: {what}")


def must(holds, what):
    """One look more."""
    global looked
    looked += 1
    if not holds:
        wrong(what)


# ---- the files that the page names


def in_one_line(text):
    return " ".join(text.split())


@cache
def code(path):
    """The text of a file, without its comments."""
    comment = {".antt": r"(?m)(^|\s)--.*$", ".rt": r"//.*", ".rs": r"//.*"}.get(path.suffix)
    text = path.read_text()
    return re.sub(comment, "", text) if comment else text


def antt_names(text):
    """Signatures, fields and constructors, several to a line too, but for those in the `where` of a proof."""
    names, local = set(), None
    for line in text.splitlines():
        bare = line.strip()
        indent = len(line) - len(line.lstrip())
        if bare and local is not None and indent <= local:
            local = None
        if bare == "where" and local is None:
            local = indent
        head = re.sub(r"^((pub|abbrev|unfoldable) )+", "", bare)
        kind = re.match(r"(?:data|record|ruleset) (\S+)", head)
        signature = re.match(r"(?!let )([^\s(){}=:]+(?: [^\s(){}=:]+)*) :(?: |$)", head)
        if local is None and (kind or signature):
            names.update((kind or signature)[1].split())
    return names


def rt_names(text):
    return set(re.findall(r'(?m)^ *(?:pub(?:\(\w+\))? )?(?:extern "C" )?(?:fn|struct|enum|trait|const|mod) (\w+)', text))


def rs_names(text):
    return set(re.findall(r"(?m)^ *(?:pub(?:\(\w+\))? )?(?:const |unsafe )*fn (\w+)", text))


def rs_tests(text):
    """The functions that are run as tests: nothing else stands between the attribute and the name."""
    return set(re.findall(r"(?m)^ *#\[test\]\n *fn (\w+)", text))


DECLARED = {".antt": antt_names, ".rt": rt_names, ".rs": rs_names}


@cache
def declared(path):
    names = rs_tests if path.is_relative_to(RUST_TESTS) else DECLARED[path.suffix]
    return names(code(path))


def look_for(text, path, place):
    """A single name is declared in the file, or a test of it; a printed line is a whole line; other text is there."""
    if path.is_dir():
        wrong(f"{place}: '{text}' has a folder after it: {path}")
    elif path.suffix in DECLARED and re.fullmatch(r"[\w'-]+", text):
        must(text in declared(path), f"{place}: '{text}' is not declared, or no test, in {path}")
    elif path.name == "stdout" or path.suffix == ".out":
        must(text in code(path).splitlines(), f"{place}: no line '{text}' in {path}")
    else:
        found = re.search(rf"(?<!\w){re.escape(in_one_line(text))}(?!\w)", in_one_line(code(path)))
        must(found, f"{place}: no '{text}' in {path}")


# ---- the page


class Entry:
    """A call or a sentence, and the fields below it."""

    def __init__(self, line, section, title):
        self.line, self.section, self.title, self.fields = line, section, title, {}

    def names(self, field):
        return re.findall(r"`([^`]+)`", self.fields.get(field, ""))


def read_page():
    """The entries, and each text with its line, its entry, and the field's name, or that it is a sentence or prose."""
    entries, texts, section, going_on = [], [], "", False
    for number, line in enumerate(PAGE.read_text().splitlines(), 1):
        if len(line) > WIDTH:
            wrong(f"line {number}: more than {WIDTH} columns")
        field = re.match(rf" *- ({'|'.join(FIELDS)}):(.*)", line)
        call = re.match(r"### `(.+)`$", line)
        if field and entries:
            texts.append([number, entries[-1], field[1], field[2]])
        elif line.startswith("#"):
            section = line.lstrip("# ")
            entries += [Entry(number, "call", call[1])] if call else []
        elif line.startswith("- "):
            entries.append(Entry(number, section, line[2:]))
            texts.append([number, entries[-1], "sentence", line[2:]])
        elif line and going_on:
            texts[-1][3] += " " + line.strip()
        elif line:
            texts.append([number, None, "prose", line])
        going_on = bool(line) and not line.startswith("#")
    for number, entry, field, text in texts:
        if field in FIELDS:
            if field in entry.fields or not re.search(r"\w", text):
                wrong(f"line {number}: '{field}' twice, or with nothing after it")
            entry.fields[field] = text
    return entries, texts


def path_of(word):
    word = word.strip("(),:.")
    top = "" if word.split("/")[0] in AT_THE_TOP else "crates"
    return Path(top, word) if "/" in word else None


def look_at(number, text, filed):
    """Each file is there, and what stands in backquotes before it is in it; hands back what has no file after it."""
    waiting, alone = [], []
    for name, end, word in re.findall(r"`([^`]*)`|(;)|([^\s`;]+)", text):
        path = path_of(word)
        if name:
            waiting.append(name)
        elif path:
            must(path.exists(), f"line {number}: no file {path}")
            for each in waiting if path.exists() else []:
                look_for(each, path, f"line {number}")
            filed.update(waiting)
            waiting = []
        elif end or word.endswith("."):
            alone, waiting = alone + waiting, []
    return alone + waiting


def look_at_texts(entries, texts):
    filed, alone = {re.split(r"::<|\(", entry.title)[0] for entry in entries if entry.section == "call"}, []
    for number, entry, field, text in texts:
        if field == "sentence":
            look_at(number, text.replace("`", ""), filed)
        elif field == "shuts out":
            for name in entry.names(field):
                must(name in EDITS, f"line {number}: no edit '{name}'")
        else:
            alone += [(number, name) for name in look_at(number, text, filed)]
    for number, name in alone:
        must(name in filed, f"line {number}: '{name}' has no file, here or elsewhere on the page")


# ---- what the page must have


def look_at_entries(entries):
    for entry in entries:
        fields = entry.fields.keys()
        said, shown = {"statement", "form"} & fields, {"run", "shuts out", "where"} & fields
        whole = fields >= {*FIELDS[:3], "run"} if entry.section == "call" else said and shown
        if not whole:
            wrong(f"line {entry.line}: an entry that lacks something: {entry.title}")
    named = {name for entry in entries for name in entry.names("shuts out")}
    for edit in sorted(EDITS):
        must(edit in named, f"no word of the edit '{edit}'")


def names_of(parameters):
    """Without their types, whose own parameters are taken out before what is left is parted."""
    while (left := re.sub(r"<[^<>]*>", "", parameters)) != parameters:
        parameters = left
    return [name for name in (each.split(":")[0].strip() for each in parameters.split(",")) if name]


def implemented(text):
    """Of each `impl`: the trait, if it is one's, the type, and where it begins and ends."""
    head = r"(?m)^impl(?:<.*?>)? (?:(\w+)(?:<.*>)? for )?(\w+)(?:<.*>)? \{$"
    for found in re.finditer(head, text):
        yield found[1], found[2], found.start(), text.index("\n}", found.end())


@cache
def is_seen(crate, name):
    """Whether others see the type: the crate has it as a public one, or has it not at all."""
    source = "".join(code(path) for path in Path("crates", crate, "src").glob("**/*.rt"))
    found = re.search(rf"(?m)^(pub )?(?:pub\(\w+\) )?(?:struct|enum|type) {name}\b", source)
    return not found or found[1]


def public_calls():
    """Of each public function: its crate, how the page writes it, and its contract.

    What is taken for the contract ends where the body begins, or the next function, where the body closes on its line.
    A trait's function of a type that others see is public too; its contract has what the `impl` says of it, as
    `from_gives` of `from`.
    """
    head = r'\b(pub )?(?:const |unsafe |extern "C" )*fn (\w+)(?:<([^>]*)>)?\(((?:[^()]|\([^()]*\))*)\)'
    after = r"(?m)^ *\{|\{ *$|\bfn "
    for path in sorted(Path("crates").glob("*/src/**/*.rt")):
        text, crate = code(path), path.parts[1]
        impls = list(implemented(text))
        must(len(impls) == len(re.findall(r"(?m)^ *impl\b", text)), f"an impl of {path} is not understood")
        for found in re.finditer(head, text):
            around = [impl for impl in impls if impl[2] <= found.start() <= impl[3]]
            trait, name, start, end = around[0] if around else (None, None, 0, 0)
            if not (is_seen(crate, name) if trait else found[1]):
                continue
            contract = re.split(after, text[found.end() :], maxsplit=1)[0]
            if trait:
                of_trait = re.findall(rf"(?s)ghost {found[2]}_\w+ = (\{{.*?\}});", text[start:end])
                contract = " ".join([*of_trait, contract])
            call = f"{name}::{found[2]}" if name else found[2]
            types = f"::<{', '.join(names_of(found[3]))}>" if found[3] else ""
            yield crate, f"{call}{types}({', '.join(names_of(found[4]))})", in_one_line(contract)


def for_c(contract):
    """A contract as C has it: with `CRan` for `Ran`, the number of whose `ended` it has, as its `from_gives` says."""
    return contract.replace("-> Ran ", "-> CRan ").replace("(given result.ended)", "result.refusal")


def look_at_calls(entries):
    """Each has a section, whose promise stands in its contract, which requires nothing; two edits at least.

    What a crate NAME_c exports is the call of NAME for C, with its contract, and so has the section of that.
    """
    sections = {entry.title: entry for entry in entries if entry.section == "call"}
    calls = list(public_calls())
    exports = [(f"{crate}_c", call, for_c(contract)) for crate, call, contract in calls]
    for crate, call, contract in calls:
        if crate.endswith("_c"):
            must((crate, call, contract) in exports, f"{call} of {crate} is not that of {crate[:-2]}")
            continue
        titles = [title for title in sections if re.fullmatch(rf"({crate}::(\w+::)*)?{re.escape(call)}", title)]
        must(len(titles) == 1, f"{len(titles)} sections for {call} of {crate}")
        for entry in map(sections.pop, titles):
            for promise in map(in_one_line, entry.names("promise") or ["?"]):
                must(f" {promise} " in contract, f"line {entry.line}: {call} does not promise '{promise}'")
            must("requires" not in contract, f"line {entry.line}: {call} requires something")
            must(len(entry.names("shuts out")) >= 2, f"line {entry.line}: no two edits for {call}")
    for title, entry in sections.items():
        wrong(f"line {entry.line}: no public function {title}")


def look_at_demand_3(entries):
    """Each field of the record is the statement of an entry of its own."""
    file = "laws/specs/Demand3.antt"
    record = re.search(r"(?m)^pub record Demand3 .*\n((?: .*\n|\n)+)", code(Path("crates", file)))
    fields = sorted(antt_names(record[1])) if record else []
    stated = [in_one_line(entry.fields.get("statement", "")) for entry in entries if entry.section == "Demand 3"]
    must(fields, "no fields of Demand3")
    for field in fields:
        own = [text for text in stated if text.startswith(f"`{field}`, {file}")]
        must(own, f"no entry below Demand 3 for the field '{field}'")


def passes(look, *of):
    """Whether a look finds nothing missing, and something to look at."""
    seen, lacking = looked, missing
    look(*of)
    return looked > seen and missing == lacking


entries, texts = read_page()
passed = [
    passes(look_at_texts, entries, texts),
    passes(look_at_entries, entries),
    passes(look_at_calls, entries),
    passes(look_at_demand_3, entries),
]
print(f"docs: {looked} names, files and edits of {PAGE}, {missing} missing")
print(f"{passed.count(True)} passed, {passed.count(False)} failed")
sys.exit(not all(passed))
