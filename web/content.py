"""The texts of the page, as one JSON text: the examples with their inputs, the steps of the tutorial, the documents and the grammar of the tokens."""
import json
import re
import shlex

DOCUMENTS = ("TUTORIAL", "FROM_C", "LANGUAGE", "FAULTS", "GRAMMAR", "THEOREM", "MACHINE", "IMAGE")
# what stands first among the examples: from the shortest on
FIRST = ("hello", "primes", "sort", "queens", "calculator", "requests", "tree", "cache", "tutorial_service")


def unescaped(text):
    """The bytes that a text of a case has, where \\x and two digits are a byte; as a text, where they are one."""
    return re.sub(rb"\\x([0-9a-fA-F]{2})", lambda it: bytes([int(it[1], 16)]), text.encode()).decode("latin-1")


def cases_of(text):
    """The cases of a file of cases: for each its parts by their keys. Commands are a list."""
    found, current, key = [], None, None
    for line in text.split("\n"):
        part = re.fullmatch(r"-- (\w+)(?:: (.*))?", line)
        if line.startswith("== "):
            current, key = {"command": []}, None
            found.append(current)
        elif part and current is not None:
            key = part[1] if part[2] is None else None
            if part[1] == "command":
                current["command"].append(part[2])
            else:
                current[part[1]] = part[2] or ""
        elif key:
            current[key] += line + "\n"
    return found


def example_inputs(top):
    """For each example the input and the pages of its first case."""
    found = {}
    for it in cases_of((top / "crates" / "case_runs" / "data" / "examples.cases").read_text()):
        if "file" not in it:
            continue
        pages = re.search(r"--pages (\d+)", " ".join(it["command"]))
        given = re.sub(r"\n\n$", "\n", it.get("input", ""))
        found.setdefault(it["file"], {"input": unescaped(given), **({"pages": int(pages[1])} if pages else {})})
    return found


def examples(top):
    """The examples by their paths, the first ones first. One that needs parts of lib/ is joined with them, as the gate runs it."""
    inputs = example_inputs(top)
    place = lambda it: (FIRST.index(it.stem) if it.stem in FIRST else len(FIRST), it.stem)
    paths = sorted((top / "crates" / "case_runs" / "data" / "examples").glob("*.cyc"), key=place)
    return {f"examples/{it.name}": {"source": it.read_text(), **inputs.get(f"examples/{it.name}", {})} for it in paths}


def printed(words):
    """What echo or printf writes with these words."""
    if words[0] == "echo":
        return " ".join(words[1:]) + "\n"
    return words[1].replace("\\n", "\n").replace("\\t", "\t")


def command_in(text):
    """The program, the input, the pages and what is said of the output, by the line of a step's text that runs its program."""
    line = re.search(r"^(?:(.*) \| )?\./cycc run (examples/\S+\.cyc)([^#\n]*)(?:# (.*))?$", text, re.MULTILINE)
    if not line:
        return {}
    pages = re.search(r"--pages (\d+)", line[3])
    given = printed(shlex.split(line[1])) if line[1] else ""
    return {"program": line[2], "input": given, "expected": line[4] or "", **({"pages": int(pages[1])} if pages else {})}


def bare(cell):
    """A cell's source, without the marks of code around it."""
    marks = re.fullmatch(r"(`+) ?(.*?) ?\1", cell)
    return marks[2] if marks else cell


def row_of(line):
    """A row of a step's table: what one meets, the refused source and the accepted one. A bar in code divides nothing."""
    parts, fence, found = re.split(r"(`+|\|)", line.strip().strip("|")), None, [""]
    for it in parts:
        if it == "|" and not fence:
            found.append("")
            continue
        if it.startswith("`"):
            fence = None if fence == it else fence or it
        found[-1] += it
    what, refused, at, accepted = (it.strip() for it in found)
    return {"what": what, "refused": bare(refused), "at": at, "accepted": bare(accepted)}


def lessons(top):
    """The steps of the tutorial."""
    text = (top / "docs" / "TUTORIAL.md").read_text()
    found = []
    for part in re.split(r"^## ", text, flags=re.MULTILINE)[1:]:
        title, _, body = part.partition("\n")
        lines = body.split("\n")
        if not re.match(r"\d+\. ", title):
            continue
        table = [it for it in lines if it.startswith("|")]
        plain = "\n".join(it for it in lines if not it.startswith("|")).strip()
        found.append({"title": title, "text": plain, "rows": [row_of(it) for it in table[2:]], **command_in(plain)})
    return found


def made(top, build):
    """The whole text."""
    documents = {f"{it}.md": (top / "docs" / f"{it}.md").read_text() for it in DOCUMENTS}
    grammar = json.loads((top / "editors" / "cycc.tmLanguage.json").read_text())
    whole = {"build": build, "grammar": grammar, "lessons": lessons(top), "examples": examples(top), "documents": documents}
    return json.dumps(whole, ensure_ascii=False)
