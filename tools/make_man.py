#!/usr/bin/env python3
"""Makes the man page of rbi from docs/commands.md.

    tools/make_man.py > man/rbi.1

What the commands do, the statuses and the environment are those of docs/commands.md. The name, the kinds of files and the
examples are written here. A command of the page without an example ends this script with status 1, and so does a part of the
page that has no place in the man page."""

import re
import sys
from pathlib import Path

PAGE = Path(__file__).resolve().parent.parent / "docs/commands.md"

NAME = "compiler, client and script server for remote batches"

EXAMPLES = {
    "check": "check examples/large.rbi",
    "split": "split examples/large.rbi",
    "unsplit": "unsplit examples/large.rbi examples/files.rbs",
    "both": "both examples/large.rbi examples/files.rbs",
    "run": "run 127.0.0.1:4777 examples/large.rbi",
    "pair": "pair examples/large.rbi examples/files.rbs",
    "serve": "serve 127.0.0.1:4777 examples/files.rbs 1000",
    "keep": "keep 127.0.0.1:4777 examples/files.rbs 1000 files.journal",
    "child": "child examples/files.rbs",
    "hub": "hub examples/hub.events examples/first.rbs",
    "json": "json examples/files.rbs examples/request.json",
    "trial": "trial 100",
}

FILES = [
    ("PROGRAM", "The text of a program. Its name ends in `.rbi` by custom."),
    ("SERVICE", "The text of a service. Its name ends in `.rbs` by custom."),
    ("EVENTS", "The events of `hub`, one a line. Its name ends in `.events` by custom."),
    ("REQUEST", "A request of `json`. Its name ends in `.json` by custom."),
    ("JOURNAL", "The requests that `keep` keeps. It is no text."),
]

# The sections of docs/commands.md, and where they stand in the man page.
SECTIONS = {
    "The answers": "EXIT STATUS",
    "Help": "STANDARD ERROR",
    "Which cause counts": "WHICH CAUSE COUNTS",
    "What a server promises": "WHAT A SERVER PROMISES",
}


def fail(what):
    sys.exit(f"make_man: {what}")


# What stands in the page: headings, paragraphs, lists, tables and code.


def blocks(text):
    """The blocks of a text: a kind, and its lines."""
    found, lines, i = [], text.split("\n"), 0
    while i < len(lines):
        line = lines[i]
        begin = i
        if not line:
            i += 1
            continue
        if line.startswith("```"):
            i = lines.index("```", i + 1) + 1
            found.append(("code", lines[begin + 1 : i - 1]))
            continue
        kind = kind_of(line)
        while i < len(lines) and lines[i] and kind_of(lines[i]) == kind:
            i += 1
            if kind == "heading":
                break
        found.append((kind, lines[begin:i]))
    return found


def kind_of(line):
    if line.startswith("#"):
        return "heading"
    if line.startswith("|"):
        return "table"
    if line.startswith("- "):
        return "list"
    if re.match(r"\d+\. ", line):
        return "numbered"
    return "paragraph"


def rows(lines):
    """The cells of a table, without its head."""
    return [[cell.strip() for cell in line.strip("|").split("|")] for line in lines[2:]]


# Text as roff.


def escaped(text):
    for plain, roff in [("\\", r"\e"), ("-", r"\-"), ("^", r"\(ha"), ("~", r"\(ti")]:
        text = text.replace(plain, roff)
    return text


def as_typed(code):
    """Code: roff would make other signs of its quotes."""
    return escaped(code).replace("'", r"\(aq").replace("`", r"\(ga")


def quoted(code):
    """A code in a line: bold."""
    return r"\fB" + as_typed(code) + r"\fR"


def inline(text):
    """A line of the page: links are their text, and codes are bold."""
    text = re.sub(r"\[([^]]*)\]\([^)]*\)", r"\1", text)
    made = []
    for part in re.split(r"(`[^`]*`|\*\*.*?\*\*)", text):
        if part.startswith("**"):
            made.append(quoted(part.strip("*").strip("`")))
        elif part.startswith("`"):
            made.append(quoted(part.strip("`")))
        else:
            made.append(escaped(part))
    return guarded("".join(made))


def guarded(line):
    """A line of text that roff takes for no request."""
    return r"\&" + line if line[:1] in (".", "'") else line


def form(words):
    """The words of a command: what is typed as it stands is bold, what it stands for is italic."""
    parts = [
        r"\fI" + word + r"\fR" if word.strip("[]").isupper() else r"\fB" + escaped(word) + r"\fR" for word in words.split()
    ]
    return " ".join(parts)


def item(head, body):
    return [".TP", head, body]


def code(lines):
    return [".PP", ".RS 4", ".nf", *(guarded(as_typed(line)) for line in lines), ".fi", ".RE"]


def plain_block(kind, lines):
    """A block that has no other place: as it stands."""
    if kind == "paragraph":
        return [".PP", *map(inline, lines)]
    if kind == "code":
        return code(lines)
    if kind == "list":
        return [part for line in lines for part in [r".IP \(bu 3", inline(line[2:])]]
    if kind == "numbered":
        return [part for line in lines for part in [".IP " + line.split(" ")[0] + " 4", inline(line.split(" ", 1)[1])]]
    if kind == "table":
        return [part for left, right in rows(lines) for part in item(inline(left), inline(right))]
    return fail(f"no place for a {kind}: {lines[0]}")


# The sections of the man page.


def command_of(words):
    return words.strip("`").split()[1]


def commands(parts):
    """The table of the words, the items of the commands, the list of the operands, and what is said of the environment."""
    table = rows(next(lines for kind, lines in parts if kind == "table"))
    said, operands, environment = {}, [], []
    for kind, lines in parts:
        if kind == "list":
            operands += lines
        elif kind == "paragraph":
            for piece in filter(None, re.split(r"(?<!\S)(?=\*\*)", lines[0])):
                name = re.match(r"\*\*`?(\w+)`?\*\*", piece)
                if not name:
                    fail(f"no place for: {piece}")
                if name[1].isupper():
                    environment.append((name[1], piece))
                else:
                    said.setdefault(name[1], []).append(piece.strip())
    names = [command_of(words) for words, _ in table]
    for name in said:
        if name not in names:
            fail(f"no command {name}")
    if sorted(names) != sorted(EXAMPLES):
        fail("the commands are not those that have an example")
    made = []
    for words, does in table:
        made += item(form(words.strip("`").split(" ", 1)[1]), inline(does[0].upper() + does[1:] + "."))
        for piece in said.get(command_of(words), []):
            made += [".IP", inline(piece)]
    return table, made, operands, environment


def operand_items(lines):
    made = []
    for line in lines:
        name = re.match(r"- (?:A )?\*\*(\w+)\*\* ", line)
        if not name:
            fail(f"no place for: {line}")
        head = r"\fI" + name[1].upper() + r"\fR"
        made += item(head, inline(line[2:]))
    return made


def statuses(table):
    """The rows under their statuses: a line each, and under it when it comes."""
    made, last = [], None
    for status, line, when in table:
        if status != last:
            made += [] if last is None else [".RE"]
            made += [".TP", r"\fB" + status + r"\fR", *answer(line, when), ".RS"]
            last = status
        else:
            made += [".PP", *answer(line, when)]
    return made + [".RE"]


def answer(line, when):
    return [inline(line), ".br", inline(when)] if line else [inline(when)]


def page(text):
    sections, title = {}, None
    for kind, lines in blocks(text):
        if kind == "heading":
            title = lines[0].lstrip("# ")
            sections[title] = []
        else:
            sections[title].append((kind, lines))
    table, made_commands, operands, environment = commands(sections.pop("The words"))
    intro = sections.pop("Commands")
    made = [
        r'.\" Made from docs/commands.md by tools/make_man.py: change those, and make it again.',
        '.TH RBI 1 "" Lunguepo "Remote batches"',
        ".SH NAME",
        rf"rbi \- {NAME}",
        ".SH SYNOPSIS",
        ".nf",
        *(form(words.strip("`")) for words, _ in table),
        form("rbi help [COMMAND]"),
        form("rbi --version"),
        ".fi",
        ".SH DESCRIPTION",
    ]
    for kind, lines in intro:
        made += plain_block(kind, lines)
    made += [".SH COMMANDS", *made_commands, ".SH OPERANDS", *operand_items(operands)]
    for title, parts in sections.items():
        if title not in SECTIONS:
            fail(f"no place for the section {title}")
        made.append(".SH " + (f'"{SECTIONS[title]}"' if " " in SECTIONS[title] else SECTIONS[title]))
        for kind, lines in parts:
            if title == "The answers" and kind == "table":
                made += statuses(rows(lines))
            elif lines[0].startswith("**Colours.**"):
                environment.append(("NO_COLOR", lines[0].replace("**Colours.** ", "")))
            else:
                made += plain_block(kind, lines)
    if [name for name, _ in environment] != ["RBI_TIMEOUT", "NO_COLOR"]:
        fail("the environment is not RBI_TIMEOUT and NO_COLOR")
    made.append(".SH ENVIRONMENT")
    for name, told in environment:
        made += item(r"\fB" + name + r"\fR", inline(told))
    made.append(".SH FILES")
    for name, told in FILES:
        made += item(r"\fI" + name + r"\fR", inline(told))
    made.append(".SH EXAMPLES")
    for words, does in table:
        made += code(["rbi " + EXAMPLES[command_of(words)]])
    made += [".PP", inline("A server and a client may be two processes, in two terminals. The server takes one connection:")]
    made += code(["rbi serve 127.0.0.1:4777 examples/files.rbs 1", "rbi run 127.0.0.1:4777 examples/large.rbi"])
    linked = sorted(set(re.findall(r"\]\(([a-z_]+\.md)", text)))
    made += ['.SH "SEE ALSO"', inline("The pages of the folder `docs`, most of all " + listed(linked) + ".")]
    return "\n".join(made) + "\n"


def listed(names):
    codes = [f"`{name}`" for name in names]
    return ", ".join(codes[:-1]) + " and " + codes[-1]


if __name__ == "__main__":
    sys.stdout.buffer.write(page(PAGE.read_text(encoding="utf-8")).encode())
