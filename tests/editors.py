#!/usr/bin/env python3
"""Compares the colours of the editors with the tokens of docs/tokens.md.

    tests/editors.py

The texts of examples/ and some of its own are cut into tokens here, by the rows and rules of docs/tokens.md. Each byte has a
class: keyword, name, number, text, escape, comment, operator or punctuation. It is `not here` in a word or sign that stands in the
other kind of file alone, and `wrong` where no token is. The TextMate grammars are then applied by expressions of Python, as editors
apply them: a line at a time, and of the patterns that match the first place the first. Vim is asked for the group of each
character. Both have to give each character its class. Where vim isn't there, or has no syntax, it is passed over, and a line says so.
Where jq is there, it reads each expression too, since it has the expressions of TextMate."""

import json
import re
import shutil
import subprocess
import sys
import tempfile
from pathlib import Path

TOP = Path(__file__).resolve().parent.parent
VSCODE = TOP / "editors/vscode"
VIM = TOP / "editors/vim"
PATIENCE = 60

NOT_HERE = {"rbi": {"object", "root", "#"}, "rbs": {"interface", "main", "batch", "print", "remote", "Rows"}}
PUNCTUATION = set(". , ; : ( ) { } [ ] #".split())

# Texts of its own. The rows of keywords and signs are appended.
TEXTS = [
    "iffy 12ab 12if if1 _if ifif _ A_9 in interface int",
    "a<=b < = c==!d>=e&&f||g!=-h",
    "print(-9223372036854775808);",
    'a = "say \\"hi\\"\\n" + "\\\\" + "" + "//" + "é"; // "no text" é',
    'print("a\\tb"); if',
    'print("a\\tb); // open',
    'print("a\\"); "',
    'a = "\\',
    '"a""b" "',
    "true & false | § é",
    "class fun { } class  A { fun  f() { } } interface B { } fun class",
    "val classes = 1; // if",
]

SCOPES = {
    "comment": "comment",
    "string": "text",
    "constant.character.escape": "escape",
    "constant.numeric": "number",
    "constant.language": "keyword",
    "keyword.operator": "operator",
    "keyword": "keyword",
    "storage": "keyword",
    "support": "keyword",
    "variable.language": "keyword",
    "variable.other": "name",
    "entity.name": "name",
    "punctuation": "punctuation",
    "invalid.illegal.not-here": "not here",
    "invalid.illegal": "wrong",
}
GROUPS = {
    "rbiComment": "comment",
    "rbiText": "text",
    "rbiEscape": "escape",
    "rbiNumber": "number",
    "rbiOperator": "operator",
    "rbiPunctuation": "punctuation",
    "rbiName": "name",
    "rbiNotHere": "not here",
    "rbiBadByte": "wrong",
    "rbiBadEscape": "wrong",
    "rbiOpenText": "wrong",
    **{"rbi" + group: "keyword" for group in "Control Declaration Modifier Type Function New This Truth".split()},
}


# The tokens of docs/tokens.md.


def row(kind):
    text = (TOP / "docs/tokens.md").read_text(encoding="utf-8")
    return re.search(rf"^\| {kind} \| one of `(.*?)` \|$", text, re.MULTILINE)[1].replace("\\|", "|").split()


KEYWORDS, SIGNS = set(row("keyword")), sorted(row("sign"), key=len, reverse=True)
LETTERS = set("ABCDEFGHIJKLMNOPQRSTUVWXYZabcdefghijklmnopqrstuvwxyz_")
DIGITS = set("0123456789")


def classes(line, kind):
    """The class of each character of a line; a space has none."""
    found = []
    while len(found) < len(line):
        at = len(found)
        found += token(line[at:], NOT_HERE[kind])
    return found


def token(rest, not_here):
    """The classes of the token that the rest of a line begins with, or of the space there."""
    if rest[0] in " \t\r":
        return [None]
    if rest.startswith("//"):
        return ["comment"] * len(rest)
    if rest[0] == '"':
        return literal(rest)
    if rest[0] in DIGITS:
        return ["number"] * front(rest, DIGITS)
    if rest[0] in LETTERS:
        word = rest[: front(rest, LETTERS | DIGITS)]
        return ["not here" if word in not_here else "keyword" if word in KEYWORDS else "name"] * len(word)
    for sign in SIGNS:
        if rest.startswith(sign):
            return ["not here" if sign in not_here else "punctuation" if sign in PUNCTUATION else "operator"] * len(sign)
    return ["wrong"]


def front(text, allowed):
    return next((i for i, letter in enumerate(text) if letter not in allowed), len(text))


def literal(rest):
    found, at = ["text"], 1
    while at < len(rest):
        if rest[at] == '"':
            return found + ["text"]
        if rest[at] == "\\" and at + 1 < len(rest):
            found += ["escape" if rest[at + 1] in 'n"\\' else "wrong"] * 2
            at += 2
        else:
            found.append("text")
            at += 1
    return ["wrong"] * len(rest)


# The TextMate grammars.


class Grammars:
    def __init__(self):
        self.of = {}
        for path in sorted(VSCODE.glob("*.tmLanguage.json")):
            grammar = json.loads(path.read_text(encoding="utf-8"))
            self.of[grammar["scopeName"]] = grammar

    def flat(self, rules, scope):
        """The rules that match something, in their order, each with the grammar that it stands in."""
        found = []
        for rule in rules:
            if "include" in rule:
                other, name = rule["include"].split("#")
                other = other or scope
                found += self.flat([self.of[other]["repository"][name]], other)
            elif "match" in rule or "begin" in rule:
                found.append((rule, scope))
            else:
                found += self.flat(rule["patterns"], scope)
        return found

    def expressions(self):
        found = []
        for scope, grammar in self.of.items():
            rules = self.flat(grammar["patterns"] + list(grammar["repository"].values()), scope)
            for rule, _ in rules:
                found += [rule[key] for key in ("match", "begin", "end") if key in rule]
                found += [inner["match"] for inner in rule.get("patterns", [])]
        return found

    def scopes(self, line, scope):
        """The innermost scope of each character of a line."""
        found = [None] * len(line)
        at, outer, rules = 0, None, self.flat(self.of[scope]["patterns"], scope)
        while at < len(line):
            inside = self.flat(outer.get("patterns", []), scope) if outer else rules
            tried = ([(re.compile(outer["end"]).search(line, at), None)] if outer else []) + [
                (re.compile(rule.get("match") or rule["begin"]).search(line, at), rule) for rule, _ in inside
            ]
            tried = [(match, rule) for match, rule in tried if match]
            first = min(tried, key=lambda pair: pair[0].start(), default=None)
            if not first or first[0].end() == first[0].start():
                if outer:
                    found[at:] = [outer["name"]] * (len(line) - at)
                break
            match, rule = first
            if outer:
                found[at : match.start()] = [outer["name"]] * (match.start() - at)
            name = (rule or outer).get("name")
            found[match.start() : match.end()] = [name] * (match.end() - match.start())
            for group, capture in (rule or {}).get("captures", {}).items():
                begin, end = match.span(int(group))
                found[begin:end] = [capture["name"]] * (end - begin)
            at = match.end()
            outer = None if rule is None else rule if "begin" in rule else outer
        return found


def class_of(scope):
    if scope is None:
        return None
    fitting = [front for front in SCOPES if scope.startswith(front + ".")]
    return SCOPES[max(fitting, key=len)] if fitting else "no class"


# Vim.

VIM_SCRIPT = r"""
set nocompatible encoding=utf-8 fileencodings=utf-8 nomodeline noswapfile viminfo=
let &runtimepath = '@VIM@,' . &runtimepath
filetype on
syntax on
let s:said = []
for s:file in readfile('files')
  execute 'edit' fnameescape(s:file)
  for s:line in range(1, line('$'))
    let s:at = 0
    let s:groups = []
    for s:letter in split(getline(s:line), '\zs')
      call add(s:groups, synIDattr(synID(s:line, s:at + 1, 1), 'name'))
      let s:at += len(s:letter)
    endfor
    call add(s:said, join(s:groups, ','))
  endfor
endfor
call writefile(s:said, 'said')
qall!
"""


def by_vim(texts):
    """The groups of each character of each line of the texts."""
    with tempfile.TemporaryDirectory() as folder:
        names = []
        for i, (lines, kind) in enumerate(texts):
            names.append(f"text{i}.{kind}")
            Path(folder, names[-1]).write_text("\n".join(lines) + "\n", encoding="utf-8")
        Path(folder, "files").write_text("\n".join(names) + "\n")
        Path(folder, "script").write_text(VIM_SCRIPT.replace("@VIM@", str(VIM)))
        command = ["vim", "-es", "-u", "NONE", "-i", "NONE", "-S", "script"]
        subprocess.run(command, cwd=folder, stdin=subprocess.DEVNULL, capture_output=True, timeout=PATIENCE)
        said = Path(folder, "said")
        return [line.split(",") if line else [] for line in said.read_text().split("\n")[:-1]] if said.exists() else []


def vim_has_syntax():
    """Whether vim is there, with what it needs for colours: a small one has no expressions, or no file for syntax."""
    if not shutil.which("vim"):
        return False
    asked = "if filereadable($VIMRUNTIME . '/syntax/syntax.vim') && has('syntax') | qall! | else | cquit | endif"
    command = ["vim", "-es", "-u", "NONE", "-i", "NONE", "-c", asked, "-c", "cquit"]
    return not subprocess.run(command, stdin=subprocess.DEVNULL, capture_output=True, timeout=PATIENCE).returncode


# All of it.


def texts():
    """Lists of lines, each with its kind of file."""
    found = [
        (path.read_text(encoding="utf-8").split("\n")[:-1], path.suffix[1:])
        for path in sorted(TOP.glob("examples/*.rb[is]"))
    ]
    own = TEXTS + [" ".join(sorted(KEYWORDS)), " ".join(SIGNS), "".join(sorted(SIGNS))]
    return found + [(own, "rbi"), (own, "rbs")]


def unlike(editor, line, wanted, given):
    """What to say where a character has another class than it should have."""
    for i, (want, got) in enumerate(zip(wanted, given)):
        # A space in what no token is, or between a keyword and the name after it, may have any class.
        if want is not None and want != got:
            return [f"{editor}: {line!r}: {line[i]!r} at {i} is {got} in place of {want}"]
    return [] if len(wanted) == len(given) else [f"{editor}: {line!r} has {len(given)} classes"]


def main():
    found, grammars, all_texts = [], Grammars(), texts()
    for lines, kind in all_texts:
        for line in lines:
            given = [class_of(scope) for scope in grammars.scopes(line, "source." + kind)]
            found += unlike(kind + ".tmLanguage.json", line, classes(line, kind), given)

    if shutil.which("jq"):
        tests = " | ".join(f"(. as $x | ($x | test({json.dumps(e)})) | $x)" for e in grammars.expressions())
        done = subprocess.run(["jq", "-n", f'"" | {tests}'], capture_output=True, timeout=PATIENCE)
        if done.returncode:
            found.append("jq: " + done.stderr.decode().strip())
    else:
        print("editors: the expressions are read by Python alone, since there is no jq")

    if vim_has_syntax():
        said = by_vim(all_texts)
        wanted = [(line, classes(line, kind)) for lines, kind in all_texts for line in lines]
        if len(said) != len(wanted):
            found.append(f"vim: {len(said)} lines in place of {len(wanted)}")
        for (line, want), groups in zip(wanted, said):
            found += unlike("vim", line, want, [GROUPS.get(group) for group in groups])
    else:
        print("editors: vim is passed over, since it isn't there or has no syntax")

    for line in found:
        print(line, file=sys.stderr)
    return 1 if found else 0


if __name__ == "__main__":
    sys.exit(main())
