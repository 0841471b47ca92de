#!/usr/bin/env python3
"""Asks the completions for bash, zsh and fish, and compares what they offer with the table of docs/commands.md.

    tests/completions.py

Each shell completes `rbi`, `rbi help`, and each command of the table at the place of each of its words, in a folder that has a
file of each kind. A place of a file has to offer the files of its kind and the folders, and no other place offers a file. A shell
that isn't there is passed over, and a line says so."""

import os
import pty
import re
import select
import shutil
import subprocess
import sys
import tempfile
import time
from pathlib import Path

TOP = Path(__file__).resolve().parent.parent
COMPLETIONS = TOP / "completions"
PATIENCE = 60

FILES = ["p.rbi", "s.rbs", "e.events", "r.json", "other.txt", "inner/q.rbi", "inner/t.rbs", "inner/note.txt"]
# What stands for a word in a line, and what is offered at its place.
STANDS = {
    "PROGRAM": "p.rbi",
    "SERVICE": "s.rbs",
    "EVENTS": "e.events",
    "REQUEST": "r.json",
    "JOURNAL": "other.txt",
    "ADDRESS": "127.0.0.1:4777",
    "FUEL": "100",
    "COUNT": "1",
    "N": "1",
}
OFFERED = {
    "PROGRAM": {"p.rbi", "inner"},
    "SERVICE": {"s.rbs", "inner"},
    "EVENTS": {"e.events", "inner"},
    "REQUEST": {"r.json", "inner"},
    "JOURNAL": {"p.rbi", "s.rbs", "e.events", "r.json", "other.txt", "inner"},
    "ADDRESS": set(),
    "FUEL": set(),
    "COUNT": set(),
    "N": set(),
}
OTHERS = {"help", "--help", "--version"}


def forms():
    """The commands of the table, and the words of each."""
    text = (TOP / "docs/commands.md").read_text(encoding="utf-8")
    found = re.findall(r"^\| `rbi (\w+)([^`]*)` \|", text.split("## The answers")[0], re.MULTILINE)
    return {name: words.replace("[", "").replace("]", "").split() for name, words in found}


def cases():
    """Lines that end where the cursor is, and what is offered there."""
    table = forms()
    commands = set(table)
    made = [
        ("rbi ", commands | OTHERS),
        ("rbi help ", commands),
        ("rbi help ch", {"check", "child"}),
        ("rbi un", {"unsplit"}),
        ("rbi check i", {"inner"}),
        ("rbi check inner/", {"inner/q.rbi"}),
        ("rbi run 127.0.0.1:4777 inner/", {"inner/q.rbi"}),
        ("rbi child inner/", {"inner/t.rbs"}),
        ("rbi try both ", OFFERED["PROGRAM"]),
        ("rbi none ", set()),
    ]
    for name, words in table.items():
        line = f"rbi {name} "
        for word in words:
            made.append((line, OFFERED[word]))
            line += STANDS[word] + " "
        made.append((line, set()))
    return made


# The shells. Each function takes lines, and gives what the shell offers at the end of each.


def by_bash(lines, folder):
    script = ["source " + str(COMPLETIONS / "rbi.bash")]
    for line in lines:
        # Bash cuts at a colon too.
        words = [piece for word in line.split(" ") for piece in re.findall(r":+|[^:]+", word) or [""]]
        script.append("COMP_WORDS=(" + " ".join(f"'{word}'" for word in words) + f") COMP_CWORD={len(words) - 1}")
        script.append("_rbi; ((${#COMPREPLY[@]})) && printf '%s\\n' \"${COMPREPLY[@]}\"; echo =")
    return answers(["bash", "--norc", "-c", "\n".join(script)], folder)


def by_fish(lines, folder):
    script = ["source " + str(COMPLETIONS / "rbi.fish")]
    for line in lines:
        script.append(f"complete -C '{line}'; echo =")
    return answers(["fish", "--no-config", "-c", "\n".join(script)], folder)


def answers(command, folder):
    env, none = environment(folder), subprocess.DEVNULL
    done = subprocess.run(command, cwd=folder, env=env, stdin=none, capture_output=True, timeout=PATIENCE)
    if done.stderr:
        raise SystemExit(f"completions: {command[0]} says: {done.stderr.decode()}")
    return divided(done.stdout.decode())


def divided(text):
    return [part.split("\n")[:-1] for part in text.split("=\n")[:-1]]


# In zsh a key of its own asks the completion and writes down what it adds, since zsh completes at a terminal alone.
ZSH = r"""
PS1='ready> ' PS2= RPS1=
unsetopt zle_bracketed_paste 2> /dev/null
fpath=(@COMPLETIONS@ $fpath)
autoload -Uz compinit
compinit -D -u
compadd() {
    local -a kept
    if [[ " $* " == *" -"[OAD]" "* ]]; then
        builtin compadd "$@"
        return
    fi
    builtin compadd -A kept "$@"
    local option=-p at=${@[(i)-p]} before=
    (( at < $# )) && before=${@[at + 1]}
    (( $#kept )) && print -rl -- $before${^kept} >> $OFFERED
    builtin compadd "$@"
}
noted() {
    _main_complete
    print -r -- "=" >> $OFFERED
    compstate[insert]= compstate[list]=
}
zle -C noted complete-word noted
bindkey '^T' noted
bindkey '^U' kill-whole-line
"""


def by_zsh(lines, folder):
    offered = Path(folder, ".offered")
    Path(folder, ".setup").write_text(ZSH.replace("@COMPLETIONS@", str(COMPLETIONS)))
    offered.write_text("")
    child, terminal = pty.fork()
    if child == 0:
        os.chdir(folder)
        os.execvpe("zsh", ["zsh", "-f", "-i"], dict(environment(folder), OFFERED=str(offered), TERM="dumb"))
    try:
        end = time.monotonic() + PATIENCE
        os.write(terminal, b"source ./.setup\n")
        wait(terminal, end, lambda seen: b"ready> " in seen)
        for i, line in enumerate(lines):
            os.write(terminal, line.encode() + b"\x14")
            wait(terminal, end, lambda _: offered.read_text().count("=\n") > i)
            os.write(terminal, b"\x15")
    finally:
        os.kill(child, 9)
        os.waitpid(child, 0)
        os.close(terminal)
    return divided(offered.read_text())


def wait(terminal, end, there):
    """Takes what the terminal prints, until something is there."""
    seen = b""
    while not there(seen):
        if time.monotonic() > end:
            raise SystemExit(f"completions: zsh doesn't answer; it printed {seen!r}")
        if select.select([terminal], [], [], 0.01)[0]:
            seen += os.read(terminal, 65536)


def environment(folder):
    """The environment without the files that a shell reads at its start."""
    kept = {name: value for name, value in os.environ.items() if name not in ("BASH_ENV", "ZDOTDIR", "XDG_CONFIG_HOME")}
    return dict(kept, HOME=folder, XDG_DATA_HOME=folder + "/.data", XDG_CONFIG_HOME=folder + "/.config", LC_ALL="C.UTF-8")


def differences(shell, complete):
    asked = cases()
    with tempfile.TemporaryDirectory() as folder:
        for name in FILES:
            Path(folder, name).parent.mkdir(exist_ok=True)
            Path(folder, name).write_text("")
        offered = complete([line for line, _ in asked], folder)
    if len(offered) != len(asked):
        return [f"{shell}: {len(offered)} answers to {len(asked)} lines"]
    found = []
    for (line, wanted), given in zip(asked, offered):
        # Fish tells what a word means behind a tab, and bash has no slash behind a folder.
        got = {item.split("\t")[0] for item in given}
        got = {item.rstrip("/") for item in got}
        if got != wanted:
            found.append(f"{shell}: {line!r} offers {sorted(got)} in place of {sorted(wanted)}")
    return found


def lack(shell):
    """Why a shell can't be asked, if it can't."""
    if not shutil.which(shell):
        return "it isn't there"
    if shell == "fish" and subprocess.run(["fish", "--no-config", "-c", "true"], capture_output=True).returncode:
        return "it is an old one"
    if shell == "zsh":
        try:
            for end in pty.openpty():
                os.close(end)
        except OSError:
            return "there are no terminals to play"
    return None


def main():
    found = []
    for shell, complete in [("bash", by_bash), ("zsh", by_zsh), ("fish", by_fish)]:
        missing = lack(shell)
        if missing:
            print(f"completions: {shell} is passed over, since {missing}")
        else:
            found += differences(shell, complete)
    for line in found:
        print(line, file=sys.stderr)
    return 1 if found else 0


if __name__ == "__main__":
    sys.exit(main())
