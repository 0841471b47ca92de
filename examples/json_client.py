"""Prints the names of the files of files.rbs, by the command `json`: python3 examples/json_client.py.

RBI in the environment names the program, in place of the launcher."""
import json
import os
import pathlib
import subprocess
import tempfile

EXAMPLES = pathlib.Path(__file__).resolve().parent
RBI = os.environ.get("RBI", EXAMPLES.parent / "rbi")
TEXT, OBJECTS = 3, 8  # kinds of what calls give


def call(kind, name, target, *arguments):
    return ["call", 0, kind, name, target, list(arguments)]


def run(service, *steps, inputs=()):
    """The entries and the fault of the node that a script gives on a service."""
    with tempfile.NamedTemporaryFile("w", suffix=".json") as request:
        json.dump({"inputs": list(inputs), "steps": list(steps)}, request)
        request.flush()
        words = [RBI, "json", service, request.name]
        done = subprocess.run(words, stdout=subprocess.PIPE, text=True)
    line = done.stdout.partition("\n")[0]
    if done.returncode != 0 or "refusal" in json.loads(line):
        raise ValueError(line)
    reply = json.loads(line)
    return reply["entries"], reply["fault"]


if __name__ == "__main__":
    keep_name = ["keep", 1, 0, call(TEXT, "name", ["var", 0])]
    each_file = ["each", 0, 0, 0, False, call(OBJECTS, "files", ["root"]), [keep_name]]
    entries, fault = run(EXAMPLES / "files.rbs", each_file)
    for turn in entries[0][1]:
        print(turn["entries"][0][1])
