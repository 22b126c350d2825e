#!/usr/bin/env python3
"""The files that scripts write are what the scripts give, byte for byte: check.py

Every file that a program of the gate is fed with or held to, and every example, stands in one of the lists below, or this
fails: a file that nobody compares could say anything.
"""
import glob
import os
import subprocess
import sys
import tempfile

TOP = os.path.join(os.path.dirname(os.path.abspath(__file__)), "../..")

# What writes the files, with {} for the folder, and how to have them written anew.
SCRIPTS = [
    (["tools/make_calls.py", "{}/crates/recorded/data/calls.bin", "{}/calls.cases", "{}/crates/replay"], "make calls",
     ["crates/recorded/data/calls.bin", "crates/replay/stdin", "crates/replay/stdout"]),
    (["tools/make_sizes.py", "{}/crates/sizes"], "make sizes", ["crates/sizes/stdin", "crates/sizes/stdout"]),
]

# Who compares the others, since it takes more than a script to make them.
ELSEWHERE = {
    "crates/constants/stdout": "rt ci: the proved program prints it",
    "crates/recorded/stdout": "rt ci: the proved program prints it",
    "crates/recorded/data/few.bin": "make differential-gate: the original's answers",
    "crates/recorded/data/many.bin": "make differential-gate: the original's answers",
    "crates/recorded/data/most.bin": "make differential-gate: the original's answers",
    "crates/ghosts/stdin": "make differential-gate: what the original is asked",
    "crates/ghosts/stdout": "make differential-gate: the original's answers",
    "examples/first.answers": "make host-run: the replay program's answers",
    "examples/thin.told": "make host-thin: the example host prints it",
}

BY_HAND = {"examples/first.trace"}
ARGUMENTS = "crates/recorded/args"


def read(path):
    with open(os.path.join(TOP, path), "rb") as file:
        return file.read()


def found():
    patterns = ["crates/*/stdin", "crates/*/stdout", "crates/*/args", "crates/*/status", "crates/*/data/*", "examples/*"]
    return {path for pattern in patterns for path in glob.glob(pattern, root_dir=TOP)}


def problems():
    listed = {path for _, _, paths in SCRIPTS for path in paths} | set(ELSEWHERE) | BY_HAND | {ARGUMENTS}
    for path in sorted(found() ^ listed):
        yield f"{path} is there, and nobody compares it" if path not in listed else f"{path} is listed, and not there"
    recorded = sorted(os.listdir(os.path.join(TOP, "crates/recorded/data")))
    if sorted(read(ARGUMENTS).decode().split()) != recorded:
        yield f"{ARGUMENTS} is not {', '.join(recorded)}: the program replays what it names"
    for (script, *words), again, paths in SCRIPTS:
        with tempfile.TemporaryDirectory() as folder:
            for path in paths:
                os.makedirs(os.path.join(folder, os.path.dirname(path)), exist_ok=True)
            subprocess.run([sys.executable, os.path.join(TOP, script), *(word.format(folder) for word in words)],
                           stdout=subprocess.DEVNULL, check=True)
            for path in paths:
                with open(os.path.join(folder, path), "rb") as file:
                    if file.read() != read(path):
                        yield f"{path} is not what {script} gives: run `{again}`"


def main():
    wrong = list(problems())
    for problem in wrong:
        print(f"generated: {problem}", file=sys.stderr)
    if wrong:
        sys.exit(1)
    made = sum(len(paths) for _, _, paths in SCRIPTS)
    print(f"generated: {made} files are what their scripts give; {len(ELSEWHERE)} others are compared elsewhere in the gate")


if __name__ == "__main__":
    main()
