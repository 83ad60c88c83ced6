#!/usr/bin/env python3
"""usage: bench/forms.py [--table] [PROGRAM]

Runs the rows of bench/forms.txt with ./qsc or PROGRAM: what isn't read is refused with its line, and taken by gcc where
it is C11; what is written in its place ends with its status, and does so by gcc too. One line a failure, and then
`N passed, N failed`. With --table it prints the rows as docs/FIRMWARE.md has them.
"""
import os, re, subprocess, sys, tempfile
from concurrent.futures import ThreadPoolExecutor

GCC = ["gcc", "-std=c11", "-pedantic-errors"]
top = os.path.dirname(os.path.dirname(os.path.realpath(__file__)))


def rows():
    """The rows of the file, each with its section."""
    section, row, found = "", {}, []
    with open(f"{top}/bench/forms.txt") as it:
        for line in it.read().split("\n") + [""]:
            word, _, value = line.partition(" ")
            if word == "section":
                section = value.strip()
            elif line and word != "#":
                row[word] = value.strip()
            elif row:
                found.append({**row, "section": section})
                row = {}
    return found


def token(row):
    """The token of `bad` at which the fault stands."""
    line, column = map(int, row["line"].split(":")[:2])
    text = row["bad"].split("@")[line - 1][column - 1 :]
    return re.match(r"\w+|\\|#\w*|\"[^\"]*\"|'[^']*'|\.\.\.|<[:%]|->|.", text)[0]


def table():
    section = ""
    for row in rows():
        if row["section"] == "Looser":
            break
        if row["section"] != section:
            section = row["section"]
            print(f"\n### {section}\n\n| What isn't read | C11 | The line | Write |\n|---|---|---|---|")
        fault = row["line"].split(": ")[1]
        at = f" at `{token(row)}`" if fault == "unexpected token" else ""
        cells = row["form"], row["c11"].replace("-", "no C11"), f"`{fault}`{at}", row["write"]
        print("| " + " | ".join(it.replace("|", "\\|") for it in cells) + " |")


def failures(row, program):
    """What is wrong with a row."""
    with tempfile.TemporaryDirectory() as folder:
        return list(failures_in(row, program, folder))


def failures_in(row, program, folder):
    def run(*words):
        return subprocess.run(words, cwd=folder, capture_output=True, text=True, timeout=600)

    for name in {"bad", "good"} & set(row):
        with open(f"{folder}/{name}.c", "w") as it:
            it.write(row[name].replace("@", "\n") + "\n")
    if "line" in row:
        said = run(program, "check", "bad.c").stderr
        if said != f"bad.c:{row['line']}\n":
            yield f"bad: {said.strip()}"
        taken = run(*GCC, "-include", "stdint.h", "-fsyntax-only", "bad.c").returncode == 0
        if row["c11"] != "-" and not taken:
            yield "bad: gcc refuses it"
    if "good" not in row:
        return
    tool = [f"{top}/tools/qpp"] if "#" in row["good"] else [program]
    said = run(*tool, "exec", "good.c").stderr
    if not said.endswith(f"exit {row['exit']}\n"):
        yield f"good: {said.strip()}"
    if row["section"] != "Looser":
        if run("gcc", "-w", "-funsigned-char", "-fwrapv", "good.c", "-o", "good").returncode:
            yield "good: gcc refuses it"
        elif run(f"{folder}/good").returncode != int(row["exit"]):
            yield "good: gcc's program ends otherwise"


def main(words):
    if "--table" in words:
        return table()
    program = os.path.abspath(words[0] if words else f"{top}/qsc")
    os.environ["QSC"] = program
    passed = failed = 0
    with ThreadPoolExecutor(8) as pool:
        for row, wrong in zip(rows(), pool.map(lambda it: failures(it, program), rows())):
            for it in wrong:
                print(f"{row['form']}: {it}", flush=True)
            passed, failed = passed + (not wrong), failed + bool(wrong)
    print(f"{passed} passed, {failed} failed")
    return failed > 0


sys.exit(main(sys.argv[1:]))
