#!/usr/bin/env python3
"""usage: bench/stack.py [PROGRAM]

Prints, as README.md has it, what five examples need of the stack: the bound of ./qsc or PROGRAM, and the deepest calls of
gcc's code for RV32IM at -O0 and -O1, its frames by -fcallgraph-info added up from main on; putchar and getchar count 0.
"""
import os, re, subprocess, sys, tempfile

top = os.path.dirname(os.path.dirname(os.path.realpath(__file__)))
program = os.path.abspath(sys.argv[1] if sys.argv[1:] else f"{top}/qsc")
GCC = """riscv64-unknown-elf-gcc -march=rv32im -mabi=ilp32 -ffreestanding -fno-builtin -fno-pic -funsigned-char -fwrapv
    -w -include streams.h -fstack-usage -fcallgraph-info=su -c -o a.o""".split()


def bound(source):
    run = source.replace(".c", ".run")
    arguments = re.search("^args (.*)", open(run).read(), re.M)
    words = [program, "bound", source, *([f"--args={arguments[1]}"] if arguments else [])]
    return subprocess.run(words, capture_output=True, text=True, check=True).stdout.split()[-1]


def gcc_need(source, level):
    subprocess.run([*GCC, level, source], check=True)
    graph = open("a.ci").read()
    own = {it[0]: int(it[1]) for it in re.findall(r'node: { title: "([^"]*)" label: "[^"]*?(\d+) bytes \(static\)', graph)}
    edges = re.findall(r'edge: { sourcename: "([^"]*)" targetname: "([^"]*)"', graph)

    def need(name):
        return own.get(name, 0) + max((need(to) for at, to in edges if at == name), default=0)

    return need("main")


with tempfile.TemporaryDirectory() as folder:
    os.chdir(folder)
    with open("streams.h", "w") as it:
        it.write("int putchar(int);\nint getchar(void);\n")
    print("| Program | `bound` | gcc -O0 | gcc -O1 |\n|---|---|---|---|")
    for name in ("crc32", "ring", "frame", "uart", "sha256"):
        source = f"{top}/examples/{name}.c"
        cells = bound(source), gcc_need(source, "-O0"), gcc_need(source, "-O1")
        print(f"| [{name}](examples/{name}.c) | " + " | ".join(map(str, cells)) + " |")
