#!/usr/bin/env python3
"""counts.py [NAME..]: how much a reader has to carry: lines of code, definitions and proofs, functions of each crate, and for each NAME the files in which it stands as a word.

A function is counted by its `fn` in src/. The product is all crates but tests, benchmarks and pictures. Where a command `duplicates` is on the path, which lists places that are
alike, it is given the code without comments, `use` lines and empty lines, and its first line is printed.
"""
import os
import re
import shutil
import subprocess
import sys
import tempfile

TOP = os.path.dirname(os.path.dirname(os.path.realpath(__file__)))
PARTS = ("src", "specs", "proofs")
BESIDE = {"thread_runs", "log_tests", "host_tests", "bench", "workloads"}
FUNCTION = re.compile(r'^\s*(?:pub(?:\([a-z]+\))? )?(?:const )?(?:extern "C" )?fn ', re.MULTILINE)
PASSED_OVER = re.compile(r"\s*(?:(?:ghost |pub |pub\(.*\) )?use |//|--|$)")


def files(crate):
    for part in PARTS:
        for folder, _, names in os.walk(f"{TOP}/crates/{crate}/{part}"):
            for name in names:
                if name.endswith((".rt", ".antt")):
                    with open(f"{folder}/{name}", encoding="utf-8") as file:
                        yield part, f"{folder}/{name}", file.read()


def pairs(texts):
    """What `duplicates` says of the code. It knows files by other endings."""
    with tempfile.TemporaryDirectory() as room:
        for path, text in texts:
            base, ending = os.path.splitext(f"{room}/{os.path.relpath(path, TOP)}")
            os.makedirs(os.path.dirname(base), exist_ok=True)
            with open(base + (".rs" if ending == ".rt" else ".hs"), "w", encoding="utf-8") as file:
                file.writelines(f"{line}\n" for line in text.split("\n") if not PASSED_OVER.match(line))
        ran = subprocess.run(["duplicates", "--repo", room, "--most", "1", "--seconds", "300"], stdout=subprocess.PIPE, text=True, check=True)
    return ran.stdout.split("\n", maxsplit=1)[0]


def main():
    crates = sorted(os.listdir(f"{TOP}/crates"))
    all_lines, product, functions, texts = dict.fromkeys(PARTS, 0), dict.fromkeys(PARTS, 0), {}, []
    for crate in crates:
        functions[crate] = 0
        for part, path, text in files(crate):
            all_lines[part] += text.count("\n")
            product[part] += 0 if crate in BESIDE else text.count("\n")
            functions[crate] += len(FUNCTION.findall(text)) if part == "src" else 0
            texts.append((path, text))
    print(f"{sum(all_lines.values())} lines: " + ", ".join(f"{count} of {part}/" for part, count in all_lines.items()))
    print(f"specs/ and proofs/ for a line of the product's src/: {(product['specs'] + product['proofs']) / product['src']:.2f}")
    print(f"crates of more than 100 functions: {', '.join(f'{crate} {count}' for crate, count in functions.items() if count > 100)}")
    if shutil.which("duplicates"):
        print(pairs(texts))
    for name in sys.argv[1:]:
        ran = subprocess.run(["git", "-C", TOP, "grep", "-lw", name], stdout=subprocess.PIPE, text=True, check=False)
        print(f"{name}: {len(ran.stdout.split())} files")


if __name__ == "__main__":
    main()
