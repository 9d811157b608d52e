#!/usr/bin/env python3
"""The cases of crates/lvm_rows, each script with its answers behind it.

    rows.py [WORD ..]       prints the cases whose title has each of these words, an answer behind `= `
    rows.py write FILE      writes the cases of a file that is laid out so into crates/lvm_rows, in place of those that are there
    rows.py compare FILE    compares what the program printed with the answers, case by case, status 1 where any differ

The tool wants the scripts in `stdin` and the answers in `stdout`. To change many cases print them to a file, change that,
and write it back. Answers stand behind the line that runs the script; those of several sweeps behind the last of these.
"""
import os, sys

ROWS = f"{os.path.dirname(os.path.dirname(os.path.abspath(__file__)))}/crates/lvm_rows"
RUNS = ("run", "words", "ends", "weave")
SWEEPS = ("sweep", "twice")


def read(path):
    # A carriage return is part of its line.
    with open(path, encoding="utf-8", newline="\n") as file:
        return file.read().removesuffix("\n").split("\n")


def is_case(line):
    return line.startswith("case ")


def cases_of(lines):
    """The lines before the first case, and those of each case with its title first."""
    front, found = [], []
    for line in lines:
        if is_case(line):
            found.append([line])
        elif found:
            found[-1].append(line)
        else:
            front.append(line)
    return front, found


def verb_of(line):
    return line.split(" ", 1)[0]


def answers_from(verb, left, is_last):
    """How many of the answers that are left are those of a line."""
    if verb in RUNS:
        ends = [k for k, answer in enumerate(left) if answer.startswith("status ")]
        return ends[0] + 1 if ends else len(left)
    if verb == "probe":
        return 1
    return len(left) if verb in SWEEPS and is_last else 0


def with_answers(script, answers):
    laid, left = [], answers[1:]
    asking = [k for k, line in enumerate(script) if verb_of(line) in (*RUNS, *SWEEPS, "probe")]
    for k, line in enumerate(script):
        laid.append(line)
        if k in asking:
            count = answers_from(verb_of(line), left, k == asking[-1])
            laid += [f"= {answer}" for answer in left[:count]]
            left = left[count:]
    return laid + [f"= {answer}" for answer in left]


def show(words):
    front, scripts = cases_of(read(f"{ROWS}/stdin"))
    _, answers = cases_of(read(f"{ROWS}/stdout"))
    if [it[0] for it in scripts] != [it[0] for it in answers]:
        sys.exit("rows: the scripts and the answers have other titles")
    if not words:
        print("\n".join(front))
    for script, answer in zip(scripts, answers):
        if all(word in script[0] for word in words):
            print("\n".join(with_answers(script, answer)))


def write(path):
    lines = read(path)
    with open(f"{ROWS}/stdin", "w", encoding="utf-8", newline="\n") as file:
        file.writelines(f"{line}\n" for line in lines if not line.startswith("= "))
    with open(f"{ROWS}/stdout", "w", encoding="utf-8", newline="\n") as file:
        file.writelines(f"{line.removeprefix('= ')}\n" for line in lines if is_case(line) or line.startswith("= "))


def compare(path):
    _, wanted = cases_of(read(f"{ROWS}/stdout"))
    printed = {it[0]: it for it in cases_of(read(path))[1]}
    other = [it for it in wanted if printed.get(it[0]) != it]
    for it in other:
        got = printed.get(it[0], ["it isn't there"])
        print(it[0])
        print("\n".join(f"  wanted  {line}" for line in it[1:] if line not in got))
        print("\n".join(f"  printed {line}" for line in got[1:] if line not in it))
    sys.exit(1 if other else 0)


if __name__ == "__main__":
    if sys.argv[1:2] == ["write"]:
        write(sys.argv[2])
    elif sys.argv[1:2] == ["compare"]:
        compare(sys.argv[2])
    else:
        show(sys.argv[1:])
