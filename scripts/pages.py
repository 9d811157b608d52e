#!/usr/bin/env python3
"""Keeps the pages true to the tree.

    pages.py [PAGE ..]              all four checks below; a line for each thing that is wrong, status 1 if there is any
    pages.py examples [PAGE ..]     runs each example of the pages and compares what it prints
    pages.py examples --write ..    writes what the program prints into the examples
    pages.py examples --try ..      runs those over disks in memory alone, by `rt try`: without a proof, in a few minutes
    pages.py names [PAGE ..]        looks up each file and each name in backticks, and what each wrong body changes
    pages.py sentences [PAGE ..]    lists sentences of more than 30 words, and the median of each page
    pages.py tables                 compares the tables and the numbers that scripts make; --write makes them anew

Without a page: README.md, CONTRIBUTING.md, CHANGELOG.md, docs/*.md and the README.md of each crate.

An example is a block of indented lines whose first line begins with `$ `. Each `$ ` line is run by bash, in a folder of the
block's own in which `examples` and `lvm` are found, and the lines up to the next one are what it has to print. Where the
lines behind `$ lvm sim ..` begin with `> `, these are the script, and under each stands its reply. Where that line ends in
`< examples/NAME`, the lines of this file stand on the left, and their replies on the right.

LVM names the program; without it crates/lvm/out/lvm is taken, which `rt run` builds.
"""
import functools, os, re, statistics, subprocess, sys, tempfile

ROOT = os.path.dirname(os.path.dirname(os.path.abspath(__file__)))
LVM = os.path.abspath(os.environ.get("LVM") or f"{ROOT}/crates/lvm/out/lvm")
MOST = 30
# a line that is refused by its column, and changes nothing
MARK = " " * 99 + "?"
sys.path.insert(0, f"{ROOT}/scripts")


def all_pages():
    found = [it for it in ("README.md", "CONTRIBUTING.md", "CHANGELOG.md") if os.path.exists(f"{ROOT}/{it}")]
    found += sorted(f"docs/{it}" for it in os.listdir(f"{ROOT}/docs") if it.endswith(".md"))
    found += sorted(f"crates/{it}/README.md" for it in os.listdir(f"{ROOT}/crates") if os.path.exists(f"{ROOT}/crates/{it}/README.md"))
    return found


def read(path):
    with open(f"{ROOT}/{path}", encoding="utf-8") as file:
        return file.read()


# ---- examples

def blocks(lines):
    """The indented blocks of a page, as pairs of first line and line behind the last."""
    at = 0
    while at < len(lines):
        if lines[at].startswith("    ") and (at == 0 or not lines[at - 1].strip()):
            end = at
            while end < len(lines) and lines[end].startswith("    "):
                end += 1
            yield at, end
            at = end
        else:
            at += 1


def in_folder(folder, command, text=None):
    env = dict(os.environ, PATH=f"{folder}/.bin:{os.environ['PATH']}")
    ran = subprocess.run(["bash", "-c", command], cwd=folder, env=env, input=text, stdout=subprocess.PIPE, stderr=subprocess.STDOUT, text=True,
                         stdin=None if text is not None else subprocess.DEVNULL)
    return ran.stdout, ran.returncode


def set_up(folder):
    os.makedirs(f"{folder}/.bin")
    os.symlink(LVM, f"{folder}/.bin/lvm")
    os.symlink(f"{ROOT}/examples", f"{folder}/examples")


def run_block(body):
    """What stands in a block once it has been run, and what is wrong with it besides."""
    made, wrong, at = [], [], 0
    with tempfile.TemporaryDirectory() as folder:
        set_up(folder)
        while at < len(body):
            command = body[at][2:]
            end = at + 1
            while end < len(body) and not body[end].startswith("$ "):
                end += 1
            script = [it for it in body[at + 1:end] if it.startswith("> ") or it == ">"]
            made.append(body[at])
            of_file = re.fullmatch(r"(.*) < (examples/\S+)", command)
            if of_file and not os.path.exists(f"{folder}/{of_file[2]}"):
                wrong.append(f"there is no {of_file[2]}")
            elif of_file or script:
                command = of_file[1] if of_file else command
                lines = open(f"{folder}/{of_file[2]}").read().splitlines() if of_file else [it[2:] for it in script]
                wide = max(len(it) for it in lines) + 3
                out, ended = in_folder(folder, command, "".join(it + "\n" for it in lines))
                told = out.splitlines()
                # once more with a line behind each that isn't in the language: where its refusal stands, the next reply begins
                out, _ = in_folder(folder, command, "".join(f"{it}\n{MARK}\n" for it in lines))
                parts = [it.splitlines() for it in out.split(f"refused 1 BadLine {len(MARK)}\n")]
                if sum(parts, []) != told or len(parts) != len(lines) + 1:
                    wrong.append("replies can't be told apart")
                for line, more, first in zip(lines, parts, script or lines):
                    if of_file:
                        made += [f"{line if not n else '':<{wide}}{it}".rstrip() for n, it in enumerate(more or [""])]
                    else:
                        made += [first, *more]
                if ended != (1 if any(it.startswith("refused ") for it in told) else 0):
                    wrong.append(f"status {ended}")
            else:
                out, _ = in_folder(folder, command)
                made += out.splitlines()
            at = end
    return made, wrong


def examples(pages, write):
    bad, count = [], 0
    if not os.path.exists(LVM):
        return [f"examples: no program at {LVM}: build it (cd crates/lvm && rt run -- --version), or name one by LVM"]
    for page in pages:
        lines = read(page).split("\n")
        changed = False
        for at, end in reversed(list(blocks(lines))):
            body = [it[4:] for it in lines[at:end]]
            if not body[0].startswith("$ "):
                continue
            count += 1
            made, wrong = run_block(body)
            bad += [f"{page}:{at + 1}: {it}" for it in wrong]
            if made != body:
                if write:
                    lines[at:end] = [("    " + it).rstrip() for it in made]
                    changed = True
                else:
                    first = next((k for k, (a, b) in enumerate(zip(made + [None], body + [None])) if a != b), 0)
                    bad.append(f"{page}:{at + 1 + first}: prints {(made + ['nothing more'])[min(first, len(made))]!r}")
        if changed:
            with open(f"{ROOT}/{page}", "w", encoding="utf-8") as file:
                file.write("\n".join(lines))
    print(f"examples: {count} run")
    return bad


def sim_runs(body):
    """The runs over disks in memory of a block: the words, the script, and what stands under it; and how many other commands it has."""
    runs, others, at = [], 0, 0
    while at < len(body):
        command, end = body[at][2:], at + 1
        while end < len(body) and not body[end].startswith("$ "):
            end += 1
        rows, of_file = body[at + 1:end], re.fullmatch(r"lvm (sim \d+ \d+) < (examples/\S+)", command)
        if of_file and os.path.exists(f"{ROOT}/{of_file[2]}"):
            lines = read(of_file[2]).splitlines()
            wide = max(len(it) for it in lines) + 3
            runs.append((of_file[1].split(), lines, [it[wide:] for it in rows if it[wide:]]))
        elif re.fullmatch(r"lvm sim \d+ \d+", command) and any(it.startswith(">") for it in rows):
            runs.append((command.split()[1:], [it[2:] for it in rows if it.startswith(">")], [it for it in rows if not it.startswith(">")]))
        elif piped := re.fullmatch(r"printf '([^']*)' \| lvm (sim \d+ \d+)", command):
            runs.append((piped[2].split(), piped[1].replace("\\n", "\n").splitlines(), rows))
        elif drawn := re.fullmatch(r"lvm ((?:gen|weave)(?: \d+)+)(; echo status \$\?)?", command):
            runs.append((drawn[1].split(), [], rows[:-1] if drawn[2] else rows))
        else:
            others += 1
        at = end
    return runs, others


def try_examples(pages):
    """Runs what the examples have over disks in memory by `rt try`, which checks the types and builds once, and proves nothing."""
    count, others, bad = 0, 0, []
    with tempfile.TemporaryDirectory() as folder:
        for page in pages:
            lines = read(page).split("\n")
            for at, end in blocks(lines):
                body = [it[4:] for it in lines[at:end]]
                if body[0].startswith("$ "):
                    runs, more = sim_runs(body)
                    others += more
                    for number, (words, script, wanted) in enumerate(runs):
                        name = f"{folder}/{page.replace('/', '_').replace('.', '_')}_{at + 1}_{number}"
                        for ending, text in (("", script), (".args", words), (".stdout", wanted)):
                            with open(name + ending, "w", encoding="utf-8") as file:
                                file.write("".join(it + "\n" for it in text))
                        count += 1
        ran = subprocess.run(["rt", "try", "--cases", folder], cwd=f"{ROOT}/crates/lvm", stdout=subprocess.PIPE, stderr=subprocess.STDOUT, text=True)
        print(ran.stdout, end="")
        if ran.returncode:
            bad.append(f"examples: rt try ended with status {ran.returncode}")
    print(f"examples: {count} run over disks in memory, {others} other commands not")
    return bad


# ---- names

def tree_words():
    words, files = set(), []
    for folder in ("crates", "scripts", "examples"):
        for at, dirs, names in os.walk(f"{ROOT}/{folder}"):
            dirs[:] = [it for it in dirs if it != "out"]
            for name in names:
                path = os.path.relpath(f"{at}/{name}", ROOT)
                files.append(path)
                words.add(name.split(".")[0])
                if not name.endswith(".md"):
                    words |= set(re.findall(r"[A-Za-z_][A-Za-z0-9_]*", open(f"{ROOT}/{path}", encoding="utf-8", errors="replace").read()))
    files += [it for it in os.listdir(ROOT) if os.path.isfile(f"{ROOT}/{it}")] + [f"docs/{it}" for it in os.listdir(f"{ROOT}/docs")] + [".ci/run"]
    words |= set(re.findall(r"[A-Za-z_][A-Za-z0-9_]*", read("crates.txt")))
    return words, files


PATH = re.compile(r"^[\w./-]+(?:/[\w.-]+|\.(?:rt|antt|md|sh|py|txt|edit))/?$")
# words of the kit, of the system and of others, which stand in no file of the tree
OF_KIT = {"rt", "rattle", "flock", "clang", "sqlite", "dac8208d650f15bf", "CRLF"}


def find(path, files):
    path = path.rstrip("/")
    return [it for it in files if it == path or it == f"crates/{path}" or it.endswith("/" + path) or it.startswith(path + "/") or it.startswith(f"crates/{path}/")]


def names(pages):
    words, files = tree_words()
    cases = set(read("crates/lvm_rows/stdin").split("\n"))
    bad = []
    for page in pages:
        own = os.path.dirname(page)
        for number, line in enumerate(read(page).split("\n"), 1):
            if line.startswith("    "):
                continue
            said = re.findall(r"`([^`]+)`", line)
            for it in said:
                if it.startswith("/") or "*" in it or "hdisk" in it:
                    continue
                if it.startswith("case ") and it not in cases:
                    bad.append(f"{page}:{number}: no {it}")
                if PATH.match(it) and ("/" in it or "." in it):
                    if not find(it, files) and not find(f"{own}/{it}", files):
                        bad.append(f"{page}:{number}: no file {it}")
                elif re.fullmatch(r"[A-Za-z_][\w]*(?:(?:::|\.)\w+)*", it):
                    for part in re.split(r"::|\.", it):
                        if part not in words and part not in OF_KIT:
                            bad.append(f"{page}:{number}: no name {it}")
                            break
            pairs = [(a.split("|"), b) for a, b in re.findall(r"((?:`\w+`(?:, | and )?)+)(?: in |, | \(|: | \| )`([\w./-]+\.(?:antt|rt))`", line)]
            for group, path in pairs:
                found = find(path, files) or find(f"{own}/{path}", files)
                text = "".join(read(it) for it in found)
                for name in re.findall(r"`(\w+)`", "".join(group)):
                    if found and not re.search(rf"\b{name}\b", text):
                        bad.append(f"{page}:{number}: {name} isn't in {path}")
    return bad


def edits():
    """Wrong bodies whose text doesn't stand just once where it is changed, or that the README of their crate doesn't name."""
    bad = []
    for folder in sorted(list(edits_under("crates")) + list(edits_under("scripts/wrong-bodies"))):
        crate = folder.split("/")[-2] if folder.endswith("/must-fail") else folder.split("/")[-1]
        page = read(f"crates/{crate}/README.md") if os.path.exists(f"{ROOT}/crates/{crate}/README.md") else ""
        for name in sorted(os.listdir(folder)):
            if not name.endswith(".edit"):
                continue
            path = os.path.relpath(f"{folder}/{name}", ROOT)
            text = read(path)
            file = re.search(r"^file: (.*)$", text, re.M)
            if not file or not os.path.exists(f"{ROOT}/crates/{crate}/{file[1]}"):
                bad.append(f"{path}: no file {file[1] if file else ''}")
                continue
            code = read(f"crates/{crate}/{file[1]}")
            for lines in re.findall(r"((?:^old:.*\n)+)", text, re.M):
                old = "\n".join(it[5:] for it in lines.rstrip("\n").split("\n"))
                if code.count(old) != 1:
                    bad.append(f"{path}: stands {code.count(old)} times: {old.strip()[:80]}")
            if f"`{name[:-5]}`" not in page:
                bad.append(f"{path}: crates/{crate}/README.md doesn't name it")
    return bad


# ---- sentences

def sentences_of(text):
    kept, code = [], False
    for line in text.split("\n"):
        if line.startswith("    ") or line.startswith("#") or line.startswith("<!--") or re.fullmatch(r"[|\s:-]*", line):
            kept.append("")
        elif line.startswith("|"):
            kept += [""] + [cell.strip() + "\n" for cell in line.strip().strip("|").split("|")] + [""]
        else:
            kept.append(re.sub(r"^\s*(?:[-*]|\d+\.)\s+", "\n", line))
    text = re.sub(r"`[^`]*`", "CODE", "\n".join(kept))
    for part in re.split(r"\n\s*\n", text):
        for it in re.split(r"(?<=[.!?])[\"')*]*\s+(?=[A-Z\"'(*])", " ".join(part.split())):
            if it.strip():
                yield it.strip()


def sentences(pages):
    bad = []
    for page in pages:
        counts = []
        for it in sentences_of(read(page)):
            count = len(it.split())
            if set(it.split()) == {"CODE"}:
                continue
            if count > 2:
                counts.append(count)
            if count > MOST:
                bad.append(f"{page}: {count} words: {it[:160]}")
        if counts:
            median = statistics.median(counts)
            print(f"sentences: {page}: {len(counts)}, median {median:.0f}, longest {max(counts)}")
            if median > 20:
                bad.append(f"{page}: the median sentence has {median:.0f} words")
    return bad


# ---- tables

def rooms():
    """The rooms of crates.txt: title, text, and the names of the crates."""
    found = []
    for line in read("crates.txt").split("\n"):
        if line.startswith("#"):
            title, _, text = line[1:].strip().partition(":")
            found.append((title.strip(), text.strip(), []))
        elif ":" in line:
            found[-1][2].append(line.split(":")[0].split()[0])
    return found


def what_it_has(name):
    """The first sentence of a crate's root file."""
    for root in ("lib.rt", "main.rt"):
        path = f"crates/{name}/src/{root}"
        if os.path.exists(f"{ROOT}/{path}"):
            said = []
            for line in read(path).split("\n"):
                if not line.startswith("//!"):
                    break
                said.append(line[3:].strip())
            text = re.split(r"(?<=\.)\s", " ".join(said))[0].rstrip(".")
            for mark in ("; ", ": ", ", and "):
                if len(text.split()) > 24:
                    text = text.split(mark)[0]
            return text
    return ""


def room_table():
    out = ["| Room | What is there | Crates |", "|---|---|---|"]
    for title, text, crates in rooms():
        out.append(f"| {title} | {text} | {' '.join(f'`{it}`' for it in crates)} |")
    return out


def graph():
    """What each crate of crates.txt names, in their order."""
    return {name: below for name, below in ((line.split(":")[0].split()[0], line.split(":", 1)[1].split())
                                            for line in read("crates.txt").split("\n") if ":" in line and not line.startswith("#"))}


def above_each():
    """The crates that stand on each crate, directly or not."""
    deps, above = graph(), {}

    def below(name, seen):
        for dep in deps.get(name, []):
            if dep in deps and dep not in seen:
                seen.add(dep)
                below(dep, seen)
        return seen

    for it in deps:
        above.setdefault(it, set())
        for dep in below(it, set()):
            above.setdefault(dep, set()).add(it)
    return above


def crate_table():
    above = above_each()
    out = ["| Crate | What it has | Crates above |", "|---|---|---|"]
    for _, _, crates in rooms():
        for it in crates:
            out.append(f"| `{it}` | {what_it_has(it)} | {len(above[it])} |")
    return out


def change_table():
    """How many crates are proved again when one changes, in steps of ten."""
    rows = {}
    for it, crates in above_each().items():
        if crates and not it.startswith("lvm_tests"):
            rows.setdefault(len(crates) // 10 * 10, []).append(it)
    out = ["| Crates above | Crates |", "|---|---|"]
    for least in sorted(rows, reverse=True):
        out.append(f"| {least or 1} to {least + 9} | {' '.join(f'`{it}`' for it in rows[least])} |")
    return out


def law_table():
    """The crates in which no function has a body."""
    found = []
    for it in graph():
        texts = [read(f"crates/{it}/src/{path}") for path in sources(it)]
        if not any(re.search(r"^\s*\{$|\bfn \w+[^;{]*\{$", text, re.M) for text in texts):
            found.append(f"`{it}`")
    return [", ".join(found) + "."]


def sources(name):
    base = f"{ROOT}/crates/{name}/src"
    return [os.path.relpath(f"{at}/{file}", base) for at, _, files in os.walk(base) for file in sorted(files) if file.endswith(".rt")]


def test_list(page):
    """The tests of the page's crate by their names, which are sentences, file by file."""
    name, out = page.split("/")[1], []
    for path in sorted(sources(name)):
        found = re.findall(r"#\[test\]\n(?:\s*#\[.*\]\n)*\s*(?:pub )?fn (\w+)", read(f"crates/{name}/src/{path}"))
        if found:
            out += ["", f"`src/{path}`:", ""] + [f"- {it.replace('_', ' ')}" for it in found]
    return out[1:]


def event_table():
    from events import table
    return table()


MADE = {"rooms": room_table, "crates": crate_table, "changes": change_table, "laws": law_table, "events": event_table, "tests": test_list}


# ---- numbers: what stands in the groups of each pattern, wherever the text does

def edits_under(folder):
    """The folders with edits below this one, and how many edits there are."""
    found = {}
    for at, _, files in os.walk(f"{ROOT}/{folder}"):
        if "/out" not in at and any(it.endswith(".edit") for it in files):
            found[at] = sum(it.endswith(".edit") for it in files)
    return found


def ways():
    """How many ways lead down through crates.txt, from each crate to each below it or to itself."""
    deps, known = graph(), {}

    def from_here(name):
        if name not in known:
            known[name] = 1 + sum(from_here(dep) for dep in deps[name] if dep in deps)
        return known[name]

    return sum(from_here(it) for it in deps)


def behind(module, name):
    """How many definitions one rests on, itself among them, and of how many lines, comments and types of the code aside."""
    from plain import Specs
    specs, seen, todo = Specs(set()), set(), [(module, name)]
    while todo:
        at = todo.pop()
        if at not in seen:
            seen.add(at)
            todo += specs.below(*at)
    return len(seen), sum(bool(line.strip()) for of, it in seen for line in specs.load(of)[2][it].split("\n"))


NUMBER_WORDS = ["no", "one", "two", "three", "four", "five", "six", "seven", "eight", "nine", "ten"]


@functools.lru_cache(None)
def numbers_wanted():
    must, tried, deps = edits_under("crates"), edits_under("scripts/wrong-bodies"), graph()
    return [
        (r"`UpholdsPlainly` in `lvm_top/specs/Plain.antt`. It rests on (\d+) definitions of (\d+) lines", list(behind("Rattle.lvm_top.specs.Plain", "UpholdsPlainly"))),
        (r"(\d+) edits stand under `must-fail/` of (\w+) crates", [sum(must.values()), NUMBER_WORDS[len(must)]]),
        (r"(\d+) wrong bodies of (\d+) crates stand under", [sum(tried.values()), len(tried)]),
        (r"With (\d+) crates and (\d+) names of them in these lines there are ([\d,]+) ways", [len(deps), sum(it in deps for below in deps.values() for it in below), f"{ways():,}"]),
    ]


def numbers(text):
    """The text with the numbers that the tree has."""
    for pattern, wanted in numbers_wanted():
        for it in reversed(list(re.finditer(pattern, text))):
            for group in range(len(wanted), 0, -1):
                text = text[:it.start(group)] + str(wanted[group - 1]) + text[it.end(group):]
    return text


def edges_up():
    """The crates of crates.txt that name one which stands behind them there."""
    lines = [line for line in read("crates.txt").split("\n") if ":" in line and not line.startswith("#")]
    places = {line.split(":")[0].split()[0]: place for place, line in enumerate(lines)}
    bad = []
    for name, place in places.items():
        for dep in lines[place].split(":", 1)[1].split():
            if places.get(dep, -1) > place:
                bad.append(f"crates.txt: {name} stands before {dep}, which it builds on")
    return bad


def tables(pages, write):
    bad = edges_up()
    for page in pages:
        text = read(page)
        told = numbers(text)
        if told != text and write:
            with open(f"{ROOT}/{page}", "w", encoding="utf-8") as file:
                file.write(told)
            text = told
        elif told != text:
            bad.append(f"{page}: a number isn't that of the tree: pages.py tables --write")
        for name, make in MADE.items():
            mark = re.compile(rf"(<!-- {name}, by scripts/pages.py -->\n).*?(\n<!-- end -->)", re.S)
            if not mark.search(text):
                continue
            wanted = mark.sub(lambda it: it.group(1) + "\n" + "\n".join(make(page) if make is test_list else make()) + "\n" + it.group(2), text)
            if wanted != text:
                if write:
                    with open(f"{ROOT}/{page}", "w", encoding="utf-8") as file:
                        file.write(wanted)
                    text = wanted
                else:
                    bad.append(f"{page}: the table {name} isn't that of the tree: pages.py tables --write")
    return bad


def main(words):
    write, by_try = "--write" in words, "--try" in words
    words = [it for it in words if it not in ("--write", "--try")]
    kind = words.pop(0) if words and words[0] in ("examples", "names", "sentences", "tables") else None
    if words and words[0].startswith("-"):
        print(__doc__)
        return 2
    pages = [os.path.relpath(os.path.abspath(it), ROOT) for it in words] or all_pages()
    bad = []
    if kind in (None, "tables"):
        bad += tables(pages, write)
    if kind in (None, "examples"):
        bad += try_examples(pages) if by_try else examples(pages, write)
    if kind in (None, "names"):
        bad += names(pages) + edits()
    if kind in (None, "sentences"):
        bad += sentences(pages)
    print("\n".join(bad) if bad else "pages: nothing is wrong")
    return 1 if bad else 0


sys.exit(main(sys.argv[1:]))
