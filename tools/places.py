#!/usr/bin/env python3
"""Counts places in the code that could take a plainer form: tools/places.py [COMMIT]

Prints, of crates/*/src at the commit (the work tree without one):
  1 numbers     lines in which a number or a flag stands for a kind, a refusal or for "none"
  2 twins       groups of functions whose text is the same once names, types and numbers are taken out
  3 loops       loops over a range of numbers, loops by a condition, and loops that only search
  4 by hand     conversions and printing: functions that only convert or print, and arithmetic on bytes
  5 clauses     clauses that stand in three or more functions, with the functions
  5 travelling  runs of two or more parameters that stand together in three or more functions
  6 lengths     fields that are a length or a count, arrays and lists of flags or places
  7 steps       parameters that say which step to run, functions that only put one kind of part
  8 proofs      lines of proofs/, and how many goals are answered there
"""
import collections
import re
import subprocess
import sys


def sources(commit):
    """The text of each source file, by path."""
    if commit is None:
        names = subprocess.run(["git", "ls-files", "crates/*/src/*.rt"], capture_output=True, text=True, check=True).stdout.split()
        return {name: open(name).read() for name in names}
    names = subprocess.run(["git", "ls-tree", "-r", "--name-only", commit, "crates"], capture_output=True, text=True, check=True).stdout.split()
    names = [n for n in names if "/src/" in n and n.endswith(".rt")]
    return {n: subprocess.run(["git", "show", f"{commit}:{n}"], capture_output=True, text=True, check=True).stdout for n in names}


PATTERNS = {
    "1 numbers": r"UNGRADED|UNRANKED|NO_MEMORY|NO_DRAFT|Draft\(u8\)|number: u8|kind: u8|=> only_if\(|record_of\([0-9]|letters as u8|-> \(bool|, or the degree|fn byte_of|fn code",
    "4 by hand": r"fn (number|words|tell|print_letters|verdict|word_at|record_of|turned|call_of|without_number|at|only_if|letter|write_state|write_if|usage|of|of_file|pair_vertex)\(|% 256|/ 256|>> 8",
    "6 lengths": r"^    (count|steps|states|nodes|stated|len): usize|Vec<bool>|\[bool|&mut Vec<usize>|nodes: Vec<Node>",
    "7 steps": r"(mirrored|why): bool|fn put_\w+\(|if !?\w+\.(complete|stratified)|if !stratified",
}


def proofs(commit):
    """Lines and answered goals of proofs/, by crate."""
    listing = ["git", "ls-files", "crates"] if commit is None else ["git", "ls-tree", "-r", "--name-only", commit, "crates"]
    names = subprocess.run(listing, capture_output=True, text=True, check=True).stdout.split()
    sums = collections.Counter()
    answers = collections.Counter()
    for name in names:
        if "/proofs/" in name:
            text = open(name).read() if commit is None else subprocess.run(["git", "show", f"{commit}:{name}"], capture_output=True, text=True, check=True).stdout
            sums[name.split("/")[1]] += text.count("\n")
            answers[name.split("/")[1]] += len(re.findall(r"^pub .* : goal", text, re.M)) if name.endswith("Answers.antt") else 0
    return sums, answers


def functions(text):
    """Each function with a body: name, parameters, clauses, body."""
    for start in re.finditer(r"\bfn (\w+)(?:<[^{}()]*>)?\(", text):
        depth, i = 1, start.end()
        while depth:
            depth += {"(": 1, ")": -1}.get(text[i], 0)
            i += 1
        parameters = text[start.end() : i - 1]
        head_end = i
        clauses = []
        while i < len(text) and text[i] not in "{;":
            i += 1
        if i >= len(text) or text[i] == ";":
            continue
        # clauses stand in braces before the body
        while True:
            depth, j = 1, i + 1
            while depth:
                depth += {"{": 1, "}": -1}.get(text[j], 0)
                j += 1
            before = text[head_end:i].strip()
            if re.search(r"(requires|ensures)(\s+\w+)?$", before):
                kind = re.search(r"(requires|ensures)(\s+\w+)?$", before).group(1)
                clauses.append((kind, " ".join(text[i + 1 : j - 1].split())))
                head_end, i = j, j
                while text[i] not in "{;":
                    i += 1
                if text[i] == ";":
                    break
                continue
            yield start.group(1), parameters, clauses, text[i:j]
            break


def shape(body):
    """The text without names and numbers; words of the language stay."""
    kept = {"if", "else", "for", "in", "match", "return", "while", "let", "mut", "as", "Some", "None", "Ok", "Err", "self", "true", "false"}
    body = re.sub(r"//[^\n]*", "", body)
    body = re.sub(r'"[^"]*"', "S", body)
    return re.sub(r"\w+", lambda m: m.group(0) if m.group(0) in kept else "n", " ".join(body.split()))


def main():
    files = sources(sys.argv[1] if len(sys.argv) > 1 else None)
    shapes = collections.defaultdict(list)
    clauses = collections.defaultdict(list)
    travelling = collections.defaultdict(set)
    loops = []
    found = collections.defaultdict(list)
    for path, text in sorted(files.items()):
        crate = path.split("/")[1]
        tests = crate.endswith("_tests")
        for n, line in enumerate(text.split("\n"), 1):
            if re.search(r"\bfor \w+ in [^{]*\.\.[^{]*\{|\bwhile ", line) and not line.strip().startswith("//"):
                loops.append(f"{path}:{n}: {line.strip()}")
            for title, pattern in PATTERNS.items():
                if not tests and re.search(pattern, line):
                    found[title].append(f"{path}:{n}: {line.strip()}")
        for name, _, _, body in functions(text):
            # a loop that leaves the function on the first item of a kind, and does nothing else
            if re.search(r"for [^{]*\{\s*if [^{]*\{\s*return [^;]*;\s*\}\s*\}\s*(true|false|\w+)\s*\}$", body) and not re.search(r"for [^{]*\.\.", body):
                loops.append(f"{path}: {name} searches")
        for name, parameters, said, body in functions(text):
            if len(shape(body)) > 30:
                shapes[shape(body)].append(f"{crate}::{name}")
            for kind, clause in said:
                clauses[kind, clause].append(f"{crate}::{name}")
            if tests:
                continue
            names = [re.sub(r"^(mut )?", "", p.strip()).split(":")[0].strip() for p in parameters.split(",") if ":" in p]
            for length in range(2, len(names) + 1):
                for i in range(len(names) - length + 1):
                    travelling[tuple(names[i : i + length])].add(f"{crate}::{name}")
    def told(title):
        print(title, len(found[title]))
        for place in found[title]:
            print("  ", place)

    told("1 numbers")
    print("2 twins", sum(len(group) > 1 for group in shapes.values()))
    for group in shapes.values():
        if len(group) > 1:
            print("  ", ", ".join(group))
    print("3 loops", len(loops))
    for loop in loops:
        print("  ", loop)
    told("4 by hand")
    print("5 clauses")
    for (kind, clause), group in clauses.items():
        if len(group) > 2:
            print("  ", kind, "{", clause, "}", len(group), ", ".join(group))
    print("5 travelling")
    for names, group in sorted(travelling.items(), key=lambda x: -len(x[1])):
        longer = [o for o in travelling if len(o) > len(names) and any(o[i : i + len(names)] == names for i in range(len(o))) and travelling[o] == group]
        if len(group) > 2 and not longer:
            print("  ", ", ".join(names), len(group), ", ".join(sorted(group)))
    told("6 lengths")
    told("7 steps")
    sums, answers = proofs(sys.argv[1] if len(sys.argv) > 1 else None)
    print("8 proofs", sum(sums.values()), "lines,", sum(answers.values()), "answers")
    for crate in sorted(sums):
        print("  ", crate, sums[crate], answers[crate])


main()
