#!/usr/bin/env python3
"""A twin of the engine in plain Rust, made of its own sources, so that an idea is measured before it is proved.

`engine_twin.py build FOLDER` takes the contracts out of the sources of it_vectors, it_whole and it_engine in the checkout that it is
called in, and compiles what is left to FOLDER/twin. `engine_twin.py system FAMILY N` prints a system over N variables, by the elemental inequalities in their order:
FAMILY is parts, chain or ingleton, as in bench/simplex.txt. `FOLDER/twin BUDGET TURNS < SYSTEM` makes the run so often, and prints how it
ends, in which width, and sums over the last basis and the last rows: two versions of the sources have to print the same. Unlike the
product the twin tests indexes, so times are to be compared with those of another twin only.

`engine_twin.py count FOLDER FILE..` builds it, asks it the systems of all `prove` questions of the files, as examples/independent makes
them, at most 20,000 steps each, and prints by their rows how many each engine answers alone: rows in 32 bits, in 64 bits, or none of
these, so that the table of fractions has to. It ends with 1 where one of 64 rows or more isn't answered in 32 bits, or one of fewer
in 64, though its start is within the limit of these rows."""
import os
import re
import subprocess
import sys
from collections import Counter
from pathlib import Path

MODULES = {
    "it_vectors": "arithmetic divisors narrow_numbers numbers".split(),
    "it_whole": "columns narrow_rows room rows wide_rows".split(),
    "it_engine": "behind blocks bringing choice engine leaving pivots shares".split(),
}

# what the modules take from others, and a main function
MAIN = r"""
#[derive(Clone, Copy)]
pub struct Global;
#[derive(Clone, Copy, Debug)]
pub struct AllocError;
mod loading {
    pub fn norm(columns: &[crate::columns::Column]) -> Option<u64> {
        columns.iter().try_fold(1, |norm: u64, column| Some(norm.max(column.weight()?)))
    }
}
use engine::Engine;
type Terms = Vec<(usize, i64)>;

fn start(height: usize, target: &Terms, forms: &[Terms]) -> (Vec<columns::Column>, u64, Engine) {
    let mut right = vec![0; height + 1];
    for &(k, x) in target {
        right[k] = x;
    }
    let signed = |k: usize, x: i64| if right[k] < 0 { -x } else { x };
    let column = |terms: &Terms| {
        let mut column = columns::Column::empty(Global);
        for &(k, x) in terms {
            column.push_entry(k, signed(k, x)).unwrap();
        }
        column
    };
    let columns: Vec<_> = forms.iter().map(column).collect();
    let limit = i64::MAX as u64 / loading::norm(&columns).unwrap();
    let mut cost = vec![-1; height];
    cost.push(-right.iter().map(|x| x.abs()).sum::<i64>());
    let unit = |k: usize| {
        let mut numbers = vec![0; height + 1];
        (numbers[k], numbers[height]) = (1, right[k].abs());
        numbers
    };
    let numbers = (0..height).map(unit).chain([cost]);
    let rows = numbers.map(rows::WholeRow::from_numbers).collect();
    let basis = (columns.len()..columns.len() + height).collect();
    (columns, limit, Engine::new(Global, rows, basis).unwrap())
}

fn told(engine: &Engine, end: &str, width: &str) -> String {
    let more = |sum: u64, z: u64| sum.wrapping_mul(1000003).wrapping_add(z);
    let basis = engine.basis().iter().fold(0, |sum, &j| more(sum, j as u64));
    let count = engine.rows().len();
    let of_row = |sum, row: &rows::WholeRow| {
        let numbers = (0..count).fold(sum, |sum, k| more(sum, row.number(k) as u64));
        more(numbers, row.bottom())
    };
    format!("{end} {width} {basis} {}", engine.rows().iter().fold(0, of_row))
}

fn run(height: usize, target: &Terms, forms: &[Terms], budget: u32) -> String {
    let (columns, limit, mut engine) = start(height, target, forms);
    if height >= 64 {
        let lower = limit.min(i32::MAX as u64);
        if let Some(mut narrow) = engine.narrowed(lower).unwrap() {
            if let Some(end) = narrow.run(&columns, lower, Some(budget)) {
                return told(&narrow, &format!("{end:?}"), "narrow");
            }
        }
    }
    match engine.run(&columns, limit, Some(budget)) {
        Some(end) => told(&engine, &format!("{end:?}"), "wide"),
        None => String::from("lost"),
    }
}

fn main() {
    let words: Vec<u32> = std::env::args().skip(1).map(|w| w.parse().unwrap()).collect();
    let text = std::io::read_to_string(std::io::stdin()).unwrap();
    let mut lines = text.lines();
    let height = lines.next().unwrap().trim().parse().unwrap();
    let terms = |line: &str| {
        let numbers: Vec<i64> = line.split_whitespace().map(|w| w.parse().unwrap()).collect();
        numbers.chunks(2).map(|pair| (pair[0] as usize - 1, pair[1])).collect()
    };
    let mut forms: Vec<Terms> = lines.map(terms).collect();
    let target = forms.remove(0);
    let mut end = String::new();
    for _ in 0..words[1] {
        end = run(height, &target, &forms, words[0]);
    }
    println!("{end}");
}
"""


def without_items(text, head):
    """The text without the items that begin so, each with its body in braces."""
    while found := re.search(head, text, re.M):
        at = text.index("{", found.start())
        depth = 0
        for end in range(at, len(text)):
            depth += {"{": 1, "}": -1}.get(text[end], 0)
            if depth == 0:
                break
        text = text[:found.start()] + text[end + 1:]
    return text


def plain(text):
    """A module without its contracts, where memory never runs out."""
    for line in (r"//!.*", r"\s*ghost .*", r"\s*(requires|ensures) .*", r"\s*#!?\[tactic.*", r"use std::(alloc|marker).*"):
        text = re.sub(rf"^{line}\n", "", text, flags=re.M)
    text = without_items(text, r"^impl(?:<'a>)? (Model|Drop) for")
    text = text.replace("#[derive(Drop)]", "").replace("Drop, ", "").replace("Vec::new(alloc)", "Vec::new()").replace(".clone()?", ".clone()")
    text = re.sub(r"Vec::with_capacity\(alloc, (.*)\)\?", r"Vec::with_capacity(\1)", text)
    text = re.sub(r"Vec::from_elem\(alloc, (.*), (.*)\)\?", r"vec![\1; \2]", text)
    text = re.sub(r"\.push\((.*?)\)(?:\.ok\(\))?\?;", r".push(\1);", text)
    text = re.sub(r"((?:self\.)?\w+\.(?:insert|push)\(.*\))\.is_ok\(\)", r"{ \1; true }", text)
    text = re.sub(r"^use (it_vectors|it_whole)::", r"use crate::\1::", text, flags=re.M)
    return re.sub(r"\b(Global|AllocError)\b", r"crate::\1", text)


def exports(crate):
    """A module that exports what the crate does."""
    with open(f"crates/{crate}/src/lib.rt", encoding="utf-8") as source:
        text = re.sub(r"^pub mod (\w+);", r"pub use \1;", source.read(), flags=re.M)
    exported = re.sub(r"^pub use ", "pub use crate::", "\n".join(re.findall(r"^pub use [^;]*;", text, re.M)), flags=re.M)
    return f"mod {crate} {{\n{exported}\n}}\n"


def build(folder):
    os.makedirs(folder, exist_ok=True)
    for crate, names in MODULES.items():
        for name in names:
            with open(f"crates/{crate}/src/{name}.rt", encoding="utf-8") as source, open(f"{folder}/{name}.rs", "w", encoding="utf-8") as target:
                target.write(plain(source.read()))
    with open(f"{folder}/main.rs", "w", encoding="utf-8") as target:
        modules = "".join(f"pub mod {name};\n" for names in MODULES.values() for name in names)
        target.write(f"{modules}{exports('it_vectors')}{exports('it_whole')}{MAIN}")
    flags = "--edition 2021 -A warnings -C opt-level=3 -C target-cpu=x86-64-v2 -C codegen-units=1".split()
    subprocess.run(["rustc", *flags, f"{folder}/main.rs", "-o", f"{folder}/twin"], check=True)


def information(a, b, given):
    """The terms of I(a;b|given), each a set of variables with its sign."""
    return [(a | given, 1), (b | given, 1), (a | b | given, -1), (given, -1)]


def elemental(n):
    """The elemental inequalities over n variables."""
    full = (1 << n) - 1
    for i in range(n):
        yield [(full, 1), (full & ~(1 << i), -1)]
    for i in range(n):
        for j in range(i + 1, n):
            for given in range(1 << n):
                if not given & (1 << i | 1 << j):
                    yield information(1 << i, 1 << j, given)


def target_of(family, n):
    if family == "ingleton":
        negated = [(s, -x) for s, x in information(1, 2, 0)]
        return information(1, 2, 4) + information(1, 2, 8) + information(4, 8, 0) + negated
    parts = [(1 << i, 1) for i in range(n)] + [((1 << n) - 1, -1)]
    if family == "chain":
        for i in range(n - 1):
            parts += [(s, -x) for s, x in information(1 << i, 2 << i, 0)]
    return parts


def system(family, n):
    print((1 << n) - 1)
    for terms in [target_of(family, n), *elemental(n)]:
        sums = {}
        for s, x in terms:
            sums[s] = sums.get(s, 0) + x
        print(" ".join(f"{s} {x}" for s, x in sorted(sums.items()) if s and x))


def asked(files):
    """The places, the columns and the target of each target of each `prove` question of files."""
    sys.path.insert(0, str(Path(__file__).parent.parent / "examples/independent"))
    from defined import Run
    from questions import Fault, read
    for file in files:
        with open(file, encoding="latin-1", newline="") as text:
            try:
                questions = read(text.read())
            except Fault:
                print("no file of questions:", file, file=sys.stderr)
                continue
        for question in questions:
            for target in question.targets if question.verb == "prove" else []:
                yield Run(question, target, None).system()


def fits(columns, target):
    """Whether the rows of the start are within the limit of whole numbers."""
    norm = max([1, *(sum(map(abs, column.values())) for column in columns)])
    return sum(map(abs, target.values())) <= (2**63 - 1) // norm


def width(folder, places, columns, target):
    """In which width the twin answers: narrow, wide or lost."""
    if not fits(columns, target):
        return "lost"
    at = {place: row for row, place in enumerate(places, 1)}
    lines = [" ".join(f"{at[place]} {row[place]}" for place in sorted(row)) for row in [target, *columns]]
    told = subprocess.run([f"{folder}/twin", "20000", "1"], input="\n".join([str(len(places)), *lines]), text=True, check=True, stdout=subprocess.PIPE).stdout
    return told.split()[1] if told.strip() != "lost" else "lost"


def count(folder, files):
    build(folder)
    counts, missed = Counter(), 0
    for places, columns, target in asked(files):
        rows = "64 rows or more" if len(places) >= 64 else "fewer"
        found = width(folder, places, columns, target)
        counts[rows, found] += 1
        missed += fits(columns, target) and found != ("narrow" if len(places) >= 64 else "wide")
    for rows in "fewer", "64 rows or more":
        print(rows, *(f"{name} {counts[rows, found]}" for name, found in (("32 bits", "narrow"), ("64 bits", "wide"), ("fractions", "lost"))), sep=", ")
    return 1 if missed else 0


if __name__ == "__main__":
    match sys.argv[1:]:
        case ["count", folder, *files]:
            sys.exit(count(folder, files))
        case ["build", folder]:
            build(folder)
        case ["system", ("parts" | "chain" | "ingleton") as family, n]:
            system(family, int(n))
        case _:
            sys.exit(__doc__)
