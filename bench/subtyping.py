#!/usr/bin/env python3
"""Times `subtype` at its limits: 200 pairs of random types of 1,000 nodes, and towers of arrows against themselves.

    bench/subtyping.py [--runs N]

No program of the repository decides subtyping alone, so this builds one in a folder of its own, which proves it first.
Times are those of the calls of `subtype`, without the reading of the types."""
import argparse
import random
import subprocess
import tempfile

from proved import build

CRATES = ["cls_base", "cls_taxon", "cls_path", "cls_norm"]
LETTERS = "ABCDEFGHIJKLMNOPQRSTUVWXYZ"

PROGRAM = '''// Reads lines of two words, each a type whose operators stand behind their parts, and decides whether the one is below the other.
#![tactic(auto)]

use cls_base::{Flat, Name, OutOfMemory, Ty};
use cls_norm::subtype;
use std::alloc::Global;
use std::io;
use std::time::Instant;

fn pair(alloc: Global, operator: u8, left: Ty, right: Ty) -> Result<Ty, OutOfMemory> {
    if operator == b'@' {
        return match left {
            Ty::Bare(name) | Ty::Con(name, _) => Ty::over(alloc, name, right),
            _ => Ok(Ty::Omega),
        };
    }
    let parts = Box::new(alloc, (left, right))?;
    match operator {
        b'&' => Ok(Ty::Meet(parts)),
        b'*' => Ok(Ty::Prod(parts)),
        _ => Ok(Ty::Arrow(parts)),
    }
}

fn read(alloc: Global, word: &str) -> Result<Ty, OutOfMemory> {
    let mut parts: Vec<Ty> = Vec::new(alloc);
    for byte in word.as_bytes() {
        let part = match *byte {
            b'0' => Ty::Omega,
            b'&' | b'*' | b'>' | b'@' => {
                let right = parts.pop().unwrap_or(Ty::Omega);
                let left = parts.pop().unwrap_or(Ty::Omega);
                pair(alloc, *byte, left, right)?
            }
            letter => Ty::Bare(Name(u32::from(letter.saturating_sub(b'A')))),
        };
        parts.push(part)?;
    }
    Ok(parts.pop().unwrap_or(Ty::Omega))
}

fn main(rt: HostRuntime) -> io::Result<()> {
    for line in rt.lines(rt.alloc()) {
        let line = line?;
        let mut words = line.as_str().split(' ');
        let lower = read(rt.alloc(), words.next().unwrap_or("0")).unwrap_or(Ty::Omega);
        let upper = read(rt.alloc(), words.next().unwrap_or("0")).unwrap_or(Ty::Omega);
        let spread = lower.spread().max(upper.spread());
        let start = Instant::now(&rt)?;
        let answer = subtype(rt.alloc(), &Flat, &lower, &upper).unwrap_or(false);
        let time = start.elapsed(&rt)?.as_nanos();
        println!(rt; "{answer} {spread} {time}")?;
    }
    Ok(())
}
'''


def random_type(nodes, source):
    """A type of about so many nodes, as a word."""
    if nodes < 3:
        return source.choice(LETTERS)
    if nodes < 5 or source.random() < 0.15:
        return source.choice(LETTERS) + random_type(nodes - 1, source) + "@"
    left = source.randint(1, nodes - 2)
    return random_type(left, source) + random_type(nodes - 1 - left, source) + source.choice("&&&>>*")


def tower(height):
    word = "AB&C&"
    for _ in range(height):
        word = word + "AB&C&" + ">"
    return word


def wide(count, operator):
    """The intersection of so many names over names, none below another."""
    word = ""
    for number in range(count):
        word += LETTERS[number % 26] + LETTERS[number // 26] + operator + ("&" if number else "")
    return word


def spread(word):
    """The spread of the type, which bounds the work of taking it apart."""
    parts = []
    for letter in word:
        if letter not in "&*>@":
            parts.append((1, 1))
            continue
        (paths, inner), (more, other) = parts[-2:]
        del parts[-2:]
        if letter == "&":
            parts.append((paths + more, inner + other))
        elif letter == "*":
            parts.append((max(1, paths + more), inner + other + max(1, paths + more)))
        elif letter == ">":
            parts.append((more, other + more * (1 + inner)))
        else:
            parts.append((max(1, more), other + max(1, more)))
    return parts[0][1]


def narrow_type(source):
    """A random type of about 1,000 nodes whose spread is at most 16,384."""
    while True:
        word = random_type(1000, source)
        if spread(word) <= 16384:
            return word


def run(program, lines):
    text = "".join(line + "\n" for line in lines)
    reply = subprocess.run([program], input=text, capture_output=True, text=True)
    rows = [line.split() for line in reply.stdout.splitlines()]
    assert len(rows) == len(lines), reply.stdout + reply.stderr
    return [(row[0] == "true", int(row[1]), int(row[2])) for row in rows]


def main():
    parser = argparse.ArgumentParser(description=__doc__, formatter_class=argparse.RawDescriptionHelpFormatter)
    parser.add_argument("--runs", type=int, default=3)
    options = parser.parse_args()
    source = random.Random(1)
    cases = [("random types of 1,000 nodes", [narrow_type(source) + " " + narrow_type(source) for _ in range(200)])]
    same = [narrow_type(source) for _ in range(200)]
    cases.append(("random types against themselves", [word + " " + word for word in same]))
    cases += [("a tower of height %d against itself" % height, [tower(height) + " " + tower(height)]) for height in (6, 7)]
    cases.append(("340 names over names against themselves", [wide(340, "@") + " " + wide(340, "@")]))
    cases.append(("340 arrows with one target against themselves", [wide(340, "A@>") + " " + wide(340, "A@>")]))
    with tempfile.TemporaryDirectory() as folder:
        program = build(folder, "bench_subtyping", CRATES, PROGRAM)
        for name, lines in cases:
            best = None
            for _ in range(options.runs):
                rows = run(program, lines)
                if best is None or sum(row[2] for row in rows) < sum(row[2] for row in best):
                    best = rows
            times = [row[2] / 1e6 for row in best]
            print("%s: %d pairs, %d yes, spread up to %d, %.2f ms in all, %.3f ms at most" % (
                name, len(best), sum(row[0] for row in best), max(row[1] for row in best), sum(times), max(times)))


if __name__ == "__main__":
    main()
