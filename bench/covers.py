#!/usr/bin/env python3
"""Times `covers` on the cases that are hard for it, with a limit of 1,024 covers.

    bench/covers.py [--runs N] [--keep FOLDER]

No program of the repository finds covers alone, so this builds one in a folder of its own, which proves it first. Times are those
of the calls of `covers`, without the reading of the families."""
import argparse
import os
import subprocess
import tempfile

from proved import build

CRATES = ["cls_base", "cls_cover"]

PROGRAM = '''// Reads families, each a line of ranges of positions, and finds their minimal covers.
#![tactic(auto)]

ghost use Rattle.std.specs.Prelude.{ℕ, IsTrue, All, List};
ghost use Rattle.cls_cover.specs.Lists.{IsAscending};

use cls_base::Numbers;
use cls_cover::{CoverFault, covers};
use std::alloc::{AllocError, Global};
use std::io;
use std::time::Instant;

fn read(alloc: Global, line: &str) -> Result<Numbers, AllocError> {
    let mut items = Vec::new(alloc);
    for word in line.split(' ') {
        if let Some((from, to)) = word.split_once('-') {
            for x in from.parse::<u32>().unwrap_or(0)..to.parse::<u32>().unwrap_or(0) {
                items.push(x)?;
            }
        }
    }
    Ok(Numbers::new(items))
}

fn is_ascending(items: &[u32]) -> bool
    ensures { IsTrue result → IsAscending items.now }
{
    for i in 1..items.len() {
        if items[i - 1] >= items[i] {
            return false;
        }
    }
    true
}

fn are_ascending(families: &[Numbers]) -> bool
    ensures { IsTrue result → All IsAscending families.now }
{
    for family in families {
        if !is_ascending(family.as_slice()) {
            return false;
        }
    }
    true
}

fn main(rt: HostRuntime) -> io::Result<()> {
    let mut families = Vec::new(rt.alloc());
    for line in rt.lines(rt.alloc()) {
        let line = line?;
        families.push(read(rt.alloc(), line.as_str())?)?;
    }
    if are_ascending(families.as_slice()) {
        let start = Instant::now(&rt)?;
        let found = covers(rt.alloc(), families.as_slice(), 1024);
        let time = start.elapsed(&rt)?.as_nanos();
        match found {
            Ok(list) => println!(rt; "covers {} {time}", list.len())?,
            Err(CoverFault::TooManyCovers(j)) => println!(rt; "many {j} {time}")?,
            Err(CoverFault::OutOfMemory) => println!(rt; "memory 0 {time}")?,
        }
    }
    Ok(())
}
'''

ASCENDING = '''use Rattle.std.proofs.Common.{ℕ, zero, suc, ◌≡◌, ◌+◌, ◌<◌, ◌≤◌, List, [], ◌∷◌, length, get_or, subst, arith, Contains}
use Rattle.cls_cover.specs.Lists.{IsAscending}

above : (x : ℕ) (xs : List ℕ) → ((k : ℕ) → suc k < length (x ∷ xs) → get_or (x ∷ xs) k 0 < get_or (x ∷ xs) (suc k) 0) → (k : ℕ) (d : ℕ) → k < length xs → x < get_or xs k d
above x [] f k d l = absurd (omega arith)
above x (y ∷ xs) f zero d l = f 0 (omega arith)
above x (y ∷ xs) f (suc k) d l = let h : x < y = f 0 (omega arith) in let i = above y xs (λ q m. f (suc q) (let n : suc q < length (y ∷ xs) = m in omega arith)) k d (omega arith) in omega arith

rises : (xs : List ℕ) → ((k : ℕ) → suc k < length xs → get_or xs k 0 < get_or xs (suc k) 0) → IsAscending xs
rises [] f = tt
rises (x ∷ xs) f = ((λ y c. subst (λ z. x < z) c.2 (above x xs f c.0 y c.1)), rises xs (λ k l. f (suc k) (let n : suc k < length xs = l in omega arith)))

pub ascending : (xs : List ℕ) → ((k : ℕ) → k + 1 < length xs → get_or xs k 0 < get_or xs (k + 1) 0) → IsAscending xs
ascending xs f = rises xs (λ k l. subst (λ q. get_or xs k 0 < get_or xs q 0) (let e : k + 1 ≡ suc k = omega arith in e) (f k (omega arith)))
'''

FILES = {
    "proofs/Lib.antt": "pub mod Ascending\n",
    "proofs/Ascending.antt": ASCENDING,
    "proofs/is_ascending/Invariants.antt": '''use Rattle.std.proofs.Common.{ℕ, ◌+◌, ◌<◌, ◌≤◌, get_or}
use Rattle.bench_covers.proofs.is_ascending.Given as goal

abbrev pub invariant-loop-i : goal.invariant-loop-i
invariant-loop-i l = (1 ≤ l.i) × ((k : ℕ) → k + 1 < l.i → get_or l.items k 0 < get_or l.items (k + 1) 0)
''',
    "proofs/is_ascending/Answers.antt": '''use Rattle.std.proofs.Common.{ℕ, arith}
use Rattle.bench_covers.proofs.Ascending.{ascending}
use Rattle.bench_covers.proofs.is_ascending.Goals as goal

pub returns : goal.returns
returns c = λ t. ascending c.args.items.now (λ k l. c.loop-i.invariant.1 k (omega arith))
''',
    "proofs/are_ascending/Invariants.antt": '''use Rattle.std.proofs.Common.{ℕ, ◌<◌, List, get_or}
use Rattle.cls_cover.specs.Lists.{IsAscending}
use Rattle.bench_covers.proofs.are_ascending.Given as goal

abbrev pub invariant-loop-family : goal.invariant-loop-family
invariant-loop-family l = (k : ℕ) (d : List ℕ) → k < l.family-index → IsAscending (get_or l.families k d)
''',
    "proofs/are_ascending/Answers.antt": '''use Rattle.std.proofs.Common.{ℕ, ◌≡◌, ◌<◌, ◌+◌, ◌∙◌, ◌⊎◌, inl, inr, List, [], ◌∷◌, zero, suc, length, get_or, sym, ap, subst, refl, arith, rules}
use Rattle.cls_cover.specs.Lists.{IsAscending}
use Rattle.bench_covers.proofs.are_ascending.Goals as goal

pub loop-family-init : goal.loop-family-init
loop-family-init c = λ k d l. absurd (omega arith)

any_default : (xs : List (List ℕ)) (k : ℕ) (d e : List ℕ) → k < length xs → get_or xs k d ≡ get_or xs k e
any_default [] k d e l = absurd (omega arith)
any_default (x ∷ xs) zero d e l = refl
any_default (x ∷ xs) (suc k) d e l = any_default xs k d e (omega arith)

split : (k n : ℕ) → k < n + 1 → (k < n) ⊎ (k ≡ n)
split k n l = grind arith

pub loop-family-preserved : goal.loop-family-preserved
loop-family-preserved c = λ k d l. elim (split k c.loop-family.family-index l) [
  | inl m ↦ c.loop-family.invariant k d m
  | inr e ↦ (
      let read = ap (λ q. get_or c.args.families.now q d) e ∙ (any_default c.args.families.now c.loop-family.family-index d c.family-item.result c.loop-family-test.true ∙ (sym c.family-item.is ∙ sym c.as_slice.ensures)) in
      subst (λ (f : List ℕ). IsAscending f) (sym read) (c.is_ascending.ensures c.if-not-is_ascending.false)
      )
]

pub returns : goal.returns
returns c = λ t k d l. c.loop-family.invariant k d (omega arith)
''',
}


def ranges(*pairs):
    return " ".join("%d-%d" % pair for pair in pairs)


def chain(count, first):
    """Single positions, each followed by a pair of it and the next one: one cover, that each single position joins."""
    return [ranges((first + j // 2, first + j // 2 + 1 + j % 2)) for j in range(count)]


def shared(count, pairs):
    """Pairs and then single positions, each with the same 512 others: those cover all, and join no cover of the pairs."""
    first = [ranges((2 * i, 2 * i + 2), (5000, 5512)) for i in range(pairs)]
    return first + [ranges((100 + j, 101 + j), (5000, 5512)) for j in range(count)]


def cases():
    pairs = [ranges((2 * i, 2 * i + 2)) for i in range(10)]
    yield "ten pairs", pairs
    yield "eleven pairs", pairs + [ranges((20, 22))]
    yield "ten pairs, and 331 families of an own position and one shared by all", pairs + [ranges((0, 1), (100 + j, 101 + j)) for j in range(331)]
    yield "341 families of 5,000 positions each", [ranges((5000 * j, 5000 * j + 5000)) for j in range(341)]
    yield "341 times the same 1,000 positions", [ranges((0, 1000)) for j in range(341)]
    yield "a chain of 340 families", chain(340, 0)
    yield "ten pairs, and a chain of 331 families", pairs + chain(331, 100)
    yield "nine pairs and 332 single positions, each with the same 512 others", shared(332, 9)
    yield "a first family of a million positions", [ranges((0, 1000000))] + [ranges((j, j + 1)) for j in range(340)]
    yield "a second family of a million positions", [ranges((0, 1)), ranges((1, 1000001))] + [ranges((j, j + 1)) for j in range(339)]


def run(program, families):
    text = "".join(line + "\n" for line in families)
    reply = subprocess.run([program], input=text, capture_output=True, text=True)
    words = reply.stdout.split()
    assert len(words) == 3, reply.stdout + reply.stderr
    return words[0], int(words[1]), int(words[2])


def main():
    parser = argparse.ArgumentParser(description=__doc__, formatter_class=argparse.RawDescriptionHelpFormatter)
    parser.add_argument("--runs", type=int, default=3)
    parser.add_argument("--keep", help="keeps the program in this folder, and takes it from there if it is there")
    options = parser.parse_args()
    with tempfile.TemporaryDirectory() as folder:
        program = os.path.join(options.keep, "bench_covers") if options.keep else None
        if program is None or not os.path.exists(program):
            program = build(folder, "bench_covers", CRATES, PROGRAM, files=FILES)
        for name, families in cases():
            answers = [run(program, families) for _ in range(options.runs)]
            best = min(answers, key=lambda answer: answer[2])
            print("%s: %s %d, %.2f ms" % (name, best[0], best[1], best[2] / 1e6))


if __name__ == "__main__":
    main()
