#!/usr/bin/env python3
"""Times `Expander::rules_of` on goals with many rules and on wide ones, and `has_type` on a deep term.

    bench/expand.py [--runs N]

No program of the repository calls these alone, so this builds one in a folder of its own, which proves it first. Times are those of
the calls, without the making of the library, the goal and the term."""
import argparse
import subprocess
import tempfile

from proved import build

CRATES = ["cls_base", "cls_taxon", "cls_path", "cls_norm", "cls_kind", "cls_term", "cls_core", "cls_library", "cls_expand", "cls_check"]

PROGRAM = '''// Reads lines of two numbers: a case, and how many pairs, types or applications it has.
#![tactic(auto)]

ghost use Rattle.std.specs.Prelude.{◌≡◌, ◌<◌, length, IfOk};
ghost use Rattle.cls_base.specs.Terms.{IsTermOver};
ghost use Rattle.cls_expand.specs.Answers.{IsReady};

use cls_base::{Name, OutOfMemory, Schema, Ty};
use cls_check::has_type;
use cls_expand::Expander;
use cls_kind::{Choices, Kinds};
use cls_library::Library;
use cls_norm::{fit, normal};
use cls_path::Nf;
use cls_taxon::Taxonomy;
use cls_term::{CodedTerm, Term, Terms};
use std::alloc::Global;
use std::io;
use std::time::Instant;

/// A name that no other schema has.
const END: u32 = 9_999_999;

fn bare(number: u32) -> Ty {
    Ty::Bare(Name(number))
}

fn name(number: u32) -> Schema {
    Schema::Bare(Name(number))
}

fn arrow(alloc: Global, source: Schema, target: u32) -> Result<Schema, OutOfMemory> {
    Ok(Schema::Arrow(Box::new(alloc, (source, name(target)))?))
}

fn both(alloc: Global, left: Schema, right: Schema) -> Result<Schema, OutOfMemory> {
    Ok(Schema::Meet(Box::new(alloc, (left, right))?))
}

/// For each number below `count` two arrows to that name.
fn pairs(alloc: Global, count: u32) -> Result<Schema, OutOfMemory> {
    let mut all = Schema::Omega;
    for j in 0..count {
        let first = arrow(alloc, name(j.wrapping_add(100_000)), j)?;
        let second = arrow(alloc, name(j.wrapping_add(200_000)), j)?;
        all = both(alloc, all, both(alloc, first, second)?)?;
    }
    Ok(all)
}

/// The four arrows between the names 0 and 1.
fn four(alloc: Global) -> Result<Schema, OutOfMemory> {
    let from_first = both(alloc, arrow(alloc, name(0), 0)?, arrow(alloc, name(0), 1)?)?;
    let from_second = both(alloc, arrow(alloc, name(1), 0)?, arrow(alloc, name(1), 1)?)?;
    both(alloc, from_first, from_second)
}

fn schema(alloc: Global, case: u32, count: u32) -> Result<Schema, OutOfMemory> {
    match case {
        0 => pairs(alloc, count),
        1 => arrow(alloc, Schema::Var(Name(0)), 0),
        2 => {
            let one = arrow(alloc, name(END), 0)?;
            both(alloc, one, arrow(alloc, Schema::Var(Name(0)), 1)?)
        }
        _ => four(alloc),
    }
}

/// The intersection of the names below `count`.
fn names(alloc: Global, count: u32) -> Result<Ty, OutOfMemory> {
    let mut all = Ty::Omega;
    for j in 0..count {
        all = Ty::Meet(Box::new(alloc, (all, bare(j)))?);
    }
    Ok(all)
}

/// The kind of the variable 0: so many names.
fn kinds(alloc: Global, count: u32) -> Result<Kinds, OutOfMemory> {
    let mut items = Vec::new(alloc);
    for number in 0..count {
        items.push(bare(number.wrapping_add(300_000)))?;
    }
    let choices = Choices::new(items);
    let mut kinds = Kinds::new(alloc);
    if kinds.lacks(Name(0)) && !choices.is_empty() {
        kinds.add(Name(0), choices)?;
    }
    Ok(kinds)
}

fn library(alloc: Global, case: u32, count: u32) -> Result<Library, OutOfMemory> {
    let Ok(taxonomy) = Taxonomy::new(alloc, &[], &[]) else {
        return Err(OutOfMemory);
    };
    let mut schemas = Vec::new(alloc);
    schemas.push(schema(alloc, case, count)?)?;
    schemas.push(name(0))?;
    match Library::build(alloc, taxonomy, &schemas, &kinds(alloc, count)?) {
        Ok(library) => Ok(library),
        Err(_) => Err(OutOfMemory),
    }
}

/// The goal of so many names, if it is fit.
fn goal(alloc: Global, library: &Library, count: u32) -> Result<Nf, OutOfMemory>
    ensures { IfOk result (IsReady library.now) }
{
    let goal = normal(alloc, library.taxonomy(), &names(alloc, count)?)?;
    if !fit(alloc, &goal)? {
        return Err(OutOfMemory);
    }
    Ok(goal)
}

/// Component 1 with component 0 applied to it so many times.
fn nested(alloc: Global, count: u32) -> Result<Term, OutOfMemory>
    ensures { IfOk result (IsTermOver 2) }
{
    let mut term = Term::new(1, Terms::new(alloc));
    for _ in 0..count {
        let mut args = Terms::new(alloc);
        args.push(term)?;
        term = Term::new(0, args);
    }
    Ok(term)
}

/// The term by its code.
fn coded(alloc: Global, term: &Term) -> Result<CodedTerm, OutOfMemory>
    ensures { IfOk result (λ coded. coded ≡ term.now) }
{
    Ok(CodedTerm::from_vec(term.code(alloc)?.into_vec()))
}

fn main(rt: HostRuntime) -> io::Result<()> {
    let alloc = rt.alloc();
    for line in rt.lines(alloc) {
        let line = line?;
        let mut words = line.as_str().split(' ').map(|word| word.parse::<u32>().unwrap_or(0));
        let case = words.next().unwrap_or(0);
        let count = words.next().unwrap_or(0);
        let paths = words.next().unwrap_or(0);
        let Ok(library) = library(alloc, case, count) else {
            return Ok(());
        };
        let Ok(goal) = goal(alloc, &library, paths) else {
            return Ok(());
        };
        if case < 3 {
            let expander = Expander::new(&library);
            let start = Instant::now(&rt)?;
            let answer = expander.rules_of(alloc, &goal);
            let time = start.elapsed(&rt)?.as_nanos();
            let Ok(answer) = answer else {
                return Ok(());
            };
            println!(rt; "{} {time}", answer.rule_count())?;
        } else if library.count() == 2 {
            let Ok(nested) = nested(alloc, count) else {
                return Ok(());
            };
            let Ok(term) = coded(alloc, &nested) else {
                return Ok(());
            };
            let start = Instant::now(&rt)?;
            let answer = has_type(alloc, &library, &term, &goal);
            let time = start.elapsed(&rt)?.as_nanos();
            let Ok(answer) = answer else {
                return Ok(());
            };
            println!(rt; "{} {time}", u32::from(answer))?;
        }
    }
    Ok(())
}
'''

FILES = {
    "proofs/nested/Invariants.antt": '''use Rattle.cls_base.specs.Terms.{IsTermOver}
use Rattle.bench_expand.proofs.nested.Given as goal

abbrev pub invariant-loop : goal.invariant-loop
invariant-loop l = IsTermOver 2 l.term
''',
}

# what it is, the case, its number, the paths of the goal, the number of rules (0 for a wide goal) or whether the term has the type
CASES = [
    ("ten pairs: 1,024 rules", 0, 10, 10, 1024),
    ("eleven pairs: wide", 0, 11, 11, 0),
    ("a family of 4,096 positions: wide", 1, 4096, 1, 0),
    ("a second family of 4,096 positions: wide", 2, 4096, 2, 0),
    ("f nested 60 times with four arrows has A", 3, 60, 1, 1),
    ("f nested 60 times with four arrows has omega", 3, 60, 0, 1),
]


def run(program, case):
    reply = subprocess.run([program], input="%d %d %d\n" % tuple(case), capture_output=True, text=True)
    answer, time = reply.stdout.split()
    return int(answer), int(time) / 1e6


def main():
    parser = argparse.ArgumentParser(description=__doc__, formatter_class=argparse.RawDescriptionHelpFormatter)
    parser.add_argument("--runs", type=int, default=5)
    options = parser.parse_args()
    with tempfile.TemporaryDirectory() as folder:
        program = build(folder, "bench_expand", CRATES, PROGRAM, files=FILES)
        for name, *case, answer in CASES:
            results = [run(program, case) for _ in range(options.runs)]
            assert all(result[0] == answer for result in results), (name, results)
            print("%s: %.2f ms" % (name, min(result[1] for result in results)))


if __name__ == "__main__":
    main()
