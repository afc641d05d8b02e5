#!/usr/bin/env python3
"""Times `Library::add` at its limits: instances of many paths, components up to the library's weight, towers of arrows.

    bench/library.py [--runs N] [--instructions] [WORD ..]

With words only the cases whose name has one of them are run. With --instructions callgrind counts the instructions of the program,
which other work on the machine doesn't change. The cases are no texts of repositories, so this builds a program in a folder of
its own, which proves it first. Times are those of the adds; the memory is that of the whole program."""
import argparse
import subprocess
import tempfile

from proved import build, instructions

CRATES = ["cls_base", "cls_taxon", "cls_path", "cls_norm", "cls_kind", "cls_library"]

PROGRAM = '''// Reads lines of four numbers: a case, a width, a number of declared pairs, and how often the component is added.
#![tactic(auto)]

use cls_base::{Name, OutOfMemory, Schema, Ty};
use cls_kind::{Choices, Kinds};
use cls_library::Library;
use cls_taxon::Taxonomy;
use std::alloc::Global;
use std::io;
use std::time::Instant;

/// A name that no variable has.
const END: u32 = 9_999_999;

fn bare(number: u32) -> Ty {
    Ty::Bare(Name(number))
}

fn name(number: u32) -> Schema {
    Schema::Bare(Name(number))
}

fn arrow(alloc: Global, source: Schema, target: Schema) -> Result<Schema, OutOfMemory> {
    Ok(Schema::Arrow(Box::new(alloc, (source, target))?))
}

/// The intersection of names from the first on.
fn wide(alloc: Global, first: u32, count: u32) -> Result<Ty, OutOfMemory> {
    let mut ty = bare(first);
    for number in 1..count {
        ty = Ty::Meet(Box::new(alloc, (ty, bare(first.wrapping_add(number))))?);
    }
    Ok(ty)
}

/// The intersection of arrows from names to one name.
fn fan(alloc: Global, first: u32, count: u32) -> Result<Ty, OutOfMemory> {
    let mut ty = Ty::Omega;
    for number in 0..count {
        let one = Ty::Arrow(Box::new(alloc, (bare(first.wrapping_add(number)), bare(END)))?);
        ty = Ty::Meet(Box::new(alloc, (ty, one))?);
    }
    Ok(ty)
}

fn wides(alloc: Global, first: u32, count: u32, width: u32) -> Result<Choices, OutOfMemory> {
    let mut items = Vec::new(alloc);
    for number in 0..count {
        items.push(wide(alloc, first.wrapping_add(number.wrapping_mul(width)), width)?)?;
    }
    Ok(Choices::new(items))
}

fn fans(alloc: Global, first: u32, count: u32, width: u32) -> Result<Choices, OutOfMemory> {
    let mut items = Vec::new(alloc);
    for number in 0..count {
        items.push(fan(alloc, first.wrapping_add(number.wrapping_mul(width)), width)?)?;
    }
    Ok(Choices::new(items))
}

fn put(kinds: &mut Kinds, variable: u32, choices: Choices) -> Result<(), OutOfMemory> {
    if kinds.lacks(Name(variable)) && !choices.is_empty() {
        kinds.add(Name(variable), choices)?;
    }
    Ok(())
}

fn kinds(alloc: Global, width: u32) -> Result<Kinds, OutOfMemory> {
    let mut kinds = Kinds::new(alloc);
    put(&mut kinds, 0, wides(alloc, 0, 4096, 1)?)?;
    put(&mut kinds, 1, wides(alloc, 0, 16, 1)?)?;
    put(&mut kinds, 2, wides(alloc, 100, 16, 1)?)?;
    put(&mut kinds, 3, wides(alloc, 200, 16, 1)?)?;
    put(&mut kinds, 6, wides(alloc, 0, 64, 1)?)?;
    put(&mut kinds, 7, wides(alloc, 100, 64, 1)?)?;
    put(&mut kinds, 4, wides(alloc, 0, width, 341)?)?;
    put(&mut kinds, 5, fans(alloc, 0, width, 170)?)?;
    Ok(kinds)
}

/// Arrows from names to a name, behind an arrow from the variable 0.
fn long(alloc: Global) -> Result<Schema, OutOfMemory> {
    let mut schema = name(END);
    for number in 0..31 {
        schema = arrow(alloc, name(number), schema)?;
    }
    arrow(alloc, Schema::Var(Name(0)), schema)
}

/// Two arrows from the variables 6 and 7 to 36 names.
fn many(alloc: Global) -> Result<Schema, OutOfMemory> {
    let mut target = name(8_000_000);
    for number in 1..36 {
        target = Schema::Meet(Box::new(alloc, (target, name(8_000_000 + number)))?);
    }
    let inner = arrow(alloc, Schema::Var(Name(7)), target)?;
    arrow(alloc, Schema::Var(Name(6)), inner)
}

fn three(alloc: Global) -> Result<Schema, OutOfMemory> {
    let pair = Schema::Meet(Box::new(alloc, (name(0), name(1)))?);
    Ok(Schema::Meet(Box::new(alloc, (pair, name(2)))?))
}

/// Three names, and seven times an arrow from what there is to three names.
fn tower(alloc: Global) -> Result<Schema, OutOfMemory> {
    let mut schema = three(alloc)?;
    for _ in 0..7 {
        schema = arrow(alloc, schema, three(alloc)?)?;
    }
    Ok(schema)
}

fn schema(alloc: Global, case: u32) -> Result<Schema, OutOfMemory> {
    match case {
        0 => Ok(Schema::Var(Name(0))),
        1 => arrow(alloc, Schema::Var(Name(0)), name(END)),
        2 => arrow(alloc, name(END), Schema::Var(Name(0))),
        3 => {
            let inner = arrow(alloc, Schema::Var(Name(2)), Schema::Var(Name(3)))?;
            arrow(alloc, Schema::Var(Name(1)), inner)
        }
        4 => Ok(Schema::Var(Name(4))),
        5 => Ok(Schema::Var(Name(5))),
        6 => long(alloc),
        7 => tower(alloc),
        8 => many(alloc),
        _ => {
            let pair = Schema::Meet(Box::new(alloc, (name(0), name(1)))?);
            let one = arrow(alloc, pair, name(8_000_000))?;
            Ok(Schema::Meet(Box::new(alloc, (one, many(alloc)?))?))
        }
    }
}

fn taxonomy(alloc: Global, count: u32) -> Result<Taxonomy, OutOfMemory> {
    let mut pairs = Vec::new(alloc);
    for number in 0..count {
        pairs.push((Name(number), Name(5_000_000)))?;
    }
    match Taxonomy::new(alloc, &pairs, &[]) {
        Ok(taxonomy) => Ok(taxonomy),
        Err(_) => Err(OutOfMemory),
    }
}

/// How often the component of the schema is accepted, of so many times.
fn add(alloc: Global, library: &mut Library, schema: &Schema, kinds: &Kinds, count: u32) -> u32 {
    for number in 0..count {
        if library.add(alloc, schema, kinds).is_err() {
            return number;
        }
    }
    count
}

fn main(rt: HostRuntime) -> io::Result<()> {
    let alloc = rt.alloc();
    for line in rt.lines(alloc) {
        let line = line?;
        let mut words = line.as_str().split(' ').map(|word| word.parse::<u32>().unwrap_or(0));
        let case = words.next().unwrap_or(0);
        let Ok(kinds) = kinds(alloc, words.next().unwrap_or(0)) else {
            return Ok(());
        };
        let Ok(taxonomy) = taxonomy(alloc, words.next().unwrap_or(0)) else {
            return Ok(());
        };
        let Ok(schema) = schema(alloc, case) else {
            return Ok(());
        };
        let Ok(mut library) = Library::build(alloc, taxonomy, &[], &kinds) else {
            return Ok(());
        };
        let start = Instant::now(&rt)?;
        let accepted = add(alloc, &mut library, &schema, &kinds, words.next().unwrap_or(1));
        let time = start.elapsed(&rt)?.as_nanos();
        println!(rt; "{accepted} {time}")?;
    }
    Ok(())
}
'''

# what it is, the case, the width, the declared pairs, how often the component is added, how often it is accepted
CASES = [
    ("a kind of 4,096 names", 0, 1, 0, 1, 1),
    ("122 of them", 0, 1, 0, 122, 122),
    ("all names below one", 0, 1, 4096, 1, 1),
    ("arrows from 4,096 names", 1, 1, 0, 1, 1),
    ("arrows to 4,096 names", 2, 1, 0, 1, 1),
    ("three kinds of 16 names", 3, 1, 0, 1, 1),
    ("27 instances of 341 names", 4, 27, 0, 1, 1),
    ("55 instances of 170 arrows to one name", 5, 55, 0, 1, 1),
    ("32 arguments, the first of 4,096 names", 6, 1, 0, 1, 1),
    ("two arrows from 64 names each to 36 names", 8, 1, 0, 1, 1),
    ("the same, 32 pairs of names", 8, 1, 32, 1, 1),
    ("the same beside an arrow from two names", 9, 1, 0, 1, 1),
    ("a tower of seven arrows", 7, 1, 0, 1, 1),
    ("77 of them, of which 76 fit", 7, 1, 0, 77, 76),
]


def line_of(case):
    return "%d %d %d %d\n" % tuple(case)


def run(program, case):
    reply = subprocess.run(["/usr/bin/time", "-f", "%M", program], input=line_of(case), capture_output=True, text=True)
    accepted, time = reply.stdout.split()
    return int(accepted), int(time) / 1e6, int(reply.stderr.split()[-1]) / 1024


def main():
    parser = argparse.ArgumentParser(description=__doc__, formatter_class=argparse.RawDescriptionHelpFormatter)
    parser.add_argument("--runs", type=int, default=3)
    parser.add_argument("--instructions", action="store_true")
    parser.add_argument("words", nargs="*")
    options = parser.parse_args()
    with tempfile.TemporaryDirectory() as folder:
        program = build(folder, "bench_library", CRATES, PROGRAM)
        for name, *case, accepted in CASES:
            if options.words and not any(word in name for word in options.words):
                continue
            results = [run(program, case) for _ in range(options.runs)]
            assert all(result[0] == accepted for result in results), (name, results)
            print("%s: %.1f ms, %.1f MiB" % (name, min(result[1] for result in results), max(result[2] for result in results)), flush=True)
            if options.instructions:
                print("%s: %.0f million instructions" % (name, instructions(program, line_of(case))), flush=True)


if __name__ == "__main__":
    main()
