#!/usr/bin/env python3
"""Times the normal form of an intersection of 4,096 paths, which is where all pairs of paths could be compared.

    bench/normal_forms.py [--runs N]

It proves and builds a small program over cls_norm first, which takes some minutes. A time is that of one call of `normal`, the
best of some runs."""
import argparse
import subprocess
import tempfile

from proved import build

CRATES = ["cls_base", "cls_taxon", "cls_path", "cls_norm"]

PROGRAM = '''// Reads lines `shape count order`. Makes the intersection of so many paths of the shape, and times its normal form, at the
// order of names without pairs where the order is `flat`, and else at a taxonomy with so many pairs.
#![tactic(auto)]

use cls_base::{Flat, Name, OutOfMemory, Taxa, Ty};
use cls_norm::normal;
use cls_taxon::Taxonomy;
use std::alloc::Global;
use std::io;
use std::time::Instant;

fn bare(number: u32) -> Ty {
    Ty::Bare(Name(number))
}

fn arrow(alloc: Global, source: Ty, target: Ty) -> Result<Ty, OutOfMemory> {
    Ok(Ty::Arrow(Box::new(alloc, (source, target))?))
}

/// A path with 32 arrows, of which the first and the last source are given.
fn tower(alloc: Global, inner: u32, outer: u32) -> Result<Ty, OutOfMemory> {
    let mut ty = arrow(alloc, bare(inner), bare(9_999_999))?;
    for number in 0..30 {
        ty = arrow(alloc, bare(number), ty)?;
    }
    arrow(alloc, bare(outer), ty)
}

/// Two arrows, over names of three kinds of 16.
fn curried(alloc: Global, number: u32) -> Result<Ty, OutOfMemory> {
    let source = bare(100 + number % 16);
    let target = bare(200 + (number / 16) % 16);
    let inner = arrow(alloc, source, target)?;
    arrow(alloc, bare(number / 256), inner)
}

/// A name over one of 16 names over a name.
fn nested(alloc: Global, number: u32) -> Result<Ty, OutOfMemory> {
    let inner = Ty::Con(Name(8_000_001 + number % 16), Box::new(alloc, bare(number))?);
    Ok(Ty::Con(Name(8_000_000), Box::new(alloc, inner)?))
}

/// The names, and in place of the first one the name that the declared pairs lead to.
fn topped(number: u32) -> Ty {
    if number == 0 { bare(5_000_000) } else { bare(number) }
}

fn shaped(alloc: Global, shape: &str, number: u32) -> Result<Ty, OutOfMemory> {
    match shape {
        "names" => Ok(bare(number)),
        "topped" => Ok(topped(number)),
        "nested" => nested(alloc, number),
        "sources" => arrow(alloc, bare(number), bare(9_999_999)),
        "targets" => arrow(alloc, bare(9_999_999), bare(number)),
        "curried" => curried(alloc, number),
        "first" => tower(alloc, 7, number),
        _ => tower(alloc, number, 7),
    }
}

/// The intersection, in an order that is not sorted.
fn wide(alloc: Global, shape: &str, count: u32) -> Result<Ty, OutOfMemory> {
    let mut ty = Ty::Omega;
    for number in 0..count {
        let one = shaped(alloc, shape, number.wrapping_mul(2_654_435_761) % 4096)?;
        ty = Ty::Meet(Box::new(alloc, (ty, one))?);
    }
    Ok(ty)
}

fn taxonomy(alloc: Global, count: u32) -> Result<Taxonomy, OutOfMemory> {
    let mut pairs = Vec::new(alloc);
    for number in 0..count {
        pairs.push((Name(number), Name(5_000_000)))?;
    }
    match Taxonomy::new(alloc, &pairs, &[]) {
        Ok(taxonomy) => Ok(taxonomy),
        Err(_) => Err(OutOfMemory),
    }
}

fn paths<T: Taxa>(alloc: Global, taxa: &T, ty: &Ty) -> usize {
    match normal(alloc, taxa, ty) {
        Ok(nf) => nf.paths().len(),
        Err(_) => 0,
    }
}

fn main(rt: HostRuntime) -> io::Result<()> {
    let alloc = rt.alloc();
    for line in rt.lines(alloc) {
        let line = line?;
        let mut words = line.as_str().split(\' \');
        let shape = words.next().unwrap_or("names");
        let count = words.next().unwrap_or("0").parse::<u32>().unwrap_or(0);
        let order = words.next().unwrap_or("flat");
        let pairs = order.parse::<u32>().unwrap_or(0) % 10_000;
        if let (Ok(ty), Ok(taxa)) = (wide(alloc, shape, count), taxonomy(alloc, pairs)) {
            let start = Instant::now(&rt)?;
            let kept = if order == "flat" {
                paths(alloc, &Flat, &ty)
            } else {
                paths(alloc, &taxa, &ty)
            };
            let time = start.elapsed(&rt)?.as_nanos();
            println!(rt; "{kept} {time}")?;
        }
    }
    Ok(())
}
'''

SHAPES = [
    ("names", "4,096 names"),
    ("topped", "4,095 names, and the one that pairs lead to"),
    ("nested", "4,096 names under two names"),
    ("sources", "4,096 arrows to one name"),
    ("targets", "4,096 arrows from one name"),
    ("curried", "4,096 paths with two arrows, over 16 names each"),
    ("first", "4,096 paths with 32 arrows that differ in the first source"),
    ("last", "4,096 paths with 32 arrows that differ in the last source"),
]
ORDERS = [("flat", "no order of names"), ("0", "a taxonomy without pairs"), ("20", "20 pairs"), ("4096", "4,096 names below one")]


def run(program, shape, order):
    """How many paths the normal form has, and the milliseconds that it took."""
    reply = subprocess.run([program], input="%s 4096 %s\n" % (shape, order), capture_output=True, text=True)
    paths, time = reply.stdout.split()
    return int(paths), int(time) / 1e6


def main():
    parser = argparse.ArgumentParser(description=__doc__, formatter_class=argparse.RawDescriptionHelpFormatter)
    parser.add_argument("--runs", type=int, default=3)
    options = parser.parse_args()
    with tempfile.TemporaryDirectory() as folder:
        program = build(folder, "bench_normal_forms", CRATES, PROGRAM)
        for order, order_title in ORDERS:
            for shape, title in SHAPES:
                paths, time = min((run(program, shape, order) for _ in range(options.runs)), key=lambda row: row[1])
                print("%s, %s: %d paths, %.0f ms" % (title, order_title, paths, time), flush=True)


if __name__ == "__main__":
    main()
