#!/usr/bin/env python3
"""Times `Taxonomy::new` and its lookups on 75,000 pairs: a chain, trees, hubs, and random pairs.

    bench/taxonomy.py [--runs N]

A run of clsynth reads and answers lines as well. So this builds a program that makes a taxonomy alone, in a folder of its own,
which proves it first. Times are those of the calls, without the reading of the pairs; the memory is that of the whole program."""
import argparse
import random
import subprocess
import tempfile

from proved import build

CRATES = ["cls_base", "cls_taxon"]
PAIRS = 75_000

PROGRAM = '''// Reads lines of two numbers of names, the first below the second, and looks each pair up both ways.
#![tactic(auto)]

use cls_base::Name;
use cls_taxon::Taxonomy;
use std::io;
use std::time::Instant;

fn number(word: Option<&str>) -> Name {
    Name(word.and_then(|word| word.parse().ok()).unwrap_or(0))
}

fn main(rt: HostRuntime) -> io::Result<()> {
    let mut pairs = Vec::new(rt.alloc());
    for line in rt.lines(rt.alloc()) {
        let line = line?;
        let mut words = line.as_str().split(' ');
        let lower = number(words.next());
        let upper = number(words.next());
        if pairs.push((lower, upper)).is_err() {
            return Ok(());
        }
    }
    let start = Instant::now(&rt)?;
    let taxonomy = match Taxonomy::new(rt.alloc(), &pairs, &[]) {
        Ok(taxonomy) => taxonomy,
        Err(fault) => {
            let time = start.elapsed(&rt)?.as_nanos();
            println!(rt; "{fault:?} {time} 0 0")?;
            return Ok(());
        }
    };
    let time = start.elapsed(&rt)?.as_nanos();
    let start = Instant::now(&rt)?;
    let mut found: u32 = 0;
    for (lower, upper) in pairs.as_slice() {
        if taxonomy.below(*lower, *upper) {
            found = found.saturating_add(1);
        }
        if taxonomy.below(*upper, *lower) {
            found = found.saturating_add(1);
        }
    }
    let lookups = start.elapsed(&rt)?.as_nanos();
    println!(rt; "order {time} {lookups} {found}")?;
    Ok(())
}
'''


def cases():
    """Each list of pairs with what it is, and whether it is an order."""
    source = random.Random(1)
    chain = [(number, number + 1) for number in range(PAIRS)]
    yield "a chain", chain, True
    yield "a chain, last pair first", chain[::-1], True
    yield "a chain in any order", source.sample(chain, len(chain)), True
    yield "a tree, one above each", [(number, source.randrange(number)) for number in range(1, PAIRS + 1)], True
    yield "a tree, one below each", [(source.randrange(number), number) for number in range(1, PAIRS + 1)], True
    yield "a spine with a leaf at each name", [pair for number in range(0, PAIRS, 2) for pair in ((number + 2, number), (number + 1, number))], True
    yield "the same upside down", [(upper, lower) for number in range(0, PAIRS, 2) for lower, upper in ((number + 2, number), (number + 1, number))], True
    yield "a hub above all", [(number, 0) for number in range(1, PAIRS + 1)], True
    yield "a hub below all", [(0, number) for number in range(1, PAIRS + 1)], True
    for names in (1_000, 10_000, 37_500):
        yield "random pairs of %d names" % names, [tuple(sorted(source.sample(range(names), 2))) for _ in range(PAIRS)], True
    yield "a chain that ends in a cycle", chain + [(PAIRS, PAIRS - 1)], False
    yield "a cycle of all", chain + [(PAIRS, 0)], False


def run(program, pairs):
    text = "".join("%d %d\n" % pair for pair in pairs)
    reply = subprocess.run(["/usr/bin/time", "-f", "%M", program], input=text, capture_output=True, text=True)
    words = reply.stdout.split()
    return words[0] == "order", int(words[-3]) / 1e6, int(words[-2]) / 1e6, int(reply.stderr.split()[-1]) / 1024


def main():
    parser = argparse.ArgumentParser(description=__doc__, formatter_class=argparse.RawDescriptionHelpFormatter)
    parser.add_argument("--runs", type=int, default=3)
    options = parser.parse_args()
    with tempfile.TemporaryDirectory() as folder:
        program = build(folder, "bench_taxonomy", CRATES, PROGRAM)
        for name, pairs, is_order in cases():
            results = [run(program, pairs) for _ in range(options.runs)]
            assert all(result[0] == is_order for result in results), name
            print("%s: %.1f ms, lookups of all pairs both ways %.1f ms, %.1f MiB" % (
                name, min(result[1] for result in results), min(result[2] for result in results), max(result[3] for result in results)))


if __name__ == "__main__":
    main()
