#!/usr/bin/env python3
"""Times `text_of`: the longest text, texts that are too long, an empty text that is repeated, and 1,000 components.

    bench/templates.py [--runs N]

A run of clsynth finds the terms first. So this builds a program that writes texts of terms alone, in a folder of its own, which
proves it first. A time is that of one call of `text_of`, the best of some runs."""
import argparse
import subprocess
import tempfile

from proved import build

CRATES = ["cls_base", "cls_term", "cls_assemble"]

PROGRAM = '''// Reads lines `LEAF TEMPLATE COUNT TIMES`: so many components, of which the first has the text of the leaf and each other one
// the template, nested so many times. Writes the length of the text, or 0 where it is too long, and the time.
#![tactic(auto)]

ghost use Rattle.std.specs.Prelude.{◌≡◌, ◌+◌, ◌<◌, ◌≤◌, ◌^◌, length, IfOk};
ghost use Rattle.cls_term.specs.Components.{greatest_of};

use cls_assemble::{Template, Templates, text_of};
use cls_base::OutOfMemory;
use cls_term::{Term, Terms};
use std::alloc::Global;
use std::io;
use std::time::Instant;

/// Over this length a word is no template.
const LONG: usize = 1_000_000;

fn template(alloc: Global, text: &str) -> Result<Template, OutOfMemory> {
    if text.len() > LONG {
        return Err(OutOfMemory);
    }
    match Template::read(alloc, text) {
        Ok(template) => Ok(template),
        Err(_) => Err(OutOfMemory),
    }
}

fn templates(alloc: Global, leaf: &str, text: &str, count: u32) -> Result<Templates, OutOfMemory>
    ensures { IfOk result (λ templates. length templates ≡ count + 1) }
{
    let mut items = Vec::new(alloc);
    items.push(template(alloc, leaf)?)?;
    for _ in 0..count {
        items.push(template(alloc, text)?)?;
    }
    Ok(Templates::from_vec(items))
}

/// The component applied to the term, among so many.
fn applied(alloc: Global, component: u32, term: Term, count: u32) -> Result<Term, OutOfMemory>
    requires component { component ≤ count }
    requires named { greatest_of term ≤ count }
    ensures { IfOk result (λ term. greatest_of term ≤ count) }
{
    let mut args = Terms::new(alloc);
    args.push(term)?;
    Ok(Term::new(component, args))
}

fn nested(alloc: Global, count: u32, times: u32) -> Result<Term, OutOfMemory>
    ensures { IfOk result (λ term. greatest_of term ≤ count) }
{
    let mut term = Term::new(0, Terms::new(alloc));
    for number in 0..times {
        let component = if number < count { number + 1 } else { count };
        term = applied(alloc, component, term, count)?;
    }
    Ok(term)
}

fn main(rt: HostRuntime) -> io::Result<()> {
    let alloc = rt.alloc();
    for line in rt.lines(alloc) {
        let line = line?;
        let mut words = line.as_str().split(' ');
        let leaf = words.next().unwrap_or("");
        let text = words.next().unwrap_or("");
        let count = words.next().unwrap_or("").parse::<u16>().unwrap_or(0);
        let times = words.next().unwrap_or("").parse::<u32>().unwrap_or(0);
        let count = u32::from(count);
        if let (Ok(all), Ok(term)) = (templates(alloc, leaf, text, count), nested(alloc, count, times)) {
            let start = Instant::now(&rt)?;
            let made = match text_of(alloc, &all, &term) {
                Ok(text) => text.len(),
                Err(_) => 0,
            };
            let time = start.elapsed(&rt)?.as_nanos();
            println!(rt; "{made} {time}")?;
        }
    }
    Ok(())
}
'''

FILES = {
    "proofs/nested/Invariants.antt": '''use Rattle.std.proofs.Common.{◌≤◌}
use Rattle.cls_term.specs.Components.{greatest_of}
use Rattle.bench_templates.proofs.nested.Given as goal

abbrev pub invariant-loop-number : goal.invariant-loop-number
invariant-loop-number l = greatest_of l.term ≤ l.count
''',
    "proofs/templates/Invariants.antt": '''use Rattle.std.proofs.Common.{◌≡◌, ◌+◌, length}
use Rattle.bench_templates.proofs.templates.Given as goal

abbrev pub invariant-loop : goal.invariant-loop
invariant-loop l = length l.items.items ≡ l.counter + 1
''',
}

# what it is, the leaf, the template of the others, how many others, how often they are nested, and the length of the text
CASES = [
    ("`{1}{1}` 15 times over two bytes, the longest text", "ab", "{1}{1}", 1, 15, 65536),
    ("`{1}{1}` 16 times, which is too long", "ab", "{1}{1}", 1, 16, 0),
    ("`{1}{1}` 64 times, which is too long", "ab", "{1}{1}", 1, 64, 0),
    ("`{1}{1}` 64 times over the empty text", "", "{1}{1}", 1, 64, 0),
    ("1,000 components of 64 bytes each, nested", "ab", "x" * 32 + "{1}" + "y" * 32, 999, 999, 63938),
]


def run(program, case):
    line = "%s %s %d %d\n" % tuple(case)
    reply = subprocess.run([program], input=line, capture_output=True, text=True)
    length, time = reply.stdout.split()
    return int(length), int(time) / 1e3


def main():
    parser = argparse.ArgumentParser(description=__doc__, formatter_class=argparse.RawDescriptionHelpFormatter)
    parser.add_argument("--runs", type=int, default=5)
    options = parser.parse_args()
    with tempfile.TemporaryDirectory() as folder:
        program = build(folder, "bench_templates", CRATES, PROGRAM, None, FILES)
        for name, *case, length in CASES:
            results = [run(program, case) for _ in range(options.runs)]
            assert all(result[0] == length for result in results), (name, results)
            print("%s: %.1f microseconds" % (name, min(result[1] for result in results)), flush=True)


if __name__ == "__main__":
    main()
