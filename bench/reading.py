#!/usr/bin/env python3
"""Times the reading of types from lines of 65,536 bytes: cutting a line into tokens, recognising a type, and `read_type`.

    bench/reading.py [--runs N]

No program of the repository reads types alone, so this builds one in a folder of its own, which proves it first. A time is that of
one call, the best of some runs."""
import argparse
import subprocess
import tempfile

from proved import build

CRATES = ["cls_base", "cls_lexer", "cls_syntax"]

PROGRAM = '''// Reads lines. Says of each how many tokens it has and how many stand behind its type, whether it is a type, and the times.
#![tactic(auto)]

use cls_base::limits::MAX_LINE_BYTES;
use cls_lexer::{Names, tokens};
use cls_syntax::{read_type, type_at};
use std::io;
use std::time::Instant;

fn main(rt: HostRuntime) -> io::Result<()> {
    let alloc = rt.alloc();
    for line in rt.lines(alloc) {
        let line = line?;
        let text = line.as_str();
        if text.len() <= MAX_LINE_BYTES {
            let start = Instant::now(&rt)?;
            let found = tokens(alloc, text);
            let cut = start.elapsed(&rt)?.as_nanos();
            if let Ok(found) = found {
                let start = Instant::now(&rt)?;
                let left = match type_at(&found) {
                    Ok((_, rest)) => rest.len(),
                    Err(stop) => stop.rest.len(),
                };
                let recognised = start.elapsed(&rt)?.as_nanos();
                let start = Instant::now(&rt)?;
                let is_type = read_type(alloc, &mut Names::new(alloc), text).is_ok();
                let whole = start.elapsed(&rt)?.as_nanos();
                let count = found.len();
                println!(rt; "{count} {left} {is_type} {cut} {recognised} {whole}")?;
            }
        }
    }
    Ok(())
}
'''

# what it is, the line, how many tokens it has, how many of them stand behind the type, and whether it is a type
LINES = [
    ("a product of 32,768 names", "a*" * 32767 + "a", 65535, 0, "false"),
    ("a name in 32,767 parentheses", "(" * 32767 + "a" + ")" * 32767, 65535, 0, "false"),
    ("two names with 65,534 blanks between them", "a" + " " * 65534 + "b", 2, 1, "false"),
    ("1,337 names of 48 bytes", " ".join(["n" * 48] * 1337), 1337, 1336, "false"),
    ("a number of 65,536 digits", "7" * 65536, 1, 1, "false"),
    ("32,768 characters that are no token", "\u00e4" * 32768, 32768, 32768, "false"),
    ("arrows over 341 names, 1,022 nodes", " -> ".join("N%d" % number for number in range(341)), 681, 0, "true"),
    ("a product of 170 arrows, 1,019 nodes", " * ".join("(a -> b%d)" % number for number in range(170)), 1019, 0, "true"),
]


def run(program, line):
    """What there is to the line, and the three times in milliseconds."""
    reply = subprocess.run([program], input=line + "\n", capture_output=True, text=True)
    count, left, is_type, *times = reply.stdout.split()
    return (int(count), int(left), is_type), [int(time) / 1e6 for time in times]


def main():
    parser = argparse.ArgumentParser(description=__doc__, formatter_class=argparse.RawDescriptionHelpFormatter)
    parser.add_argument("--runs", type=int, default=5)
    options = parser.parse_args()
    with tempfile.TemporaryDirectory() as folder:
        program = build(folder, "bench_reading", CRATES, PROGRAM)
        for name, line, *found in LINES:
            results = [run(program, line) for _ in range(options.runs)]
            assert all(result[0] == tuple(found) for result in results), (name, results)
            best = tuple(min(times) for times in zip(*(result[1] for result in results)))
            print("%s: cut in %.3f ms, recognised in %.3f ms, read_type in %.3f ms" % ((name,) + best), flush=True)


if __name__ == "__main__":
    main()
