#!/usr/bin/env python3
"""Times `Library::build` on the kinds and components of repositories.

    bench/repository.py [--runs N] [--instructions] FILE ..

A file is an input of clsynth, of which the lines `kind` and `comp` count. A run of clsynth does more than that, so this builds a
program in a folder of its own, which proves it first. A time is that of one call of `Library::build`, the best of some runs.
With --instructions callgrind counts the instructions of the call, and those of reading the types."""
import argparse
import os
import subprocess
import tempfile

from proved import build, instructions

CRATES = ["cls_base", "cls_lexer", "cls_syntax", "cls_taxon", "cls_path", "cls_norm", "cls_kind", "cls_library"]

PROGRAM = '''// Reads lines of a word and a text: `type` and a type, `kind` and the variable whose kind the types before it are, `comp` and
// the type of a component. If a line begins with `build`, the library is built, and otherwise one without components.
#![tactic(auto)]

use cls_base::limits::MAX_LINE_BYTES;
use cls_base::{Schema, Ty};
use cls_kind::{Choices, Kinds};
use cls_lexer::Names;
use cls_library::Library;
use cls_syntax::{read_schema, read_type};
use cls_taxon::Taxonomy;
use std::alloc::Global;
use std::io;
use std::mem;
use std::time::Instant;

#[derive(Drop)]
struct Repository {
    names: Names,
    variables: Names,
    types: Vec<Ty>,
    kinds: Kinds,
    schemas: Vec<Schema>,
    builds: bool,
}

fn empty(alloc: Global) -> Repository {
    Repository {
        names: Names::new(alloc),
        variables: Names::new(alloc),
        types: Vec::new(alloc),
        kinds: Kinds::new(alloc),
        schemas: Vec::new(alloc),
        builds: false,
    }
}

fn put_kind(alloc: Global, given: &mut Repository, text: &str) -> Option<()> {
    if given.variables.len() > 100_000 {
        return None;
    }
    let variable = given.variables.intern(alloc, text).ok()?;
    let choices = Choices::new(mem::replace(&mut given.types, Vec::new(alloc)));
    if choices.is_empty() || !given.kinds.lacks(variable) {
        return None;
    }
    given.kinds.add(variable, choices).ok()
}

fn put(alloc: Global, given: &mut Repository, word: &str, text: &str) -> Option<()> {
    if text.len() > MAX_LINE_BYTES {
        return None;
    }
    if word == "type" {
        let ty = read_type(alloc, &mut given.names, text).ok()?;
        return given.types.push(ty).ok();
    }
    if word == "kind" {
        return put_kind(alloc, given, text);
    }
    if word == "comp" {
        let schema = read_schema(alloc, &mut given.names, &mut given.variables, text).ok()?;
        return given.schemas.push(schema).ok();
    }
    given.builds = true;
    Some(())
}

fn put_line(alloc: Global, given: &mut Repository, line: &str) -> Option<()> {
    let (word, text) = line.split_once(' ')?;
    put(alloc, given, word, text)
}

fn main(rt: HostRuntime) -> io::Result<()> {
    let alloc = rt.alloc();
    let mut given = empty(alloc);
    for line in rt.lines(alloc) {
        let line = line?;
        if put_line(alloc, &mut given, line.as_str()).is_none() {
            println!(rt; "refused: {line}")?;
        }
    }
    let Ok(taxonomy) = Taxonomy::new(alloc, &[], &[]) else {
        return Ok(());
    };
    if !given.builds {
        given.schemas.clear();
    }
    let start = Instant::now(&rt)?;
    let accepted = match Library::build(alloc, taxonomy, &given.schemas, &given.kinds) {
        Ok(library) => library.count(),
        Err(fault) => fault.component,
    };
    let time = start.elapsed(&rt)?.as_nanos();
    println!(rt; "{accepted} {time}")?;
    Ok(())
}
'''


def lines_of(path):
    """The lines for the program, and the number of components."""
    lines = []
    components = 0
    with open(path) as file:
        for line in file:
            word, _, rest = line.strip().partition(" ")
            if word == "end":
                break
            if word == "kind":
                name, types = rest.split(" = ")
                lines += ["type %s" % ty for ty in types.split(" | ")] + ["kind %s" % name]
            elif word == "comp":
                lines.append("comp %s" % rest.split(" : ", 1)[1])
                components += 1
    return lines, components


def run(program, text):
    """How many components are taken, the milliseconds, and the memory in MiB."""
    reply = subprocess.run(["/usr/bin/time", "-f", "%M", program], input=text, capture_output=True, text=True)
    accepted, time = reply.stdout.split()
    return int(accepted), int(time) / 1e6, int(reply.stderr.split()[-1]) / 1024


def main():
    parser = argparse.ArgumentParser(description=__doc__, formatter_class=argparse.RawDescriptionHelpFormatter)
    parser.add_argument("--runs", type=int, default=5)
    parser.add_argument("--instructions", action="store_true")
    parser.add_argument("files", nargs="+")
    options = parser.parse_args()
    with tempfile.TemporaryDirectory() as folder:
        program = build(folder, "bench_repository", CRATES, PROGRAM)
        for path in options.files:
            lines, components = lines_of(path)
            read = "".join(line + "\n" for line in lines)
            results = [run(program, read + "build it\n") for _ in range(options.runs)]
            assert all(result[0] == components for result in results), (path, components, results)
            name = os.path.splitext(os.path.basename(path))[0]
            best = min(result[1] for result in results)
            print("%s: %d components, %.1f ms, %.1f MiB" % (name, components, best, max(result[2] for result in results)), flush=True)
            if options.instructions:
                reading = instructions(program, read)
                whole = instructions(program, read + "build it\n")
                print("%s: %.0f million instructions, reading %.0f" % (name, whole - reading, reading), flush=True)


if __name__ == "__main__":
    main()
