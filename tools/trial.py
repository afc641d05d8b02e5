"""Runs of clsynth that one `rt try` does, without proofs.

`rt try` keeps no file, runs a program only on an input which is there before, and takes half a second to start one of this size. So a small
program does many runs by the one call that clsynth makes, `run`, over sources and sinks in memory. Each run is noted first, then they are
done together, and then each is answered. A run that goes on by the replies can't be noted, nor one with a word that isn't UTF-8.
"""

from __future__ import annotations

import hashlib
import os
import re
import subprocess
import sys
import tempfile
from collections.abc import Sequence
from dataclasses import dataclass
from pathlib import Path

TOP = Path(__file__).resolve().parents[1]
sys.path.append(str(TOP / "bench"))

from proved import lay_out

NO_ANSWER = 70
SECONDS = 150
BEGUN = re.compile(rb"^(?:\| )?begins run (\d+)\n", re.MULTILINE)
HEAD = re.compile(rb"(\d+) (\d+)\n")
PROGRAM = """//! Does the runs that standard input has, one after another, and writes the status and the output of each.
#![tactic(auto)]

use cls_base::{MemorySink, MemorySource, Numbers, OpenGate};
use cls_session::run;
use std::alloc::Global;
use std::io::{self, BufRead, BufReader, Read};

/// The most bytes that a run may write.
const ROOM: usize = 262_144;
/// The most bytes that are read or written at once.
const CHUNK: usize = 4_096;

/// The next line, without its line feed.
fn line<R: BufRead>(alloc: Global, reader: &mut R) -> io::Result<String> {
    let mut line = String::new(alloc);
    reader.read_line(&mut line)?;
    if line.as_str().ends_with('\\n') {
        line.pop();
    }
    Ok(line)
}

/// The number in the next line.
fn number<R: BufRead>(alloc: Global, reader: &mut R) -> io::Result<usize> {
    Ok(line(alloc, reader)?.as_str().parse::<usize>().unwrap_or(0))
}

fn main(rt: HostRuntime) -> io::Result<()> {
    let alloc = rt.alloc();
    let mut reader = BufReader::new(alloc, rt.reader())?;
    for place in 0..number(alloc, &mut reader)? {
        let mut words = Vec::new(alloc);
        for _ in 0..number(alloc, &mut reader)? {
            words.push(line(alloc, &mut reader)?)?;
        }
        let length = number(alloc, &mut reader)?;
        let mut bytes = vec![in alloc; 0u8; length]?;
        reader.read_exact(&mut bytes)?;
        eprintln!(rt; "begins run {place}")?;
        let mut source = MemorySource::new(bytes, CHUNK, Numbers::new(Vec::new(alloc)));
        let Ok(mut sink) = MemorySink::new(alloc, ROOM, CHUNK, Numbers::new(Vec::new(alloc))) else {
            return Ok(());
        };
        let status = run(&rt, alloc, words.as_slice(), &mut source, &mut sink, &OpenGate);
        let output = str::from_utf8(sink.held()).unwrap_or("");
        println!(rt; "{} {}\\n{output}", status as u8, output.len())?;
    }
    Ok(())
}
"""
STAND_IN = """#!/usr/bin/env python3
import sys
from pathlib import Path

sys.path.insert(0, {tools!r})
from trial import Trial

sys.exit(Trial(Path({room!r})).stand_in())
"""


@dataclass(frozen=True)
class Ended:
    """What a run wrote, and its status."""

    output: bytes
    status: int


class TrialFault(Exception):
    """Why the runs aren't done."""


def as_noted(words: Sequence[str], given: bytes) -> bytes:
    """A run as the program reads it."""
    lines = [str(len(words)), *words, str(len(given))]
    return os.fsencode("".join(f"{line}\n" for line in lines)) + given


def name_of(noted: bytes) -> str:
    return hashlib.sha256(noted).hexdigest()


class Trial:
    """Runs that are noted in a folder, done together, and answered from there."""

    def __init__(self, room: Path) -> None:
        self.room = room
        self.noted = room / "noted"
        self.answers = room / "answers"
        self.noted.mkdir(exist_ok=True)

    def note(self, words: Sequence[str], given: bytes) -> None:
        noted = as_noted(words, given)
        (self.noted / name_of(noted)).write_bytes(noted)

    def run(self) -> None:
        """Does the runs that are noted."""
        runs = {path.name: path.read_bytes() for path in sorted(self.noted.iterdir())}
        with tempfile.TemporaryDirectory(dir=self.room) as folder:
            program = lay_out(folder, "clsynth_runs", ["cls_base", "cls_session"], PROGRAM)
            words = ["rt", "try", "--steps", "1", "--seconds", str(SECONDS)]
            given = f"{len(runs)}\n".encode() + b"".join(runs.values())
            ran = subprocess.run(words, cwd=program, input=given, capture_output=True)
        if ran.returncode != 0:
            begun = BEGUN.findall(ran.stderr)
            where = f"\nthe last run that began: {list(runs.values())[int(begun[-1])][:400]!r}" if begun else ""
            raise TrialFault(BEGUN.sub(b"", ran.stderr).decode(errors="replace") + where)
        self.answers.mkdir()
        self.keep_answers(list(runs), ran.stdout)

    def keep_answers(self, names: list[str], written: bytes) -> None:
        place = 0
        for name in names:
            head = HEAD.match(written, place)
            if head is None:
                raise TrialFault(f"{len(names)} runs were noted, and not all are answered")
            end = head.end() + int(head[2])
            (self.answers / name).write_bytes(head[1] + b"\n" + written[head.end() : end])
            place = end + 1

    def answer(self, words: Sequence[str], given: bytes) -> Ended | None:
        """What came of the run; nothing if it wasn't noted."""
        path = self.answers / name_of(as_noted(words, given))
        if not path.exists():
            return None
        status, _, output = path.read_bytes().partition(b"\n")
        return Ended(output, int(status))

    def write_stand_in(self) -> Path:
        """Writes a program that notes each of its runs, and once they were done answers as clsynth does."""
        path = self.room / "clsynth"
        path.write_text(STAND_IN.format(tools=str(TOP / "tools"), room=str(self.room)))
        path.chmod(0o755)
        return path

    def stand_in(self) -> int:
        words, given = sys.argv[1:], sys.stdin.buffer.read()
        if not self.answers.exists():
            self.note(words, given)
            return 0
        ended = self.answer(words, given)
        if ended is None:
            print("this run wasn't noted", file=sys.stderr)
            return NO_ANSWER
        sys.stdout.buffer.write(ended.output)
        return ended.status
