#!/usr/bin/env python3
"""Times `expand_all` on a closure of 20,000 goals with 10 arguments each, with 1, 2 and 4 workers.

    bench/machine.py [--runs N] [--goals N]

In a run of clsynth the rules of the goals take time as well. So this builds a program over an expander that has its rules at hand,
in a folder of its own, which proves it first. The time is that of the call alone. The memory is the greatest of the whole program,
by GNU time."""
import argparse
import subprocess
import tempfile

from proved import build

CRATES = ["cls_base", "cls_core", "cls_turn", "cls_table", "cls_workers"]

PROGRAM = '''// Reads a line of two numbers, of goals and of workers, and works the closure out.
#![tactic(auto)]

ghost use Rattle.std.specs.Prelude.{◌≡◌, ◌<◌, ◌+◌, ◌*◌, ◌%◌, IfOk};

use cls_base::{Key, OpenGate, OutOfMemory};
use cls_core::{Answer, Expand, GoalRules};
use cls_table::Limits;
use cls_workers::expand_all;
use std::alloc::Global;
use std::io;
use std::time::Instant;

#[derive(PartialEq, Eq, Hash, Drop, Clone, Copy)]
pub struct Node {
    pub id: u32,
}

impl Key for Node {
    ghost use Rattle.bench_machine.specs.Nodes.{node_is};

    fn copy(&self, _alloc: Global) -> Result<Node, OutOfMemory> {
        Ok(Node { id: self.id })
    }

    ghost exact = { node_is };
}

// Goals in a ring of this size. The goal n has one rule, over the goals 10 n + 1 to 10 n + 10, counted round the ring.
#[derive(Drop)]
pub struct Ring {
    size: u32,
}

fn next(size: u32, id: u32, step: u32) -> Node
    requires { (id < size) × (size < 100000000) × (step < 11) }
    ensures { result.id ≡ (10 * id + step) % size }
{
    Node {
        id: (10 * id + step) % size,
    }
}

impl Expand for Ring {
    ghost use Rattle.bench_machine.specs.Rings.{IsRingAnswer, IsInRing, one_ring_answer, arguments_in_ring};

    type Goal = Node;

    type Tag = u32;

    ghost tag = { λ r. r.size };

    ghost answers = { IsRingAnswer };

    ghost ready = { IsInRing };

    fn expand(&self, alloc: Global, goal: &Node) -> Result<Answer<Node>, OutOfMemory> {
        let size = self.size;
        let id = goal.id;
        let args = [
            next(size, id, 1),
            next(size, id, 2),
            next(size, id, 3),
            next(size, id, 4),
            next(size, id, 5),
            next(size, id, 6),
            next(size, id, 7),
            next(size, id, 8),
            next(size, id, 9),
            next(size, id, 10),
        ];
        let mut args = Vec::from_slice(alloc, args.as_slice())?;
        let mut rules = GoalRules::new(alloc);
        rules.push_head(id, &mut args)?;
        Ok(Answer::Rules(rules))
    }

    ghost one_answer = { one_ring_answer };

    ghost arguments_ready = { arguments_in_ring };
}

fn number(word: Option<&str>) -> u32 {
    word.and_then(|word| word.parse().ok()).unwrap_or(1)
}

fn main(rt: HostRuntime) -> io::Result<()> {
    for line in rt.lines(rt.alloc()) {
        let line = line?;
        let mut words = line.as_str().split(\' \');
        let size = number(words.next()).clamp(1, 10000000);
        let workers = number(words.next()).clamp(1, 64);
        let ring = Ring { size };
        let limits = Limits {
            goals: size,
            rules: size,
        };
        let start = Instant::now(&rt)?;
        let answer = expand_all(&rt, rt.alloc(), &ring, Node { id: 0 }, workers, limits, &OpenGate);
        let time = start.elapsed(&rt)?.as_nanos();
        let rows = match answer {
            Ok(done) => done.rows.count(),
            Err(_) => 0,
        };
        println!(rt; "{rows} {time}")?;
    }
    Ok(())
}
'''

NODES = '''-- The goals of the bench.
use Rattle.std.specs.Prelude.{◌≡◌, ℕ, IsTrue, nat_eq}
use Rattle.std.proofs.lemmas.Bool.{eqb-true}
use Rattle.bench_machine.specs.declared.Node.{Node}

abbrev pub node : ℕ → Node
node n = record { id = n }

pub node_is : (x y : Node) → IsTrue (nat_eq x.id y.id) → x ≡ y
node_is x y e = λ i. record { id = eqb-true x.id y.id e i }
'''

RINGS = '''-- What the expander of the bench means: a ring of a size.
use Rattle.std.specs.Prelude.{◌≡◌, ◌<◌, ◌+◌, ◌*◌, ◌%◌, ℕ, List, [], ◌∷◌, All, map}
use Rattle.std.proofs.Common.{arith, sym, subst, ◌∙◌}
use Rattle.std.proofs.lemmas.List.Elements.{All-nil, All-cons}
use Rattle.cls_core.specs.Arguments.{arguments_of, HasUniqueAnswers, ArgumentsAreReady}
use Rattle.cls_base.specs.declared.rule.Rule.TheVariants.{Head}
use Rattle.cls_core.specs.declared.answer.Answer.{Answer}
use Rattle.cls_core.specs.declared.answer.Answer.TheVariants.{Rules}
use Rattle.bench_machine.specs.Nodes.{node}
use Rattle.bench_machine.specs.declared.Node.{Node}

abbrev pub next_of : ℕ → ℕ → ℕ → Node
next_of size id step = node ((10 * id + step) % size)

abbrev pub ring_answer : ℕ → Node → Answer Node
ring_answer size g = Rules (Head g.id (map (next_of size g.id) (1 ∷ 2 ∷ 3 ∷ 4 ∷ 5 ∷ 6 ∷ 7 ∷ 8 ∷ 9 ∷ 10 ∷ [])) ∷ [])

abbrev pub IsRingAnswer : ℕ → Node → Answer Node → Type 0
IsRingAnswer size g a = a ≡ ring_answer size g

pub one_ring_answer : (size : ℕ) → HasUniqueAnswers (IsRingAnswer size)
one_ring_answer size g a b first second = first ∙ sym second

abbrev pub IsInRing : ℕ → Node → Type 0
IsInRing size g = (g.id < size) × (size < 100000000)

in_ring : (size : ℕ) (g : Node) → IsInRing size g → (steps : List ℕ) → All (IsInRing size) (map (next_of size g.id) steps)
in_ring size g h [] = All-nil (IsInRing size)
in_ring size g h (step ∷ steps) = All-cons (IsInRing size) (next_of size g.id step) (map (next_of size g.id) steps) (omega arith, h.1) (in_ring size g h steps)

ready : (size : ℕ) (g : Node) → IsInRing size g → All (IsInRing size) (arguments_of (ring_answer size g))
ready size g h = in_ring size g h (1 ∷ 2 ∷ 3 ∷ 4 ∷ 5 ∷ 6 ∷ 7 ∷ 8 ∷ 9 ∷ 10 ∷ [])

pub arguments_in_ring : (size : ℕ) → ArgumentsAreReady (IsInRing size) (IsRingAnswer size)
arguments_in_ring size g a h is =
    subst (λ (x : Answer Node). All (IsInRing size) (arguments_of x)) (sym is) (ready size g h)
'''


def run(program, goals, workers):
    """The number of rows, the milliseconds of the call, and the mebibytes of the program."""
    reply = subprocess.run(["/usr/bin/time", "-f", "%M", program], input="%d %d\n" % (goals, workers), capture_output=True, text=True)
    rows, time = reply.stdout.split()
    assert int(rows) == goals, reply.stdout + reply.stderr
    return int(time) / 1e6, int(reply.stderr.split()[-1]) / 1024


def main():
    parser = argparse.ArgumentParser(description=__doc__, formatter_class=argparse.RawDescriptionHelpFormatter)
    parser.add_argument("--runs", type=int, default=5)
    parser.add_argument("--goals", type=int, default=20_000)
    options = parser.parse_args()
    with tempfile.TemporaryDirectory() as folder:
        specs = {"specs/Lib.antt": "pub mod Nodes\npub mod Rings\n", "specs/Nodes.antt": NODES, "specs/Rings.antt": RINGS}
        program = build(folder, "bench_machine", CRATES, PROGRAM, files=specs)
        for workers in (1, 2, 4):
            results = [run(program, options.goals, workers) for _ in range(options.runs)]
            print("%d goals, workers: %d, %.1f ms at best, %.1f ms at most, %.1f MiB" % (
                options.goals, workers, min(r[0] for r in results), max(r[0] for r in results), max(r[1] for r in results)))


if __name__ == "__main__":
    main()
