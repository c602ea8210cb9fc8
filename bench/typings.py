#!/usr/bin/env python3
"""Time of `infer` on lists of 8,192 to 65,536 nodes of four shapes; outside the gate.

usage: bench/typings.py   (in any folder; it proves and builds a small program over a copy of the crates first, with
the work that was kept of them)

The shapes are a chain of comps, of takes, of pairs and of cases. For each shape and count the milliseconds of the
fastest of fifteen runs are printed, each in a process of its own, so that no run is charged for, or saved, pages that
another one has used. Twice the nodes, from 32,768 to 65,536, may take at most 2.5 times the time: the exit status is 1
where a shape takes more. On a busy machine the figures say little.
"""
import os
import shutil
import subprocess
import sys
import tempfile

CRATES = os.path.join(os.path.dirname(os.path.abspath(__file__)), "..", "crates")
LINES = {
    "simplicity": "sha2",
    "jets": "",
    "lists": "",
    "core_data": "simplicity lists",
    "word_math": "jets simplicity core_data",
    "type_table": "simplicity core_data indexmap",
    "term_core": "simplicity jets core_data word_math type_table",
    "infer_cells": "simplicity jets core_data word_math type_table term_core",
    "typing_bench": "simplicity jets core_data word_math type_table term_core infer_cells",
}
SHAPES = ["comps", "takes", "pairs", "cases"]
COUNTS = [8192, 16384, 32768, 65536]
RUNS = 15
MAIN = r"""//! How long the least typing of a long list takes.
#![tactic(auto)]

mod lists;

use infer_cells::infer;
use std::env;
use std::io;
use std::time::Instant;
use term_core::NodeList;
use type_table::TypeTable;

/// Two words: which shape, and of how many nodes.
fn main(rt: HostRuntime) -> io::Result<()> {
    let mut words = env::args(&rt)?.skip(1);
    let Some(Ok(shape)) = words.next().map(|word| word.parse::<u8>()) else {
        return Ok(());
    };
    let Some(Ok(count)) = words.next().map(|word| word.parse::<usize>()) else {
        return Ok(());
    };
    let Ok(nodes) = lists::list(rt.alloc(), shape, count) else {
        return Ok(());
    };
    let mut types = TypeTable::new(rt.alloc());
    let Ok(unit) = types.unit() else {
        return Ok(());
    };
    let begun = Instant::now(&rt)?;
    let answered = match infer(rt.alloc(), &nodes, unit, unit, &mut types) {
        Ok(typing) => typing.len(),
        Err(_) => 0,
    };
    let time = begun.elapsed(&rt)?.as_micros();
    println!(rt; "{answered} {time}")?;
    Ok(())
}
"""
LISTS = r"""//! Long lists.

ghost use Rattle.std.specs.Prelude.{◌≤◌, IfOk};
ghost use Rattle.simplicity.specs.Nodes.{HasRoot};

use std::alloc::{AllocError, Global};
use term_core::{ListNode, NodeList};

pub fn list(alloc: Global, shape: u8, count: usize) -> Result<NodeList, AllocError>
    ensures { IfOk result (λ nodes. HasRoot nodes) }
{
    match shape {
        0 => Ok(comps(alloc, count)?),
        1 => Ok(takes(alloc, count)?),
        2 => Ok(pairs(alloc, count)?),
        _ => Ok(cases(alloc, count)?),
    }
}

fn comps(alloc: Global, count: usize) -> Result<NodeList, AllocError>
    ensures { IfOk result (λ nodes. HasRoot nodes) }
{
    let mut nodes = NodeList::new(alloc);
    nodes.push(ListNode::Iden)?;
    for at in 0..count {
        nodes.push(ListNode::Comp(at, 0))?;
    }
    Ok(nodes)
}

fn takes(alloc: Global, count: usize) -> Result<NodeList, AllocError>
    ensures { IfOk result (λ nodes. HasRoot nodes) }
{
    let mut nodes = NodeList::new(alloc);
    nodes.push(ListNode::Iden)?;
    for at in 0..count {
        nodes.push(ListNode::Take(at))?;
    }
    let witness = nodes.len();
    nodes.push(ListNode::Witness)?;
    nodes.push(ListNode::Comp(witness, count))?;
    Ok(nodes)
}

fn pairs(alloc: Global, count: usize) -> Result<NodeList, AllocError>
    ensures { IfOk result (λ nodes. HasRoot nodes) }
{
    let mut nodes = NodeList::new(alloc);
    nodes.push(ListNode::Iden)?;
    for at in 0..count {
        nodes.push(ListNode::Pair(at, 0))?;
    }
    let unit = nodes.len();
    nodes.push(ListNode::Unit)?;
    nodes.push(ListNode::Comp(count, unit))?;
    Ok(nodes)
}

fn cases(alloc: Global, count: usize) -> Result<NodeList, AllocError>
    ensures { IfOk result (λ nodes. HasRoot nodes) }
{
    let mut nodes = NodeList::new(alloc);
    nodes.push(ListNode::Unit)?;
    for at in 0..count {
        nodes.push(ListNode::Case(at, 0))?;
    }
    let witness = nodes.len();
    nodes.push(ListNode::Witness)?;
    nodes.push(ListNode::Comp(witness, count))?;
    Ok(nodes)
}
"""
SHOWN = r"""-- Lists without hidden nodes, which the tests make.
use Rattle.std.specs.Prelude.{◌≡◌, ℕ, ◌<◌, List, length, slice_get}
use Rattle.simplicity.specs.Nodes.{Node, IsShown}

pub record AllShown (ns : List Node) (count : ℕ) : Type 0 where
  pub count_is : length ns ≡ count
  pub shown : (i : ℕ) → i < count → IsShown (slice_get ns i)
"""
INVARIANT = r"""use Rattle.std.proofs.Common.{◌+◌}
use Rattle.typing_bench.proofs.ShownLists.{AllShown}
use Rattle.typing_bench.proofs.lists.%s.Given as goal

abbrev pub invariant-loop-at : goal.invariant-loop-at
invariant-loop-at l = AllShown l.nodes (l.at + 1)
"""


def write(path, text):
    os.makedirs(os.path.dirname(path), exist_ok=True)
    with open(path, "w", encoding="utf-8") as file:
        file.write(text)


def make(folder):
    for name in LINES:
        if name != "typing_bench":
            shutil.copytree(os.path.join(CRATES, name), os.path.join(folder, "crates", name))
    bench = os.path.join(folder, "crates", "typing_bench")
    write(os.path.join(folder, "crates.txt"), "".join("%s: %s\n" % line for line in LINES.items()))
    write(os.path.join(bench, "src", "main.rt"), MAIN)
    write(os.path.join(bench, "src", "lists.rt"), LISTS)
    write(os.path.join(bench, "specs", "Lib.antt"), "")
    write(os.path.join(bench, "proofs", "Lib.antt"), "mod ShownLists\n")
    write(os.path.join(bench, "proofs", "ShownLists.antt"), SHOWN)
    for shape in SHAPES:
        write(os.path.join(bench, "proofs", "lists", shape, "Invariants.antt"), INVARIANT % shape)
    return bench


def main():
    times = {}
    with tempfile.TemporaryDirectory() as folder:
        bench = make(folder)
        built = subprocess.run(["rt", "run"], cwd=bench, capture_output=True, text=True)
        program = os.path.join(bench, "out", "typing_bench")
        if not os.path.exists(program):
            sys.exit(built.stdout[-2000:] + built.stderr[-2000:])
        for _run in range(RUNS):
            for shape in range(len(SHAPES)):
                for count in COUNTS:
                    run = subprocess.run([program, str(shape), str(count)], capture_output=True, text=True)
                    answered, time = run.stdout.split()
                    if int(answered) < count:
                        sys.exit("no typing of %d %s" % (count, SHAPES[shape]))
                    times[shape, count] = min(times.get((shape, count), 1e9), int(time) / 1000)
    late = False
    for shape, name in enumerate(SHAPES):
        row = [times[shape, count] for count in COUNTS]
        slow = row[3] > 2.5 * row[2]
        late = late or slow
        print("%s: %s ms%s" % (name, ", ".join("%.1f" % time for time in row), ", more than 2.5 times" if slow else ""))
    sys.exit(1 if late else 0)


main()
