#!/usr/bin/env python3
"""Time of `check_order`, `check_shared` and `reorder` on lists of 8,192 to 65,536 nodes of four shapes; outside the gate.

usage: bench/orders.py   (in any folder; it proves and builds a small program over a copy of the crates first, with
the work that was kept of them)

The shapes are a chain of comps, pairs of a chain with its first node, cases with hidden sides of which each is another
one, and equal leaves at many types: each step is a left injection before an identity at a larger type. All are in order
and shared. For each shape and count
the milliseconds of the fastest of fifteen runs are printed, each in a process of its own, so that no run is charged
for, or saved, pages that another one has used: of `check_order` and `check_shared` together, and of `reorder`, which
infers the least typing of what the root reaches. Twice the nodes, from 32,768 to 65,536, may take at most 2.2 times
the time: the exit status is 1 where a shape takes more. On a busy machine the figures say little.
"""
import os
import shutil
import subprocess
import sys
import tempfile

CRATES = os.path.join(os.path.dirname(os.path.abspath(__file__)), "..", "crates")
LINES = {
    "simplicity": "sha2",
    "sharing": "simplicity",
    "jets": "",
    "lists": "",
    "core_data": "simplicity lists",
    "word_math": "jets simplicity core_data",
    "type_table": "simplicity core_data indexmap",
    "term_core": "simplicity jets core_data word_math type_table indexmap",
    "infer_cells": "simplicity jets core_data word_math type_table term_core",
    "share_order": "simplicity sharing jets core_data word_math type_table term_core infer_cells indexmap",
    "order_bench": "simplicity sharing jets core_data word_math type_table term_core infer_cells share_order",
}
SHAPES = ["a chain", "pairs of a chain", "cases with hidden sides", "equal leaves at many types"]
CALLS = ["check_order and check_shared", "reorder"]
COUNTS = [8192, 16384, 32768, 65536]
RUNS = 15
MAIN = r"""//! How long it takes to tell the order and the sharing of a long list, and to reorder it.
#![tactic(auto)]

mod texts;
mod shapes;

use infer_cells::infer;
use share_order::{check_order, check_shared, reorder};
use std::env;
use std::io;
use std::time::Instant;
use type_table::TypeTable;

/// Two words: which shape, and of how many nodes.
fn main(rt: HostRuntime) -> io::Result<()> {
    let mut words = env::args(&rt)?.skip(1);
    let Some(Ok(shape)) = words.next().map(|word| word.parse::<u8>()) else {
        return Ok(());
    };
    let Some(Ok(count)) = words.next().map(|word| word.parse::<usize>()) else {
        return Ok(());
    };
    let Ok(nodes) = shapes::list(rt.alloc(), shape, count) else {
        return Ok(());
    };
    if !texts::has_root(&nodes) {
        return Ok(());
    }
    let mut types = TypeTable::new(rt.alloc());
    let Ok(unit) = types.unit() else {
        return Ok(());
    };
    let Ok(typing) = infer(rt.alloc(), &nodes, unit, unit, &mut types) else {
        return Ok(());
    };
    let begun = Instant::now(&rt)?;
    let ordered = check_order(rt.alloc(), &nodes).is_ok();
    let shared = check_shared(rt.alloc(), &nodes, &typing, &types).is_ok();
    let told = begun.elapsed(&rt)?.as_micros();
    let begun = Instant::now(&rt)?;
    let answered = match reorder(rt.alloc(), &nodes, unit, unit, &mut types) {
        Ok(reordered) => reordered.nodes.len(),
        Err(_) => 0,
    };
    let reordered = begun.elapsed(&rt)?.as_micros();
    println!(rt; "{ordered} {shared} {answered} {told} {reordered}")?;
    Ok(())
}
"""
SHAPED = r"""//! Long lists.

use crate::texts::may_follow;
use std::alloc::{AllocError, Global};
use term_core::{ListNode, NodeList};

pub fn list(alloc: Global, shape: u8, count: usize) -> Result<NodeList, AllocError> {
    match shape {
        0 => Ok(chain(alloc, count)?),
        1 => Ok(pairs(alloc, count)?),
        2 => Ok(cases(alloc, count / 2)?),
        _ => Ok(leaves(alloc, count / 3)?),
    }
}

fn add(list: &mut NodeList, node: ListNode) -> Result<(), AllocError> {
    if may_follow(list, &node) {
        list.push(node)?;
    }
    Ok(())
}

fn chain(alloc: Global, count: usize) -> Result<NodeList, AllocError> {
    let mut list = NodeList::new(alloc);
    list.push(ListNode::Iden)?;
    for at in 0..count {
        add(&mut list, ListNode::Comp(at, 0))?;
    }
    Ok(list)
}

fn pairs(alloc: Global, count: usize) -> Result<NodeList, AllocError> {
    let mut list = NodeList::new(alloc);
    list.push(ListNode::Iden)?;
    for at in 0..count {
        add(&mut list, ListNode::Pair(at, 0))?;
    }
    let unit = list.len();
    list.push(ListNode::Unit)?;
    add(&mut list, ListNode::Comp(count, unit))?;
    Ok(list)
}

fn root(step: usize) -> [u8; 32] {
    let mut root = [0; 32];
    let [first, second, third, fourth, ..] = (step as u64).to_le_bytes();
    root[0] = first;
    root[1] = second;
    root[2] = third;
    root[3] = fourth;
    root
}

fn cases(alloc: Global, steps: usize) -> Result<NodeList, AllocError> {
    let mut list = NodeList::new(alloc);
    list.push(ListNode::Witness)?;
    list.push(ListNode::Unit)?;
    let mut last = 1;
    for step in 0..steps {
        let side = list.len();
        list.push(ListNode::Hidden(root(step)))?;
        let case = list.len();
        add(&mut list, ListNode::Case(last, side))?;
        last = case;
    }
    add(&mut list, ListNode::Comp(0, last))?;
    Ok(list)
}

fn leaves(alloc: Global, steps: usize) -> Result<NodeList, AllocError> {
    let mut list = NodeList::new(alloc);
    list.push(ListNode::Iden)?;
    let mut last = 0;
    for _step in 0..steps {
        let left = list.len();
        add(&mut list, ListNode::Injl(last))?;
        let leaf = list.len();
        list.push(ListNode::Iden)?;
        last = list.len();
        add(&mut list, ListNode::Comp(left, leaf))?;
    }
    let unit = list.len();
    list.push(ListNode::Unit)?;
    add(&mut list, ListNode::Comp(last, unit))?;
    Ok(list)
}
"""

ANSWERS = r"""-- Answers to the goals of `main`.
use Rattle.order_bench.proofs.Ordered.{as_long}
use Rattle.order_bench.proofs.main.Goals as goal

pub check_shared-requires-clause-count : goal.check_shared-requires-clause-count
check_shared-requires-clause-count c = as_long _ _ _ _ c.in-Ok-infer.ensures.least
"""


def write(path, text):
    os.makedirs(os.path.dirname(path), exist_ok=True)
    with open(path, "w", encoding="utf-8") as file:
        file.write(text)


def make(folder):
    for name in LINES:
        if name != "order_bench":
            shutil.copytree(os.path.join(CRATES, name), os.path.join(folder, "crates", name))
    bench = os.path.join(folder, "crates", "order_bench")
    write(os.path.join(folder, "crates.txt"), "".join("%s: %s\n" % line for line in LINES.items()))
    write(os.path.join(bench, "src", "main.rt"), MAIN)
    write(os.path.join(bench, "src", "shapes.rt"), SHAPED)
    write(os.path.join(bench, "specs", "Lib.antt"), "")
    write(os.path.join(bench, "proofs", "Lib.antt"), "mod Ordered\n")
    write(os.path.join(bench, "proofs", "main", "Answers.antt"), ANSWERS)
    rows = os.path.join(CRATES, "order_rows")
    shutil.copy(os.path.join(rows, "src", "texts.rt"), os.path.join(bench, "src", "texts.rt"))
    shutil.copy(os.path.join(rows, "proofs", "Ordered.antt"), os.path.join(bench, "proofs", "Ordered.antt"))
    return bench


def main():
    times = {}
    with tempfile.TemporaryDirectory() as folder:
        bench = make(folder)
        built = subprocess.run(["rt", "run"], cwd=bench, capture_output=True, text=True)
        program = os.path.join(bench, "out", "order_bench")
        if not os.path.exists(program):
            sys.exit(built.stdout[-2000:] + built.stderr[-2000:])
        for _run in range(RUNS):
            for shape in range(len(SHAPES)):
                for count in COUNTS:
                    run = subprocess.run([program, str(shape), str(count)], capture_output=True, text=True)
                    ordered, shared, answered, told, reordered = run.stdout.split()
                    if (ordered, shared) != ("true", "true") or int(answered) < count - 4:
                        sys.exit("another answer at %d of %s" % (count, SHAPES[shape]))
                    for call, time in enumerate([told, reordered]):
                        key = call, shape, count
                        times[key] = min(times.get(key, 1e9), int(time) / 1000)
    late = False
    for call, said in enumerate(CALLS):
        print(said + ":")
        for shape, name in enumerate(SHAPES):
            row = [times[call, shape, count] for count in COUNTS]
            slow = row[3] > 2.2 * row[2]
            late = late or slow
            figures = ", ".join("%.1f" % time for time in row)
            print("  %s: %s ms%s" % (name, figures, ", more than 2.2 times" if slow else ""))
    sys.exit(1 if late else 0)


main()
