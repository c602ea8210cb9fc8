#!/usr/bin/env python3
"""Time of `evaluate` on loops and calls, by their turns; outside the gate.

usage: bench/evaluations.py   (in any folder; it proves and builds a small program over a copy of the crates first, with
the work that was kept of them)

The sources are a `for_while` with a u16 counter that goes up to a limit, an `array_fold`, and a chain of functions of
which each calls the one before it twice. A row has the milliseconds of `evaluate` for each number of turns, items or
calls, of which each is twice the one before; the least of forty runs counts. Eight times the turns may take at most
twelve times the time: the exit status is 1 where a row takes more.
"""
import os
import subprocess
import sys
import tempfile

ROOT = os.path.join(os.path.dirname(os.path.abspath(__file__)), "..")
BENCH = "evaluation_bench: lists hl_syntax hl_data hl_meaning hl_rules hl_typed hl_lex hl_parse hl_values hl_check hl_eval word_math"
RUNS = 40
SHAPES = ["turns of for_while", "items of array_fold", "calls of the first function"]
COUNTS = [[2**k for k in powers] for powers in ([13, 14, 15, 16], [13, 14, 15, 16], [17, 18, 19, 20])]
ANSWERS = [lambda count: "Left(%d)" % (count - 1), str, lambda count: "7"]
MAIN = r"""//! How long loops and calls take in the evaluator.
#![tactic(auto)]

mod cases;

use cases::{Case, chain, loop_to, over_items};
use hl_data::Entries;
use hl_eval::evaluate;
use hl_values::print_value;
use std::alloc::Global;
use std::io;
use std::time::Instant;

/// A case of a shape at a power of two.
fn case(alloc: Global, shape: u8, power: u32) -> Option<Case> {
    match shape {
        0 => loop_to(alloc, power),
        1 => over_items(alloc, power),
        _ => chain(alloc, power),
    }
}

fn main(rt: HostRuntime) -> io::Result<()> {
    for (shape, least) in [(0u8, 13u32), (1, 13), (2, 17)] {
        for more in 0..4u32 {
            let Some(case) = case(rt.alloc(), shape, least + more) else {
                return Ok(());
            };
            let none = Entries::new(rt.alloc());
            let begun = Instant::now(&rt)?;
            let answer = evaluate(
                rt.alloc(),
                case.program.functions().as_slice(),
                "f",
                &case.argument,
                &none,
            );
            let time = begun.elapsed(&rt)?.as_micros();
            let Ok(value) = answer else {
                return Ok(());
            };
            let Ok(shown) = print_value(rt.alloc(), &value) else {
                return Ok(());
            };
            println!(rt; "{shape} {} {shown} {time}", least + more)?;
        }
    }
    Ok(())
}
"""
CASES = r"""//! Sources, and arguments of their function `f`.

use hl_check::{TypedProgram, check};
use hl_data::{Entries, HlValue, HlValues};
use hl_lex::tokens;
use hl_parse::parse;
use std::alloc::Global;
use word_math::Word;

/// A typed program, and an argument of its function `f`.
#[derive(Drop)]
pub struct Case {
    pub program: TypedProgram,
    pub argument: HlValue,
}

/// A counter that stops at a limit.
const LOOP: &str = "fn stop(acc: u16, limit: u16, i: u16) -> Either<u16, u16> { match jet::eq_16(i, limit) { true => Left(i), false => Right(i), } } fn f(limit: u16) -> Either<u16, u16> { for_while::<stop>(0, limit) }";

/// The typed tree of a source that breaks no rule.
fn typed(alloc: Global, text: &str) -> Option<TypedProgram> {
    let end = text.len() as u64;
    let Ok(found) = tokens(alloc, text) else {
        return None;
    };
    let Ok(program) = parse(alloc, found.as_slice(), end) else {
        return None;
    };
    let none = Entries::new(alloc);
    let Ok(program) = check(alloc, &program, "f", &none, 1, end) else {
        return None;
    };
    Some(program)
}

/// The word of a number at a width.
fn number(width: u16, number: u128) -> Option<HlValue> {
    match Word::new(width, 0, number) {
        Some(word) => Some(HlValue::Number(word)),
        None => None,
    }
}

/// 2^power turns of a loop.
pub fn loop_to(alloc: Global, power: u32) -> Option<Case> {
    let turns = 1u128.checked_shl(power)?;
    let limit = turns.checked_sub(1)?;
    Some(Case {
        program: typed(alloc, LOOP)?,
        argument: number(16, limit)?,
    })
}

/// A source that counts 2^power items.
fn counting(alloc: Global, power: u32) -> Option<String> {
    let items = 1u32.checked_shl(power)?;
    let mut text = String::new(alloc);
    let step = "fn step(x: u8, acc: u32) -> u32 { let (_, next): (bool, u32) = jet::increment_32(acc); next }";
    let Ok(()) = write!(text, "{step} fn f(l: [u8; {items}]) -> u32 {{ array_fold::<step, {items}>(l, 0) }}") else {
        return None;
    };
    Some(text)
}

/// A fold over 2^power items.
pub fn over_items(alloc: Global, power: u32) -> Option<Case> {
    let count = 1u32.checked_shl(power)?;
    let text = counting(alloc, power)?;
    let mut items = HlValues::new(alloc);
    for place in 0..count {
        let item = number(8, u128::from(place % 256))?;
        let Ok(()) = items.push(item) else {
            return None;
        };
    }
    Some(Case {
        program: typed(alloc, text.as_str())?,
        argument: HlValue::Array(items),
    })
}

/// A source of functions of which each calls the one before it twice; the last one is `f`.
fn doubling(alloc: Global, power: u32) -> Option<String> {
    let mut text = String::new(alloc);
    let Ok(()) = text.push_str("fn f0(x: u64) -> u64 { x } ") else {
        return None;
    };
    for k in 1..power {
        let before = k - 1;
        let Ok(()) = write!(text, "fn f{k}(x: u64) -> u64 {{ f{before}(f{before}(x)) }} ") else {
            return None;
        };
    }
    let last = power.checked_sub(1)?;
    let Ok(()) = write!(text, "fn f(x: u64) -> u64 {{ f{last}(f{last}(x)) }}") else {
        return None;
    };
    Some(text)
}

/// 2^power calls of the first function of a chain.
pub fn chain(alloc: Global, power: u32) -> Option<Case> {
    let text = doubling(alloc, power)?;
    Some(Case {
        program: typed(alloc, text.as_str())?,
        argument: number(64, 7)?,
    })
}
"""


def write(path, text):
    os.makedirs(os.path.dirname(path), exist_ok=True)
    with open(path, "w", encoding="utf-8") as file:
        file.write(text)


def crates_below():
    """The lines of the crates that the program stands on, by name."""
    lines = {}
    with open(os.path.join(ROOT, "crates.txt"), encoding="utf-8") as file:
        for line in file:
            if not line.startswith("#") and ":" in line:
                lines[line.split(":")[0].strip()] = line
    reached, ahead = {}, BENCH.split(":")[1].split()
    while ahead:
        name = ahead.pop()
        if name in lines and name not in reached:
            reached[name] = lines[name]
            ahead += lines[name].split(":")[1].split()
    return reached


def make(folder):
    below = crates_below()
    os.makedirs(os.path.join(folder, "crates"))
    for name in below:
        subprocess.run(["cp", "-a", os.path.join(ROOT, "crates", name), os.path.join(folder, "crates", name)], check=True)
    write(os.path.join(folder, "crates.txt"), "".join(below.values()) + BENCH + "\n")
    bench = os.path.join(folder, "crates", "evaluation_bench")
    write(os.path.join(bench, "src", "main.rt"), MAIN)
    write(os.path.join(bench, "src", "cases.rt"), CASES)
    write(os.path.join(bench, "specs", "Lib.antt"), "")
    write(os.path.join(bench, "proofs", "Lib.antt"), "")
    return bench


def times_of(text):
    """Milliseconds by shape and count, of the lines whose answer is right."""
    times = {}
    for line in text.splitlines():
        words = line.split()
        if len(words) == 4 and words[0].isdigit() and words[3].isdigit():
            shape, count = int(words[0]), 2 ** int(words[1])
            if words[2] == ANSWERS[shape](count):
                times[shape, count] = int(words[3]) / 1000
    return times


def least_times(bench):
    answer = subprocess.run(["rt", "run"], cwd=bench, capture_output=True, text=True)
    if len(times_of(answer.stdout)) != sum(map(len, COUNTS)):
        sys.exit(answer.stdout[-2000:] + answer.stderr[-2000:])
    program = os.path.join(bench, "out", "evaluation_bench")
    runs = [times_of(subprocess.run([program], capture_output=True, text=True).stdout) for _ in range(RUNS)]
    return {key: min(times[key] for times in runs) for key in runs[0]}


def main():
    with tempfile.TemporaryDirectory() as folder:
        times = least_times(make(folder))
    late = False
    for shape, name in enumerate(SHAPES):
        row = [times[shape, count] for count in COUNTS[shape]]
        slow = row[3] > 12 * row[0]
        late = late or slow
        shown = ", ".join("%.1f" % time for time in row)
        print("%s, %d to %d: %s ms%s" % (name, COUNTS[shape][0], COUNTS[shape][-1], shown, ", more than twelve times" if slow else ""))
    sys.exit(1 if late else 0)


main()
