#!/usr/bin/env python3
"""What each string of at most two bytes is read as, as a program's bits: written from the text of the format, apart from
the program's code. It prints crates/core_rows/src/short_programs.rt, with the answers as one table.

usage: audit/bit_codec/answers.py > crates/core_rows/src/short_programs.rt
"""
import itertools

MOST = 1048576


class Stop(Exception):
    """The first refusal."""


class Bits:
    def __init__(self, data):
        self.bits = [(byte >> (7 - place)) & 1 for byte in data for place in range(8)]
        self.at = 0

    def bit(self):
        if self.at == len(self.bits):
            raise Stop("EndOfBits", len(self.bits))
        self.at += 1
        return self.bits[self.at - 1]

    def number(self, width):
        value = 0
        for _ in range(width):
            value = 2 * value + self.bit()
        return value

    def natural(self, start=None):
        start = self.at if start is None else start
        if self.bit() == 0:
            return 1
        width = self.natural(start)
        if width >= 32:
            raise Stop("NaturalTooLarge", start)
        return 2**width + self.number(width)


def node(bits, index):
    at = bits.at

    def child():
        distance = bits.natural()
        if distance > index:
            raise Stop("BadDistance", index)
        return index - distance

    if bits.bit():
        if bits.bit():
            raise Stop("JetCode", at)
        level = bits.natural() - 1
        if level > 8:
            raise Stop("WordTooWide", index)
        return ("word", [], bits.number(2**level))
    if bits.bit():
        if bits.bit():
            return ("witness", []) if bits.bit() else ("hidden", [], bits.number(256))
        code = bits.number(2)
        if code == 2:
            return ("fail", [], bits.number(512))
        if code == 3:
            raise Stop("Reserved", at)
        return (["iden", "unit"][code], [])
    if bits.bit():
        return (["injl", "injr", "take", "drop"][bits.number(2)], [child()])
    code = bits.number(2)
    if code == 3:
        raise Stop("Disconnect", at)
    return (["comp", "case", "pair"][code], [child(), child()])


def read(data):
    bits = Bits(data)
    try:
        count = bits.natural()
        if count > MOST:
            raise Stop("TooManyNodes", 0)
        nodes = []
        for index in range(count):
            new = node(bits, index)
            hidden = [nodes[child][0] == "hidden" for child in new[1]]
            if new[0] != "case" and any(hidden):
                raise Stop("HiddenPlace", index)
            if new[0] == "case" and all(hidden):
                raise Stop("BothHidden", index)
            nodes.append(new)
        if nodes[-1][0] == "hidden":
            raise Stop("HiddenRoot", 0)
        rest = bits.bits[bits.at :]
        if 1 in rest:
            raise Stop("BadPadding", bits.at + rest.index(1))
        if len(rest) >= 8:
            raise Stop("BadPadding", (bits.at + 7) // 8 * 8)
        return ("Ok", len(nodes))
    except Stop as stop:
        return stop.args


LETTERS = {
    "Ok": "O", "EndOfBits": "E", "NaturalTooLarge": "N", "TooManyNodes": "M", "JetCode": "J", "Disconnect": "D",
    "Reserved": "R", "BadDistance": "B", "WordTooWide": "W", "HiddenPlace": "H", "BothHidden": "C", "HiddenRoot": "T",
    "BadPadding": "P",
}


def table(length):
    """Runs of strings of so many bytes, in their order, that have one answer: its letter, its place, and how often."""
    answers = [read(value.to_bytes(length, "big")) for value in range(256**length)]
    text = ""
    for (name, place), run in itertools.groupby(answers):
        count = len(list(run))
        text += LETTERS[name] + chr(ord("a") + place)
        text += "".join(chr(ord("0") + count // 64**power % 64) for power in (2, 1, 0))
    return text


HEAD = """//! What each string of at most two bytes is read as. The table is made by audit/bit_codec/answers.py, which reads the
//! format apart from the program's code.

ghost use Rattle.std.specs.Prelude.{◌<◌};

use bit_codec::{CodecRefusal, read_program, write_program};
use std::alloc::Global;
use std::test::Fail;
"""
TAIL = """
/// The letter of an answer, and its bit, node or number of nodes, from `a` on. What was read is written again.
fn letters(alloc: Global, bytes: &[u8]) -> Result<[u8; 2], Fail> {
    let (letter, place) = match read_program(alloc, bytes) {
        Ok(nodes) => {
            let again = write_program(alloc, &nodes)?;
            let letter = if again.as_slice() == bytes {
                b'O'
            } else {
                b'?'
            };
            (letter, nodes.len() as u128)
        }
        Err(CodecRefusal::EndOfBits { at }) => (b'E', at),
        Err(CodecRefusal::NaturalTooLarge { at }) => (b'N', at),
        Err(CodecRefusal::TooManyNodes) => (b'M', 0),
        Err(CodecRefusal::JetCode { at }) => (b'J', at),
        Err(CodecRefusal::Disconnect { at }) => (b'D', at),
        Err(CodecRefusal::Reserved { at }) => (b'R', at),
        Err(CodecRefusal::BadDistance { node }) => (b'B', node as u128),
        Err(CodecRefusal::WordTooWide { node }) => (b'W', node as u128),
        Err(CodecRefusal::HiddenPlace { node }) => (b'H', node as u128),
        Err(CodecRefusal::BothHidden { node }) => (b'C', node as u128),
        Err(CodecRefusal::HiddenRoot) => (b'T', 0),
        Err(CodecRefusal::BadPadding { at }) => (b'P', at),
        Err(CodecRefusal::OutOfMemory) => return Err("no memory".into()),
    };
    Ok([letter, b'a'.wrapping_add((place % 128) as u8)])
}

/// A digit of 64, from `0` on.
fn digit(byte: u8) -> u32
    ensures { result < 64 }
{
    u32::from(byte.wrapping_sub(b'0')) % 64
}

#[test]
fn reads_short_programs(rt: HostRuntime) -> Result<(), Fail> {
    for (length, runs) in [(0, NONE), (1, ONE), (2, TWO)] {
        let mut value = 0u16;
        for run in runs.as_bytes().chunks(5) {
            let [letter, place, high, middle, low] = run else {
                return Err("a run is cut off".into());
            };
            let count = digit(*high) * 4096 + digit(*middle) * 64 + digit(*low);
            for _ in 0..count {
                let both = value.to_be_bytes();
                let (_, bytes) = both.as_slice().split_at(2 - length);
                let found = letters(rt.alloc(), bytes)?;
                assert_eq!(rt; found, [*letter, *place], "at {value} of {length}");
                value = value.wrapping_add(1);
            }
        }
        let whole = match length {
            0 => 1,
            1 => 256,
            _ => 0,
        };
        assert_eq!(rt; value, whole);
    }
    Ok(())
}
"""


def main():
    print(HEAD)
    for name, length in (("NONE", 0), ("ONE", 1), ("TWO", 2)):
        text = table(length)
        lines = [text[at : at + 100] for at in range(0, len(text), 100)]
        if len(lines) == 1:
            print(f'const {name}: &str = "{lines[0]}";')
            continue
        print(f"\nconst {name}: &str = concat!(")
        for line in lines:
            print(f'    "{line}",')
        print(");")
    print(TAIL.rstrip())


if __name__ == "__main__":
    main()
