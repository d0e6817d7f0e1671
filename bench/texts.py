#!/usr/bin/env python3
"""Measures what keystrokes in a text of 4 MB cost, in a gap buffer and in a `Vec`.

    python3 bench/texts.py [--rounds N]

It copies the repository, adds a program to the copy, proves that and what it stands on, and runs it as compiled. It prints, of so many
rounds the middle one each:

- read_vec, read_gap: the text is read byte by byte from a `Vec` and from a gap buffer; one_piece, halves: as a slice, and by its halves;
- compared: the text in a gap buffer is compared with a copy;
- near_gap, near_vec: 10,000 bytes are put in, each behind the one before; apart_gap, apart_vec: at as many places in no order. The
  gap buffer is made with room for 16 KiB more than the text, as the server makes it;
- apart_doubled: the same in a gap buffer that had just room for the text, and so doubles at the first of them.

Wanted is that 10,000 keystrokes near one place take no longer than reading the text three times, those in no order no longer than in a
`Vec`, and reading by halves at most 1.1 times as long as reading in one piece; else the status is 1. docs/PERFORMANCE.md has what was
seen."""
import argparse
import os
import shutil
import statistics
import subprocess
import sys
import tempfile

ROOT = os.path.dirname(os.path.dirname(os.path.abspath(__file__)))
NAME = "gq_text_bench"
PROGRAM = """//! Times edits and readings of a text of 4 MB.
#![tactic(auto)]

use gq_gap::GapBuffer;
use gq_text::{Buffer, Bytes, NoMemory, VecBuffer};
use std::alloc::Global;
use std::io;
use std::rt::Clock;
use std::time::Instant;

const LEN: usize = 4_000_000;

/// The text, in a buffer of that kind.
fn filled<B: Buffer>(alloc: Global) -> Result<B, NoMemory> {
    let mut buffer = B::empty(alloc);
    let bytes = Vec::from_elem(alloc, b'a', LEN)?;
    if buffer.len() == 0 {
        buffer.insert(0, &bytes)?;
    }
    Ok(buffer)
}

/// Puts a byte in at each of the places.
fn type_at<B: Buffer>(buffer: &mut B, places: &[usize]) -> Result<(), NoMemory> {
    for place in places {
        if *place <= buffer.len() && buffer.len() < 536_870_912 {
            buffer.insert(*place, b"x")?;
        }
    }
    Ok(())
}

/// All bytes, one after the other.
fn read_each<B: Buffer>(buffer: &B) -> u64 {
    let mut sum = 0u64;
    for index in 0..buffer.len() {
        sum = sum.wrapping_mul(31).wrapping_add(buffer.byte(index) as u64);
    }
    sum
}

/// All bytes of a slice.
fn read(bytes: &[u8], before: u64) -> u64 {
    let mut sum = before;
    for byte in bytes {
        sum = sum.wrapping_mul(31).wrapping_add(*byte as u64);
    }
    sum
}

/// Ten thousand places, each behind the one before.
fn near(alloc: Global) -> Result<Vec<usize>, NoMemory> {
    let mut places = Vec::new(alloc);
    for number in 0..10_000usize {
        places.push(2_000_000 + number)?;
    }
    Ok(places)
}

/// Ten thousand places in no order.
fn apart(alloc: Global) -> Result<Vec<usize>, NoMemory> {
    let mut places = Vec::new(alloc);
    let mut seed = 1u64;
    for _ in 0..10_000usize {
        seed = seed.wrapping_mul(6_364_136_223_846_793_005).wrapping_add(1_442_695_040_888_963_407);
        places.push(((seed >> 33) % 4_000_000) as usize)?;
    }
    Ok(places)
}

/// The text in a gap buffer with room for 16 KiB more.
fn filled_with_room(alloc: Global) -> Result<GapBuffer, NoMemory> {
    let mut buffer = GapBuffer::with_capacity(alloc, LEN + 16_384)?;
    let bytes = Vec::from_elem(alloc, b'a', LEN)?;
    if buffer.len() == 0 {
        buffer.insert(0, &bytes)?;
    }
    Ok(buffer)
}

fn time_with_room<R: Print + Clock + AllocGlobal>(rt: &R, name: &str, places: &[usize]) -> io::Result<()> {
    let Ok(mut buffer) = filled_with_room(rt.alloc()) else {
        return Ok(());
    };
    let start = Instant::now(rt)?;
    let done = type_at(&mut buffer, places).is_ok();
    let took = start.elapsed(rt)?.as_micros();
    println!(rt; "{name} {took} {done}")
}

fn time_typing<B: Buffer, R: Print + Clock + AllocGlobal>(rt: &R, name: &str, places: &[usize]) -> io::Result<()> {
    let Ok(mut buffer) = filled::<B>(rt.alloc()) else {
        return Ok(());
    };
    let start = Instant::now(rt)?;
    let done = type_at(&mut buffer, places).is_ok();
    let took = start.elapsed(rt)?.as_micros();
    println!(rt; "{name} {took} {done}")
}

fn time_reading<B: Buffer, R: Print + Clock + AllocGlobal>(rt: &R, name: &str) -> io::Result<()> {
    let Ok(buffer) = filled::<B>(rt.alloc()) else {
        return Ok(());
    };
    let start = Instant::now(rt)?;
    let sum = read_each(&buffer);
    let took = start.elapsed(rt)?.as_micros();
    println!(rt; "{name} {took} {sum}")
}

fn time_slice<R: Print + Clock + AllocGlobal>(rt: &R) -> io::Result<()> {
    let Ok(bytes) = Vec::from_elem(rt.alloc(), b'a', LEN) else {
        return Ok(());
    };
    let start = Instant::now(rt)?;
    let sum = read(&bytes, 0);
    let took = start.elapsed(rt)?.as_micros();
    println!(rt; "one_piece {took} {sum}")
}

fn time_halves<R: Print + Clock + AllocGlobal>(rt: &R) -> io::Result<()> {
    let Ok(mut buffer) = filled::<GapBuffer>(rt.alloc()) else {
        return Ok(());
    };
    let _ = type_at(&mut buffer, &[2_000_000]);
    let start = Instant::now(rt)?;
    let (front, back) = buffer.halves();
    let sum = read(back, read(front, 0));
    let took = start.elapsed(rt)?.as_micros();
    println!(rt; "halves {took} {sum}")
}

fn time_comparing<R: Print + Clock + AllocGlobal>(rt: &R) -> io::Result<()> {
    let Ok(bytes) = Vec::from_elem(rt.alloc(), b'a', LEN) else {
        return Ok(());
    };
    let Ok(buffer) = filled::<GapBuffer>(rt.alloc()) else {
        return Ok(());
    };
    let start = Instant::now(rt)?;
    let same = buffer.has_bytes(&bytes);
    let took = start.elapsed(rt)?.as_micros();
    println!(rt; "compared {took} {same}")
}

fn measure<R: Print + Clock + AllocGlobal>(rt: &R, near: &[usize], apart: &[usize]) -> io::Result<()> {
    time_reading::<VecBuffer, R>(rt, "read_vec")?;
    time_reading::<GapBuffer, R>(rt, "read_gap")?;
    time_slice(rt)?;
    time_halves(rt)?;
    time_comparing(rt)?;
    time_with_room(rt, "near_gap", near)?;
    time_with_room(rt, "apart_gap", apart)?;
    time_typing::<GapBuffer, R>(rt, "apart_doubled", apart)?;
    time_typing::<VecBuffer, R>(rt, "near_vec", near)?;
    time_typing::<VecBuffer, R>(rt, "apart_vec", apart)
}

fn main(rt: HostRuntime) -> io::Result<()> {
    let (Ok(near), Ok(apart)) = (near(rt.alloc()), apart(rt.alloc())) else {
        return Ok(());
    };
    measure(&rt, &near, &apart)
}
"""


def copied(folder):
    """A copy of the repository with the program among its crates."""
    place = os.path.join(folder, "copy")
    shutil.copytree(ROOT, place, ignore=shutil.ignore_patterns(".git", "out"))
    source = os.path.join(place, "crates", NAME, "src")
    os.makedirs(source)
    with open(os.path.join(source, "main.rt"), "w", encoding="utf-8") as file:
        file.write(PROGRAM)
    with open(os.path.join(place, "crates.txt"), "a", encoding="utf-8") as file:
        file.write(f"\n{NAME}: gq_gap gq_text\n")
    return os.path.dirname(source)


def main():
    parser = argparse.ArgumentParser(description=__doc__, formatter_class=argparse.RawDescriptionHelpFormatter)
    parser.add_argument("--rounds", type=int, default=9)
    asked = parser.parse_args()
    with tempfile.TemporaryDirectory() as folder:
        crate = copied(folder)
        subprocess.run(["rt", "fmt"], cwd=crate, check=True, stdout=subprocess.DEVNULL)
        subprocess.run(["rt", "run"], cwd=crate, check=True, stdout=subprocess.DEVNULL)
        seen = {}
        for _ in range(asked.rounds):
            ran = subprocess.run([os.path.join(crate, "out", NAME)], check=True, capture_output=True, text=True)
            for name, took, _ in map(str.split, ran.stdout.splitlines()):
                seen.setdefault(name, []).append(int(took))
    middle = {name: statistics.median(times) for name, times in seen.items()}
    for name, took in middle.items():
        print(f"{name:12} {took / 1000:9.1f} ms")
    wanted = (
        middle["near_gap"] <= 3 * middle["read_gap"],
        middle["apart_gap"] <= middle["apart_vec"],
        middle["halves"] <= 1.1 * middle["one_piece"],
    )
    return 0 if all(wanted) else 1


if __name__ == "__main__":
    sys.exit(main())
