#!/usr/bin/env python3
"""How the work of simplifying an index grows with its nodes.

usage: bench/indices.py [REPEATS]

Builds a program over index_simplify in a folder of its own, for a chain of row and column steps of 49, 241 and 997 nodes, and
prints the instructions that one node takes, as valgrind counts them. In the chain `(.. * 3 + i1) / 5` no law is of any node, so
each is tried against the whole table; in `((.. * 1 + 0) / 1 - 0)` a law is of each.
"""
import re
import shutil
import subprocess
import sys
import tempfile
from pathlib import Path

ROOT = Path(__file__).resolve().parent.parent
CRATES = ("size_arith", "index_expr", "index_simplify")

PROGRAM = """// Simplifies a deep index many times.
#![tactic(auto)]

use index_expr::{Index, Operation};
use index_simplify::{Ranges, simplified};
use std::alloc::{AllocError, Global};
use std::io;

const DEPTH: u32 = @DEPTH@;
const REPEATS: u32 = @REPEATS@;

fn level(alloc: Global, e: Index) -> Result<Index, AllocError> {
    @LEVEL@
}

fn deep(alloc: Global) -> Result<Index, AllocError> {
    let mut e = Index::Size(0);
    for _ in 0..DEPTH {
        e = level(alloc, e)?;
    }
    Ok(e)
}

fn count(alloc: Global) -> Result<u64, AllocError> {
    let ranges = Ranges {
        lengths: Vec::new(alloc),
        multiples: Vec::new(alloc),
    };
    let e = deep(alloc)?;
    for _ in 0..REPEATS {
        simplified(alloc, &e, &ranges)?;
    }
    Ok(e.node_count())
}

fn main(rt: HostRuntime) -> io::Result<()> {
    match count(rt.alloc()) {
        Ok(nodes) => println!(rt; "{nodes}"),
        Err(_) => Ok(()),
    }
}
"""

STEPS = """let rows = Index::binary(alloc, Operation::Product, e, Index::Literal(3))?;
    let column = Index::Variable {
        number: 1,
        least: 0,
        greatest: 4294967295,
    };
    let cell = Index::binary(alloc, Operation::Sum, rows, column)?;
    Index::binary(alloc, Operation::Quotient, cell, Index::Literal(5))"""

UNITS = """let e = Index::binary(alloc, Operation::Product, e, Index::Literal(1))?;
    let e = Index::binary(alloc, Operation::Sum, e, Index::Literal(0))?;
    Index::binary(alloc, Operation::Quotient, e, Index::Literal(1))"""


def instructions(folder, level, depth, repeats):
    text = PROGRAM.replace("@DEPTH@", str(depth)).replace("@REPEATS@", str(repeats)).replace("@LEVEL@", level)
    (folder / "crates/deep/src/main.rt").write_text(text)
    subprocess.run(["rt", "run"], cwd=folder / "crates/deep", check=True, capture_output=True)
    words = ["valgrind", "--tool=callgrind", "--callgrind-out-file=/dev/null", folder / "crates/deep/out/deep"]
    run = subprocess.run(words, check=True, capture_output=True, text=True)
    return int(run.stdout), int(re.search(r"Collected : (\d+)", run.stderr).group(1))


def main(repeats="1000"):
    repeats = int(repeats)
    with tempfile.TemporaryDirectory() as name:
        folder = Path(name)
        for crate in CRATES:
            shutil.copytree(ROOT / "crates" / crate, folder / "crates" / crate)
        (folder / "crates/deep/src").mkdir(parents=True)
        (folder / "crates.txt").write_text(
            "size_arith: thiserror\nindex_expr: size_arith\nindex_simplify: size_arith index_expr\ndeep: index_expr index_simplify\n"
        )
        for title, level in (("no law", STEPS), ("a law each", UNITS)):
            print(f"{title}:")
            for depth in (8, 40, 166):
                nodes, most = instructions(folder, level, depth, repeats)
                _, least = instructions(folder, level, depth, 0)
                print(f"  {nodes} nodes: {(most - least) / (repeats * nodes):.0f} instructions a node")


if __name__ == "__main__":
    main(*sys.argv[1:])
