#!/bin/sh
# Measures the rows of a table: bench/chain.sh ROWS [REVISION]. It pushes so many rows, takes every tenth
# out in one pass, undoes that, does it again and forgets it, ten times over, with the list of lq_chain as
# it stands here or in that revision. It prints the seconds and the most memory that the program took. The
# crates that it needs are proved in a folder of their own first.
rows=${1:-100000}
revision=${2:-HEAD}
top=$(CDPATH='' cd -- "$(dirname -- "$0")/.." && pwd) || exit 1
folder=$(mktemp -d) || exit 1
trap 'rm -rf "$folder"' EXIT
git -C "$top" archive "$revision" crates.txt HANDLES crates | tar -x -C "$folder" || exit 1
mkdir -p "$folder/crates/chain_rows/src"
echo "chain_rows: lq_base lq_chain" >>"$folder/crates.txt"
cat >"$folder/crates/chain_rows/src/main.rt" <<EOF
//! Rows of a list, of which every tenth is taken out and put back.
#![tactic(auto)]

use lq_base::NoMemory;
use lq_chain::Chain;
use std::alloc::Global;
use std::process::ExitCode;

const ROWS: u64 = $rows;

fn filled(alloc: Global) -> Result<Chain<u64>, NoMemory> {
    let mut chain = Chain::new(alloc);
    for n in 0..ROWS {
        chain.push_back(n)?;
    }
    chain.forget();
    Ok(chain)
}

fn thinned(alloc: Global, chain: &mut Chain<u64>) -> Result<(), NoMemory> {
    let mut marks = Vec::new(alloc);
    for n in 0..chain.len() {
        marks.push(n % 10 != 9)?;
    }
    if marks.len() == chain.len() {
        chain.keep(alloc, marks)?;
    }
    Ok(())
}

fn round(alloc: Global) -> Result<(), NoMemory> {
    let mut chain = filled(alloc)?;
    thinned(alloc, &mut chain)?;
    chain.undo();
    thinned(alloc, &mut chain)?;
    chain.forget();
    Ok(())
}

fn rounds(alloc: Global) -> Result<(), NoMemory> {
    for _ in 0..10 {
        round(alloc)?;
    }
    Ok(())
}

fn main(rt: HostRuntime) -> ExitCode {
    match rounds(rt.alloc()) {
        Ok(()) => ExitCode::from(0),
        Err(_) => ExitCode::from(1),
    }
}
EOF
cd "$folder/crates/chain_rows" || exit 1
if ! rt run >"$folder/run.log" 2>&1; then
    tail -n 5 "$folder/run.log" >&2
    exit 1
fi
/usr/bin/time -f "$rows rows, ten times: %e seconds, %M KiB" ./out/chain_rows
