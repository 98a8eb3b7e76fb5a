#!/bin/sh
# How fast the program reads, in MB/s, each the best of five: the lexer and the cutter over 16 MB of statements, and COPY's readers over 16 MB of
# rows, as text and as CSV, in COPYs of 1,000 rows. Letting go of what was read is counted too. The crates below are proved first. Usage: bench/reading.sh
set -eu
top=$(cd "$(dirname "$0")/.." && pwd)
work=$(mktemp -d)
trap 'rm -rf "$work"' EXIT
crates='cq_value cq_token cq_grammar cq_tree cq_catalog cq_answer cq_script cq_copy'
mkdir -p "$work/crates/reading_speed/src"
for crate in $crates; do
    cp -r "$top/crates/$crate" "$work/crates/"
    grep -E "^$crate( |:)" "$top/crates.txt" >>"$work/crates.txt"
done
echo 'reading_speed: cq_value cq_token cq_catalog cq_script cq_copy' >>"$work/crates.txt"
cp "$top/HANDLES" "$work/"
cat >"$work/crates/reading_speed/src/main.rt" <<'PROGRAM'
//! Reads 16 MB of statements and of rows five times, and prints the best speeds.
#![tactic(auto)]

use cq_catalog::{Place, TableInfo};
use cq_copy::rows_of;
use cq_script::Cutter;
use cq_token::tokens;
use cq_value::{Column, Columns, Kind, NoMemory, Positions, Text};
use std::alloc::Global;
use std::io;
use std::time::Instant;

/// How often the statements, of 640 bytes, are read: 16 MB.
const TIMES: usize = 25_000;

/// How many rows, of 25 bytes, a COPY has.
const ROWS: usize = 1_000;

/// How many COPYs are read: 16 MB.
const COPIES: usize = 640;

const STATEMENTS: [&str; 6] = [
    "CREATE TABLE orders (id BIGINT, customer INTEGER, name TEXT, PRIMARY KEY (id));",
    "SELECT create_distributed_table('orders', 'id', shard_count => 32);",
    "INSERT INTO orders (id, customer, name) VALUES (1, 17, 'O''Hara'), (9223372036854775807, -4, 'Zürich');",
    "-- the greatest customers
    SELECT o.customer, count(*), sum(o.price * o.quantity) AS total FROM orders o JOIN lines l ON o.id = l.order_id
    WHERE o.name <> 'nobody' AND l.quantity >= 10 GROUP BY o.customer ORDER BY total DESC LIMIT 10;",
    "UPDATE orders SET name = 'another name', customer = customer + 1 WHERE id = 4711 OR customer IN (1, 2, 3);",
    "DELETE FROM order_lines WHERE order_id = 4711 AND (quantity < 1 OR comment = 'none');",
];

/// What reads.
#[derive(Clone, Copy)]
enum Reader {
    Lexer,
    Cutter,
    Copy { csv: bool },
}

/// The data of a COPY.
#[derive(Drop)]
struct Data {
    table: TableInfo,
    text: Vec<u8>,
    csv: Vec<u8>,
}

fn column(alloc: Global, kind: Kind) -> Result<Column, NoMemory> {
    Ok(Column {
        name: Text::of_str(alloc, "column")?,
        kind,
    })
}

/// A table of numbers and a text.
fn table(alloc: Global) -> Result<TableInfo, NoMemory> {
    let mut columns = Columns::new(alloc);
    for kind in [Kind::Bigint, Kind::Bigint, Kind::Text, Kind::Integer] {
        columns.put(column(alloc, kind)?)?;
    }
    Ok(TableInfo {
        name: Text::of_str(alloc, "events")?,
        columns,
        key: Positions::new(alloc),
        place: Place::Local,
    })
}

/// The line so often.
fn lines(alloc: Global, line: &[u8]) -> Result<Vec<u8>, NoMemory> {
    let mut all = Vec::new(alloc);
    for _ in 0..ROWS {
        if all.extend_from_slice(line).is_err() {
            return Err(NoMemory);
        }
    }
    Ok(all)
}

fn made(alloc: Global) -> Result<Data, NoMemory> {
    Ok(Data {
        table: table(alloc)?,
        text: lines(alloc, b"1871\t90210\tpage 731\t4711\n")?,
        csv: lines(alloc, b"1871,90210,page 731,4711\n")?,
    })
}

fn lex_all(alloc: Global) -> Result<usize, NoMemory> {
    let mut size: usize = 0;
    for _ in 0..TIMES {
        for statement in STATEMENTS {
            if tokens(alloc, statement.as_bytes()).is_ok() {
                size = size.wrapping_add(statement.len());
            }
        }
    }
    Ok(size)
}

fn cut_all(alloc: Global) -> Result<usize, NoMemory> {
    let mut size: usize = 0;
    let mut cutter = Cutter::new(alloc);
    for _ in 0..TIMES {
        for statement in STATEMENTS {
            if cutter.next_in(alloc, statement.as_bytes())?.is_some() {
                size = size.wrapping_add(statement.len());
            }
        }
    }
    Ok(size)
}

fn copy_all(alloc: Global, data: &Data, csv: bool) -> Result<usize, NoMemory> {
    let bytes = if csv { &data.csv } else { &data.text };
    let mut size: usize = 0;
    for _ in 0..COPIES {
        let Ok(rows) = rows_of(alloc, bytes, &data.table, &[0, 1, 2, 3], csv, false) else {
            return Err(NoMemory);
        };
        size = size.wrapping_add((rows.len() as usize).wrapping_mul(25));
    }
    Ok(size)
}

/// How many bytes were read.
fn read(alloc: Global, reader: Reader, data: &Data) -> Result<usize, NoMemory> {
    match reader {
        Reader::Lexer => lex_all(alloc),
        Reader::Cutter => cut_all(alloc),
        Reader::Copy { csv } => copy_all(alloc, data, csv),
    }
}

fn main(rt: HostRuntime) -> io::Result<()> {
    let alloc = rt.alloc();
    let Ok(data) = made(alloc) else {
        return println!(rt; "out of memory");
    };
    let readers = [
        ("lexer", Reader::Lexer),
        ("cutter", Reader::Cutter),
        ("COPY of text", Reader::Copy { csv: false }),
        ("COPY of CSV", Reader::Copy { csv: true }),
    ];
    for (name, reader) in readers {
        let mut best = u128::MAX;
        let mut size = 0;
        for _ in 0..5 {
            let start = Instant::now(&rt)?;
            if let Ok(bytes) = read(alloc, reader, &data) {
                size = bytes;
            }
            best = best.min(start.elapsed(&rt)?.as_micros());
        }
        println!(rt; "{}: {} bytes at {} MB/s", name, size, size as u128 / best.max(1))?;
    }
    Ok(())
}
PROGRAM
cd "$work/crates/reading_speed"
rt run 2>"$work/log" || { cat "$work/log"; exit 1; }
