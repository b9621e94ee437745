#!/usr/bin/env python3
"""Times storage: a group with one record is appended and shipped to all 128 chunks, over a thousand pages and more.

    bench/storage_shipping.py [PAGES ...]

Copies the crates to a temporary folder, adds a program there that makes so many pages, folds them, and then appends and
ships groups, each with a record for one of them, and runs it by `rt try`, which proves nothing. Prints for each number
of pages the nanoseconds a group, and how they grew since the first number. Nothing else should run meanwhile.
"""
import sys

from beside_crates import rows_printed

USES = "storage_service message_network message_model redo_record page_image rm_base"
PAGES = (1_000, 30_000)
PROGRAM = """\
#![tactic(auto)]

use page_image::Kind;
use redo_record::{Group, Record, Records, encode};
use rm_base::{Bytes, CallNo, Epoch, Incarnation, Items, Lsn, NodeId, PageId, Token, WantOfMemory};
use std::alloc::Global;
use std::env;
use std::io;
use std::process::ExitCode;
use std::time::{Clock, Instant};
use storage_service::StorageService;

/// How many groups are timed.
const GROUPS: u64 = 2000;

fn make(page: u64) -> Record {
    Record::Make {
        page: PageId::new((page % 32768) as u32).unwrap_or_default(),
        kind: Kind::Leaf,
        level: 0,
    }
}

fn spelled(alloc: Global, lsn: u64, records: Records) -> Result<Bytes, WantOfMemory> {
    let group = Group {
        lsn: Lsn::new(lsn),
        records,
    };
    let mut bytes = Items::new(alloc);
    encode(alloc, &group, &mut bytes)?;
    Ok(bytes)
}

/// A group that makes each of the pages.
fn first_group(alloc: Global, pages: u64) -> Result<Bytes, WantOfMemory> {
    let mut records = Items::new(alloc);
    for page in 0..pages {
        records.push(make(page))?;
    }
    spelled(alloc, 1, records)
}

/// A group with one record.
fn next_group(alloc: Global, lsn: u64, page: u64) -> Result<Bytes, WantOfMemory> {
    let mut bytes = Items::new(alloc);
    bytes.push(7)?;
    let mut records = Items::new(alloc);
    records.push(Record::InsertSlot {
        page: PageId::new((page % 32768) as u32).unwrap_or_default(),
        index: 0,
        bytes,
    })?;
    spelled(alloc, lsn, records)
}

fn append(storage: &mut StorageService, alloc: Global, lsn: u64, bytes: &Bytes) -> Result<(), WantOfMemory> {
    let token = Token {
        node: NodeId::new(0).unwrap_or_default(),
        incarnation: Incarnation::new(1),
        epoch: Epoch::new(1),
    };
    let tail = storage.tail();
    storage.append(alloc, &token, CallNo::new(lsn), tail, bytes.as_slice())?;
    Ok(())
}

/// Storage with that many pages, each made and folded.
fn storage_of(alloc: Global, pages: u64) -> Result<StorageService, WantOfMemory> {
    let mut storage = StorageService::new(alloc, b"")?;
    let bytes = first_group(alloc, pages)?;
    append(&mut storage, alloc, 1, &bytes)?;
    storage.ship_all(alloc)?;
    for page in 0..pages {
        storage.fold(alloc, PageId::new((page % 32768) as u32).unwrap_or_default())?;
    }
    Ok(storage)
}

/// Appends and ships groups, each with a record for one page. The pages come in an order that jumps.
fn ship(storage: &mut StorageService, alloc: Global, pages: u64) -> Result<(), WantOfMemory> {
    for number in 0..GROUPS {
        let page = number * 7919 % pages;
        let bytes = next_group(alloc, number + 2, page)?;
        append(storage, alloc, number + 2, &bytes)?;
        storage.ship_all(alloc)?;
        storage.fold(alloc, PageId::new((page % 32768) as u32).unwrap_or_default())?;
    }
    Ok(())
}

/// The nanoseconds that the groups take.
fn timed(clock: &impl Clock, alloc: Global, pages: u64) -> io::Result<u128> {
    let Ok(mut storage) = storage_of(alloc, pages) else {
        return Ok(0);
    };
    let start = Instant::now(clock)?;
    let _ = ship(&mut storage, alloc, pages);
    let time = start.elapsed(clock)?.as_nanos();
    if storage.has_behind() || storage.last().number() != GROUPS + 1 {
        return Ok(0);
    }
    Ok(time)
}

fn main(rt: HostRuntime) -> ExitCode {
    let Ok(words) = env::args(&rt) else {
        return ExitCode::from(2);
    };
    for word in words.skip(1) {
        let pages = word.parse::<u64>().unwrap_or(1);
        let Ok(nanoseconds) = timed(&rt, rt.alloc(), pages) else {
            return ExitCode::from(3);
        };
        let _ = println!(rt; "{pages} {nanoseconds}");
    }
    ExitCode::from(0)
}
"""
GROUPS = 2000


def main():
    pages = [int(word) for word in sys.argv[1:]] or list(PAGES)
    rows = rows_printed("storage_shipping", PROGRAM, USES, [str(number) for number in pages], 2)
    times = [int(row[1]) / GROUPS for row in rows]
    for number, time in zip(pages, times):
        print(f"{number:>9} pages {time:8.0f} ns a group {time / times[0]:6.2f}")


if __name__ == "__main__":
    main()
