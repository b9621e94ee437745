#!/usr/bin/env python3
"""Times messages and the calls that the home serves, over 32,768 pages and 16,384 slots, at a thousand and more.

    bench/pool_calls.py [CALLS ...]

Copies the crates to a temporary folder, adds a program there that makes the calls, and runs it by `rt try`, which
proves nothing. Prints for each number of calls the nanoseconds a call, and how they grew since the first number.
Nothing else should run meanwhile.
"""
import sys

from beside_crates import rows_printed

USES = "message_network rmem_calls home_tables slab_node page_latches rm_base"
CALLS = (1_000, 10_000, 100_000, 1_000_000)
CALLS_OF_A_ROUND = 5
PROGRAM = """\
#![tactic(auto)]

use home_tables::Home;
use message_network::{Ask, Body, Draft, Network, Party};
use page_latches::NodeSet;
use rm_base::{CallNo, Lsn, NodeId, PageId, PageList, Token, WantOfMemory};
use rmem_calls::{clean, invalidate, look, register, unregister};
use slab_node::Slabs;
use std::alloc::Global;
use std::env;
use std::io;
use std::process::ExitCode;
use std::time::{Clock, Instant};

/// A call is sent, found as new, noted and lent.
fn post(network: &mut Network, node: NodeId, page: PageId, number: u64) -> Result<(), WantOfMemory> {
    let sent = network.send(Draft {
        from: Party::Node(node),
        to: Party::Home,
        token: Token::default(),
        call: CallNo::new(number),
        body: Body::Ask(Ask::Register(page)),
    })?;
    if let Some(next) = network.next_new(sent) {
        network.mark(next);
        let _message = network.deliver(next);
    }
    Ok(())
}

/// Five calls of one node on one page, a message each. The pages come in an order that jumps.
fn round(
    network: &mut Network,
    home: &mut Home,
    slabs: &mut Slabs,
    number: u64,
) -> Result<(), WantOfMemory> {
    let page = PageId::new((number * 7919 % 32768) as u32).unwrap_or_default();
    let node = NodeId::new((number % 16) as u8).unwrap_or_default();
    for _ in 0..5 {
        post(network, node, page, number)?;
    }
    register(home, slabs, node, page)?;
    look(home, page);
    let mut pages = PageList::new();
    let _ = pages.try_push(page);
    let clear = [NodeSet::new()];
    invalidate(home, node, &pages, &clear);
    clean(home, page, Lsn::new(number));
    unregister(home, node, page);
    Ok(())
}

fn rounds(
    network: &mut Network,
    home: &mut Home,
    slabs: &mut Slabs,
    from: u64,
    count: u64,
) -> Result<(), WantOfMemory> {
    for number in from..from + count {
        round(network, home, slabs, number)?;
    }
    Ok(())
}

fn pool(alloc: Global) -> Result<(Network, Home, Slabs), WantOfMemory> {
    let mut network = Network::new(alloc);
    let mut home = Home::new(alloc, Lsn::new(0))?;
    let mut slabs = Slabs::new(alloc, 4, 4096)?;
    rounds(&mut network, &mut home, &mut slabs, 0, 32768)?;
    Ok((network, home, slabs))
}

/// The nanoseconds that so many rounds take.
fn timed(
    clock: &impl Clock,
    network: &mut Network,
    home: &mut Home,
    slabs: &mut Slabs,
    count: u64,
) -> io::Result<u128> {
    let start = Instant::now(clock)?;
    let _ = rounds(network, home, slabs, 32768, count);
    Ok(start.elapsed(clock)?.as_nanos())
}

fn main(rt: HostRuntime) -> ExitCode {
    let Ok((mut network, mut home, mut slabs)) = pool(rt.alloc()) else {
        return ExitCode::from(1);
    };
    let Ok(words) = env::args(&rt) else {
        return ExitCode::from(2);
    };
    for word in words.skip(1) {
        let count = word.parse::<u64>().unwrap_or(0);
        let Ok(nanoseconds) = timed(&rt, &mut network, &mut home, &mut slabs, count) else {
            return ExitCode::from(3);
        };
        let _ = println!(rt; "{count} {nanoseconds}");
    }
    ExitCode::from(0)
}
"""


def timings(calls):
    """The nanoseconds of each number of calls, by one run of the program."""
    rounds = [str(number // CALLS_OF_A_ROUND) for number in calls]
    return [int(row[1]) for row in rows_printed("pool_calls", PROGRAM, USES, rounds, 2)]


def main():
    calls = [int(word) for word in sys.argv[1:]] or list(CALLS)
    times = timings(calls)
    first = times[0] / calls[0]
    for number, time in zip(calls, times):
        print(f"{number:>9} calls {time / number:8.0f} ns a call {time / number / first:6.2f}")


if __name__ == "__main__":
    main()
