#!/usr/bin/env python3
"""Times the reading of scripts of more and more lines: it grows with their bytes alone.

    bench/script_reading.py [LINES ...]

Copies the crates to a temporary folder, adds a program there that reads scripts, and runs it by `rt try`, which
proves nothing. Prints for each number of lines the nanoseconds a byte, and how they grew since the first number.
"""
import sys

from beside_crates import rows_printed

LINES = (1_000, 10_000, 100_000)
HEAD = "cluster nodes 1 slabs 1 slots 16 cache 16\\nsession a on n1\\n"
LINE = "a: SELECT k FROM t WHERE k > 7\\nturn n1\\n"
PROGRAM = f"""\
#![tactic(auto)]

use rm_base::{{Text, WantOfMemory}};
use script_text::read_script;
use std::alloc::Global;
use std::env;
use std::io;
use std::process::ExitCode;
use std::time::{{Clock, Instant}};

fn script(alloc: Global, pairs: u64) -> Result<Text, WantOfMemory> {{
    let mut text = Text::new(alloc);
    text.append(b"{HEAD}")?;
    for _ in 0..pairs {{
        text.append(b"{LINE}")?;
    }}
    Ok(text)
}}

/// The nanoseconds of a reading, and the bytes that were read.
fn timed(alloc: Global, clock: &impl Clock, pairs: u64) -> io::Result<(u128, usize)> {{
    let Ok(text) = script(alloc, pairs) else {{
        return Ok((0, 1));
    }};
    let start = Instant::now(clock)?;
    let read = read_script(alloc, text.as_slice());
    let time = start.elapsed(clock)?.as_nanos();
    match read {{
        Ok(Ok(_)) => Ok((time, text.len())),
        Ok(Err(bad)) => Ok((0, bad.line as usize)),
        Err(_) => Ok((0, 1)),
    }}
}}

fn main(rt: HostRuntime) -> ExitCode {{
    let Ok(words) = env::args(&rt) else {{
        return ExitCode::from(2);
    }};
    for word in words.skip(1) {{
        let lines = word.parse::<u64>().unwrap_or(0);
        let Ok((nanoseconds, bytes)) = timed(rt.alloc(), &rt, lines / 2) else {{
            return ExitCode::from(3);
        }};
        let _ = println!(rt; "{{lines}} {{nanoseconds}} {{bytes}}");
    }}
    ExitCode::from(0)
}}
"""


def timings(numbers):
    """The nanoseconds and the bytes of each number of lines, by one run of the program."""
    words = [str(number) for number in numbers]
    rows = rows_printed("script_reading", PROGRAM, "script_text rm_base", words, 3)
    return [(int(row[1]), int(row[2])) for row in rows]


def main():
    numbers = [int(word) for word in sys.argv[1:]] or list(LINES)
    times = timings(numbers)
    first = times[0][0] / times[0][1]
    for number, (time, size) in zip(numbers, times):
        print(f"{number:>7} lines {time / size:8.1f} ns a byte {time / size / first:6.2f}")


if __name__ == "__main__":
    main()
