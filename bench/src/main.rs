//! The port and the Rust crate aml 0.16.4 on the same inputs, in one process.
//!
//!   klem-bench --list                   the rows: number, calls for a count, `both`, `apart`, `port` or `alone`, name
//!   klem-bench --time ROUNDS            every row timed: row, side, calls, the least nanoseconds of the rounds
//!   klem-bench --count                  every row, each side with N calls and with 2N, between marks that bench/icount.c counts by
//!   klem-bench --one ROW SIDE CALLS     CALLS calls of one side (port or rust) of one row, for valgrind
//!
//! A row's two sides make the same calls on the same inputs, and before a row is measured their answers on every input are compared. What
//! a call needs that is no part of it (a path to give away, which the Rust takes by value) is made before the clock starts.
//! bench/table.py makes the table.
mod inputs;
mod rows;

use std::{
    arch::asm,
    time::{Duration, Instant},
};

/// One side of a row: makes that many calls, and says how long they took.
pub type Side = Box<dyn FnMut(usize) -> Duration>;

/// What a row compares.
#[derive(Clone, Copy, PartialEq)]
pub enum Kind {
    /// The same call on both sides.
    Both,
    /// The Rust has no such call and does something else: the row is not counted as ahead or behind.
    Apart,
    /// The port alone, since the Rust has no such call and nothing like it.
    Port,
    /// The port alone, for the table of what a call takes beside the test of memory.
    Alone,
}

impl Kind {
    fn name(self) -> &'static str {
        match self {
            Kind::Both => "both",
            Kind::Apart => "apart",
            Kind::Port => "port",
            Kind::Alone => "alone",
        }
    }

    fn has_rust(self) -> bool {
        matches!(self, Kind::Both | Kind::Apart)
    }
}

pub struct Row {
    pub name: String,
    /// Calls in a round.
    pub calls: usize,
    /// Calls after which the inputs come around again.
    pub inputs: usize,
    pub kind: Kind,
    /// Compares the answers of both sides on every input of the row.
    pub same: Box<dyn FnMut() -> Result<usize, String>>,
    pub port: Side,
    pub rust: Side,
}

impl Row {
    // Few calls are enough for a count, and the inputs come around whole.
    fn counted_calls(&self) -> usize {
        self.inputs * (self.calls.min(1_000) / self.inputs).max(1)
    }
}

/// The only place where the clock runs and where instructions are counted: between the two marks, or by valgrind inside this function
/// alone, which is why it has a plain name and is not inlined.
#[no_mangle]
#[inline(never)]
pub fn klem_bench_timed(work: &mut dyn FnMut()) -> Duration {
    mark();
    let start = Instant::now();
    work();
    let took = start.elapsed();
    mark();
    took
}

/// The mark that bench/icount.c looks for: a system call that no system has. Every system refuses it, and nothing more happens.
const MARK: i64 = 0x6B6C_656D;

static MARKED: std::sync::atomic::AtomicBool = std::sync::atomic::AtomicBool::new(false);

fn mark() {
    if MARKED.load(std::sync::atomic::Ordering::Relaxed) {
        // SAFETY: the number is no system call's, and there are no arguments.
        unsafe { syscall(MARK) };
    }
}

extern "C" {
    fn syscall(number: i64, ...) -> i64;
}

/// What goes through here, the compiler knows nothing of: std's `black_box`, which compilers before 1.66 do not have.
#[inline(always)]
pub fn black_box<T>(mut value: T) -> T {
    // SAFETY: there is no instruction in it.
    unsafe { asm!("/* {0} */", in(reg) &mut value, options(nostack, preserves_flags)) };
    value
}

fn main() {
    // The Rust parses by deep calls.
    let worker = std::thread::Builder::new().stack_size(1 << 28).spawn(|| {
        let args: Vec<String> = std::env::args().skip(1).collect();
        let args: Vec<&str> = args.iter().map(String::as_str).collect();
        match args[..] {
            ["--list"] => {
                for (i, row) in rows::rows().iter().enumerate() {
                    println!("{i} {} {} {}", row.counted_calls(), row.kind.name(), row.name);
                }
                0
            }
            ["--time", rounds] => {
                let rounds = rounds.parse().expect("a number of rounds");
                every_row(|i, row| {
                    // The sides take turns, so that both see the same machine; the least of the rounds is the one that was disturbed least.
                    let (mut port, mut rust) = (Duration::MAX, Duration::MAX);
                    for _ in 0..rounds {
                        port = port.min((row.port)(row.calls));
                        if row.kind.has_rust() {
                            rust = rust.min((row.rust)(row.calls));
                        }
                    }
                    println!("{i} port {} {}", row.calls, port.as_nanos());
                    if row.kind.has_rust() {
                        println!("{i} rust {} {}", row.calls, rust.as_nanos());
                    }
                })
            }
            ["--count"] => every_row(|i, row| {
                let n = row.counted_calls();
                let sides = if row.kind.has_rust() { 2 } else { 1 };
                for (name, side) in [("port", &mut row.port), ("rust", &mut row.rust)].into_iter().take(sides) {
                    // once unmarked, so that what is done at the first call alone is done
                    side(n);
                    for calls in [n, 2 * n] {
                        println!("{i} {name} {calls}");
                        MARKED.store(true, std::sync::atomic::Ordering::Relaxed);
                        side(calls);
                        MARKED.store(false, std::sync::atomic::Ordering::Relaxed);
                    }
                }
            }),
            ["--one", row, side, calls] => {
                let mut row = rows::rows().swap_remove(row.parse().expect("a row's number"));
                let calls = calls.parse().expect("a number of calls");
                match side {
                    "port" => (row.port)(calls),
                    "rust" => (row.rust)(calls),
                    _ => panic!("a side is port or rust"),
                };
                0
            }
            _ => {
                eprintln!("klem-bench --list | --time ROUNDS | --count | --one ROW SIDE CALLS");
                2
            }
        }
    });
    std::process::exit(worker.and_then(|w| w.join().map_err(|_| std::io::Error::new(std::io::ErrorKind::Other, "a row panicked"))).unwrap_or(1));
}

fn every_row(mut measure: impl FnMut(usize, &mut Row)) -> i32 {
    for (i, row) in rows::rows().iter_mut().enumerate() {
        if let Err(why) = (row.same)() {
            eprintln!("klem-bench: {}: the two sides differ: {why}", row.name);
            return 1;
        }
        measure(i, row);
    }
    0
}
