//! Times the original and this repository's reader on the same tables, in one process, and prints the best pass of each.
//!
//! Without arguments it prints the tables of docs/SPEED.md. `bench pass WAY ROWS COLUMNS PASSES` makes passes of one way alone,
//! for a profiler to count.

mod ours;
mod tables;
mod theirs;

use std::hint::black_box;
use std::process::ExitCode;

use tables::{Shape, table};

/// Longer than any string of the tables.
const ROOM: usize = 65536;

type Way = fn(&[u8], &mut [u8]) -> usize;

/// What is timed, by its name.
const WAYS: [(&str, Way); 7] = [
    ("ours-slice", |table, _| ours::drain_slice(table)),
    ("theirs-slice", |table, _| theirs::drain_slice(table)),
    ("ours-reader", ours::drain_reader),
    ("theirs-reader", |table, _| theirs::drain_reader(table)),
    ("theirs-buffered", |table, _| theirs::drain_buffered(table)),
    ("ours-skip", |table, _| ours::skip_slice(table)),
    ("ours-skip-reader", |table, _| ours::skip_reader(table)),
];

const OURS_SLICE: usize = 0;
const THEIRS_SLICE: usize = 1;
const OURS_READER: usize = 2;
const THEIRS_READER: usize = 3;
const THEIRS_BUFFERED: usize = 4;
const OURS_SKIP: usize = 5;
const OURS_SKIP_READER: usize = 6;

#[repr(C)]
struct TimeSpec {
    seconds: i64,
    nanoseconds: i64,
}

// Linux's clock of the time that this thread was running, so that other work on the machine counts less.
const THREAD_TIME: i32 = 3;

unsafe extern "C" {
    fn clock_gettime(clock: i32, time: *mut TimeSpec) -> i32;
}

/// Nanoseconds that this thread has run.
fn ran() -> f64 {
    let mut time = TimeSpec { seconds: 0, nanoseconds: 0 };
    // SAFETY: the struct is what Linux on 64 bits has, and is written alone.
    let failed = unsafe { clock_gettime(THREAD_TIME, &mut time) };
    assert_eq!(failed, 0, "no clock");
    time.seconds as f64 * 1e9 + time.nanoseconds as f64
}

fn pass(way: Way, input: &[u8], text: &mut [u8], events: usize) {
    assert_eq!(way(black_box(input), text), events, "not the events of the table");
}

/// The nanoseconds of the best pass of each way, the ways by turns.
fn best(shape: Shape) -> [f64; WAYS.len()] {
    let input = table(shape);
    let mut text = vec![0; ROOM];
    let mut best = [f64::INFINITY; WAYS.len()];
    for _ in 0..(5_000_000 / shape.rows).clamp(25, 2000) {
        for (best, (_, way)) in best.iter_mut().zip(WAYS) {
            let before = ran();
            pass(way, &input, &mut text, shape.events());
            let took = ran() - before;
            // The thread's clock stood still now and then, which is no time.
            if took > 0.0 {
                *best = best.min(took);
            }
        }
    }
    best
}

fn measure() {
    let shapes = [(100_000, 2), (100_000, 8), (1_000, 2), (10_000, 2), (1_000_000, 2)].map(|(rows, columns)| Shape { rows, columns });
    let measured = shapes.map(|shape| (shape, best(shape)));

    println!("| rows | columns | way | ns a pass | ns an event | events a second |");
    println!("|---|---|---|---|---|---|");
    for (shape, best) in &measured {
        let events = shape.events() as f64;
        for (ns, (name, _)) in best.iter().zip(WAYS) {
            println!(
                "| {} | {} | {name} | {ns:.0} | {:.2} | {:.0} |",
                shape.rows, shape.columns, ns / events, events / ns * 1e9
            );
        }
    }
    println!();
    println!("| rows | columns | slice, ours / theirs | reader, ours / theirs | reader, ours / theirs buffered | skip / drain, slice | skip / drain, reader | skip / drain of theirs, slice |");
    println!("|---|---|---|---|---|---|---|---|");
    for (shape, best) in &measured {
        println!(
            "| {} | {} | {:.2} | {:.2} | {:.2} | {:.2} | {:.2} | {:.2} |",
            shape.rows,
            shape.columns,
            best[OURS_SLICE] / best[THEIRS_SLICE],
            best[OURS_READER] / best[THEIRS_READER],
            best[OURS_READER] / best[THEIRS_BUFFERED],
            best[OURS_SKIP] / best[OURS_SLICE],
            best[OURS_SKIP_READER] / best[OURS_READER],
            best[OURS_SKIP] / best[THEIRS_SLICE],
        );
    }
}

/// Passes of one way alone.
fn pass_alone(name: &str, shape: Shape, passes: usize) -> Option<()> {
    let (_, way) = WAYS.into_iter().find(|(known, _)| *known == name)?;
    let input = table(shape);
    let mut text = vec![0; ROOM];
    for _ in 0..passes {
        pass(way, &input, &mut text, shape.events());
    }
    Some(())
}

fn main() -> ExitCode {
    let arguments: Vec<String> = std::env::args().skip(1).collect();
    let words: Vec<&str> = arguments.iter().map(String::as_str).collect();
    let done = match words[..] {
        [] => {
            measure();
            Some(())
        }
        ["pass", name, rows, columns, passes] => match (rows.parse(), columns.parse(), passes.parse()) {
            (Ok(rows), Ok(columns), Ok(passes)) => pass_alone(name, Shape { rows, columns }, passes),
            _ => None,
        },
        _ => None,
    };
    if done.is_none() {
        eprintln!("bench: without arguments, or `pass WAY ROWS COLUMNS PASSES`");
        return ExitCode::FAILURE;
    }
    ExitCode::SUCCESS
}
