//! The engine beside the plain Rust program of `fast.rs`, in one run, as ratios.
//!
//! The two take turns in many small lots; each line gives the fastest lot of both, the
//! one that nothing disturbed, and their ratio, engine over Rust. A step is too short to be
//! called alone: it is what a month call takes beyond the reading, over the month's steps. A group of
//! rows stands beside a program that runs them one by one, over a book decoded anew for each.

use jurengate_model::block::BLOCK_BYTES;
use jurengate_model::cards::{self, curves, published};
use jurengate_model::console::{asks_for_help, ended, misused, print, words};
use jurengate_model::group::{kind, GROUP_ANSWERS, GROUP_ROWS};
use jurengate_model::kinetics::{DAY_STEPS, MONTH_DAYS};
use jurengate_model::refusal::ACCEPTED;
use jurengate_model::site::{Place, Places};
use jurengate_model::state::{State, MONTHS};
use jurengate_model::{fast, ffi};
use std::hint::black_box;
use std::io;
use std::process::ExitCode;
use std::time::{Duration, Instant};

const PROGRAM: &str = "bench";

const USAGE: &str = "\
usage: bench          times the engine beside plain Rust and prints their ratios, a line every few seconds
       bench --help   prints this
";

/// Lots per line.
const LOTS: usize = 1_000;
/// Lots per line at least, if each lasts long.
const LOTS_LEAST: usize = 50;
/// About how long a lot lasts: shorter than what a busy machine leaves undisturbed.
const LOT_TIME: Duration = Duration::from_millis(1);
/// About how long a line lasts at most.
const LINE_TIME: Duration = Duration::from_secs(6);

/// Seconds that `times` calls take.
fn lot(times: u32, work: &mut dyn FnMut()) -> f64 {
    let start = Instant::now();
    for _ in 0..times {
        work();
    }
    start.elapsed().as_secs_f64()
}

/// How many calls make a lot.
fn lot_size(work: &mut dyn FnMut()) -> u32 {
    let mut times = 1;
    while lot(times, work) < LOT_TIME.as_secs_f64() {
        times *= 2;
    }
    times
}

/// Seconds that a call takes in the fastest lot of each work, all by turns and of one size.
fn fastest<const N: usize>(mut works: [&mut dyn FnMut(); N]) -> [f64; N] {
    let times = works.iter_mut().map(|work| lot_size(work)).max().unwrap_or(1);
    let mut fastest = [f64::INFINITY; N];
    let start = Instant::now();
    for done in 0..LOTS {
        if done >= LOTS_LEAST && start.elapsed() > LINE_TIME {
            break;
        }
        for (least, work) in fastest.iter_mut().zip(&mut works) {
            *least = least.min(lot(times, work));
        }
    }
    fastest.map(|seconds| seconds / f64::from(times))
}

/// Times both sides and prints a line.
fn compare(what: &str, engine: &mut dyn FnMut(), rust: &mut dyn FnMut()) -> io::Result<()> {
    let [engine, rust] = fastest([engine, rust]).map(|seconds| 1e6 * seconds);
    print(format!("{what}: engine {engine:.2} µs, Rust {rust:.2} µs, ratio {:.2}\n", engine / rust))
}

/// A month call from a state.
type MonthCall<'a> = dyn Fn(&State) + 'a;

/// Times a step of both sides: month calls that step less month calls that only read.
fn compare_steps(engine: &MonthCall, rust: &MonthCall, stepping: &State, reading: &State) -> io::Result<()> {
    let mut works = [(engine, stepping), (engine, reading), (rust, stepping), (rust, reading)]
        .map(|(call, state)| move || call(state));
    let [engine, engine_reads, rust, rust_reads] =
        fastest(works.each_mut().map(|work| work as &mut dyn FnMut()));
    let steps = (MONTH_DAYS * DAY_STEPS) as f64;
    let [engine, rust] = [engine - engine_reads, rust - rust_reads].map(|seconds| 1e9 * seconds / steps);
    print(format!("one step: engine {engine:.1} ns, Rust {rust:.1} ns, ratio {:.2}\n", engine / rust))
}

/// Birth, then months up to 24: a state in the middle of a run.
fn middle_state(site: &[u8], book: &[u8]) -> State {
    let newborn = fast::birth(site, book).state;
    (0..24).fold(newborn, |state, _| fast::month(site, book, &state).state)
}

/// Times the calls that take a foods block.
fn bench_foods(site: &[u8], book: &[u8], state: &State) -> io::Result<()> {
    let foods = cards::foods_file(&published::foods());
    let (site, block, book) = (black_box(site), black_box(Some(foods.as_slice())), black_box(book));
    let (mut engine_list, mut rust_list) = ([0; MONTHS], [0; MONTHS]);
    let answer = ffi::run_foods(site, block, book, &mut engine_list);
    assert_eq!(answer, fast::run_foods(site, block, book, &mut rust_list));
    assert_eq!((engine_list, answer.number), (rust_list, ACCEPTED));
    compare(
        "whole run with foods",
        &mut || {
            black_box(ffi::run_foods(site, block, book, &mut engine_list));
        },
        &mut || {
            black_box(fast::run_foods(site, block, book, &mut rust_list));
        },
    )?;
    compare(
        "one month call with foods",
        &mut || {
            black_box(ffi::month_foods(site, block, book, state));
        },
        &mut || {
            black_box(fast::month_foods(site, block, book, state));
        },
    )?;
    compare(
        "reading a foods block",
        &mut || {
            black_box(ffi::read_foods(black_box(&foods)));
        },
        &mut || {
            black_box(fast::read_foods(black_box(&foods)).ok());
        },
    )
}

/// Times the calls on a site file with five places, and the converters.
fn bench_places(book: &[u8], state: &State) -> io::Result<()> {
    let places = Places([Place { share: 7, dust: 123_456 }; 5]);
    let (site, book) = (cards::site_file_2(&published::fields(), &places), black_box(book));
    let site = black_box(site.as_slice());
    let (mut engine_list, mut rust_list) = ([0; MONTHS], [0; MONTHS]);
    let answer = ffi::run(site, book, &mut engine_list);
    assert_eq!(answer, fast::run(site, book, &mut rust_list));
    assert_eq!((engine_list, answer.number), (rust_list, ACCEPTED));
    compare(
        "whole run with places",
        &mut || {
            black_box(ffi::run(site, book, &mut engine_list));
        },
        &mut || {
            black_box(fast::run(site, book, &mut rust_list));
        },
    )?;
    compare(
        "one month call with places",
        &mut || {
            black_box(ffi::month(site, book, state));
        },
        &mut || {
            black_box(fast::month(site, book, state));
        },
    )?;
    let one = published::site();
    let (mut engine_target, mut rust_target) = ([0; BLOCK_BYTES], [0; BLOCK_BYTES]);
    compare(
        "a site file to edition 2",
        &mut || {
            black_box(ffi::site_to_edition_2(black_box(&one), black_box(&mut engine_target)));
        },
        &mut || {
            black_box(fast::to_edition_2(black_box(&one), black_box(&mut rust_target)).ok());
        },
    )?;
    assert_eq!(engine_target, rust_target);
    let two = engine_target;
    compare(
        "a site file to edition 1",
        &mut || {
            black_box(ffi::site_to_edition_1(black_box(&two), black_box(&mut engine_target)));
        },
        &mut || {
            black_box(fast::to_edition_1(black_box(&two), black_box(&mut rust_target)).ok());
        },
    )?;
    assert_eq!((engine_target.as_slice(), rust_target.as_slice()), (one.as_slice(), one.as_slice()));
    Ok(())
}

/// A row of a batch card with every figure, of this age.
fn row(age: usize) -> Vec<u8> {
    format!("A1 7 8 {age} 200.5 150.25 4.125 0.1 1.5 3.2 30 30").into_bytes()
}

/// Times rows of batch cards, each with its files read anew, as rows a second too.
fn bench_rows(site: &[u8], book: &[u8]) -> io::Result<()> {
    let (site, book) = (black_box(site), black_box(book));
    let rows = [
        ("a row of AGE 1", row(1)),
        ("a row of AGE 12", row(12)),
        ("a row of AGE 84", row(84)),
        ("a row refused with 12", b"A1".to_vec()),
    ];
    for (what, row) in rows {
        let row = black_box(row.as_slice());
        assert_eq!(ffi::card_row(site, None, book, row), fast::card_row(site, None, book, row));
        let mut engine = || {
            black_box(ffi::card_row(site, None, book, row));
        };
        let mut rust = || {
            black_box(fast::card_row(site, None, book, row));
        };
        let [engine, rust] = fastest([&mut engine, &mut rust]);
        let told = |seconds: f64| format!("{:.2} µs ({:.0} rows a second)", 1e6 * seconds, 1.0 / seconds);
        print(format!("{what}: engine {}, Rust {}, ratio {:.2}\n", told(engine), told(rust), engine / rust))?;
    }
    Ok(())
}

/// Times full groups, beside a program that runs the same rows one by one over a book decoded anew for each.
fn bench_groups(site: &[u8], book: &[u8]) -> io::Result<()> {
    let (site, book) = (black_box(site), black_box(book));
    let groups = [
        ("a group of 64 rows of AGE 1", [1; GROUP_ROWS]),
        ("a group of 64 rows of AGE 84", [MONTHS; GROUP_ROWS]),
        ("a group of 64 rows of mixed ages", std::array::from_fn(|turn| 1 + 37 * turn % MONTHS)),
    ];
    for (what, ages) in groups {
        let rows = ages.map(row);
        let text = rows.join(&b'\n');
        let text = black_box(text.as_slice());
        let (mut engine_list, mut rust_list) = ([0; GROUP_ANSWERS], [0; GROUP_ANSWERS]);
        let answer = ffi::card_group(site, None, book, text, &mut engine_list);
        assert_eq!(answer.rows, fast::rows_one_by_one(site, None, book, text, &mut rust_list));
        assert_eq!((engine_list, answer.rows as usize), (rust_list, GROUP_ROWS));
        assert!(engine_list.chunks_exact(2).all(|pair| pair[0] == kind::BLOOD));
        let mut engine = || {
            black_box(ffi::card_group(site, None, book, text, black_box(&mut engine_list)));
        };
        let mut rust = || {
            black_box(fast::rows_one_by_one(site, None, book, text, black_box(&mut rust_list)));
        };
        let [engine, rust] = fastest([&mut engine, &mut rust]);
        let told = |seconds: f64| {
            format!("{:.1} µs ({:.0} rows a second)", 1e6 * seconds, GROUP_ROWS as f64 / seconds)
        };
        print(format!("{what}: engine {}, Rust {}, ratio {:.2}\n", told(engine), told(rust), engine / rust))?;
    }
    Ok(())
}

/// Times everything, up to a reader's end.
fn bench() -> io::Result<()> {
    let (site, book) = (published::site(), curves::book());
    let middle = middle_state(&site, &book);
    // At month 84 a month call reads both files and then answers 21 at once.
    let last = State { month: MONTHS as u64, ..State::default() };
    let (mut engine_list, mut rust_list) = ([0; MONTHS], [0; MONTHS]);
    assert_eq!(ffi::run(&site, &book, &mut engine_list), fast::run(&site, &book, &mut rust_list));
    assert_eq!(engine_list, rust_list);
    compare(
        "whole run of 84 months",
        &mut || {
            black_box(ffi::run(black_box(&site), black_box(&book), &mut engine_list));
        },
        &mut || {
            black_box(fast::run(black_box(&site), black_box(&book), &mut rust_list));
        },
    )?;
    let engine_month = |state: &State| {
        black_box(ffi::month(black_box(&site), black_box(&book), state));
    };
    let rust_month = |state: &State| {
        black_box(fast::month(black_box(&site), black_box(&book), state));
    };
    compare("one month call", &mut || engine_month(&middle), &mut || rust_month(&middle))?;
    compare("reading both files", &mut || engine_month(&last), &mut || rust_month(&last))?;
    compare_steps(&engine_month, &rust_month, &middle, &last)?;
    bench_foods(&site, &book, &middle)?;
    bench_places(&book, &middle)?;
    bench_rows(&site, &book)?;
    bench_groups(&site, &book)
}

fn main() -> ExitCode {
    let words = words();
    match words.first() {
        None => ended(PROGRAM, bench()),
        Some(_) if asks_for_help(&words) => ended(PROGRAM, print(USAGE)),
        Some(word) => misused(PROGRAM, &format!("`{word}` is no option"), USAGE),
    }
}
