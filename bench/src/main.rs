//! Measures the proved engine against plain Rust, and writes inputs for the whole programs.
//!   bench                    the table
//!   bench inputs FOLDER      writes the inputs there, and the same postings for ledger and hledger

mod clock;
mod inputs;
mod plain;
mod postings;
mod proved;

use std::hint::black_box;
use std::time::Duration;

use clock::thread_time;

const ROUNDS: usize = 40;

/// The best times of two ways to do the same work.
struct Measured {
    what: &'static str,
    units: u64,
    plain: Duration,
    proved: Duration,
}

/// Runs both in turn, so that what else the machine does meets both alike, and takes the best round of each. Both must
/// answer the same.
fn measure<A: PartialEq + std::fmt::Debug>(
    what: &'static str,
    units: u64,
    mut plain: impl FnMut() -> A,
    mut proved: impl FnMut() -> A,
) -> Measured {
    assert_eq!(plain(), proved(), "{what}: the two answer differently");
    let mut best = [Duration::MAX; 2];
    for _ in 0..ROUNDS {
        best[0] = best[0].min(timed(&mut plain));
        best[1] = best[1].min(timed(&mut proved));
    }
    Measured { what, units, plain: best[0], proved: best[1] }
}

fn timed<A>(work: &mut impl FnMut() -> A) -> Duration {
    let start = thread_time();
    black_box(work());
    thread_time() - start
}

fn conversions() -> Vec<Measured> {
    const COUNT: u64 = 100_000;
    // Every pair of different currencies in turn, and another amount each time.
    let sum_of = |convert: fn(u64, u64, i64) -> i64| {
        let mut sum = 0i64;
        for at in 0..COUNT {
            let source = at % 12;
            let target = (source + 1 + at / 12 % 11) % 12;
            sum = sum.wrapping_add(convert(black_box(source), target, 1 + (at * 7_919 % 100_000_000) as i64));
        }
        sum
    };
    vec![
        measure("a conversion, reckoned only", COUNT, || sum_of(plain::convert), || sum_of(proved::convert)),
        rounds("a conversion DEM to EUR, booked and carried", 2, 0, 0),
        rounds("a conversion DEM to FRF, booked and carried", 2, 4, 4),
    ]
}

fn rounds(what: &'static str, source: u64, target: u64, column: u64) -> Measured {
    const COUNT: u64 = 10_000;
    let amount = 12_345;
    measure(
        what,
        COUNT,
        || plain::convert_rounds(black_box(source), target, amount, COUNT, column),
        || proved::convert_rounds(black_box(source), target, amount, COUNT, column),
    )
}

fn lines() -> Vec<Measured> {
    const COUNT: u64 = 10_000;
    let post16: String = (0..8).map(|at| format!(" {} DEM -1234 {} DEM +1234", 10 + at, 20 + at)).collect();
    let split15: String = (0..15).map(|at| format!(" {}:{}", 20 + at, 1 + at)).collect();
    [
        ("a post of 2 legs", "post 10 DEM -1234 20 DEM +1234".to_string(), 2),
        ("a post of 16 legs", format!("post{post16}"), 2),
        ("a split among 3", "split 10 DEM 10000 20:1 21:1 22:1".to_string(), 2),
        ("a split among 15", format!("split 10 DEM 1000000{split15}"), 2),
    ]
    .into_iter()
    .map(|(what, line, column)| {
        let line = line.as_bytes();
        measure(
            what,
            COUNT,
            || plain::line_rounds(black_box(line), COUNT, 20, column),
            || proved::line_rounds(black_box(line), COUNT, 20, column),
        )
    })
    .collect()
}

fn transcripts() -> Vec<Measured> {
    let (mixed, posts) = (inputs::mixed(), inputs::posts());
    let mut output = vec![0u8; 1 << 20];
    let mut both = |what, input: &[u8], plain: fn(&[u8]) -> Vec<u8>, proved: fn(&[u8], &mut [u8]) -> usize| {
        let length = proved(input, &mut output);
        assert!(output[..length] == plain(input), "{what}: the transcripts differ");
        measure(what, 1, || plain(black_box(input)).len(), || proved(black_box(input), &mut output))
    };
    vec![
        both("transcript of mixed lines, sheet", &mixed, plain::sheet_transcript, proved::sheet_transcript),
        both("transcript of mixed lines, journal", &mixed, plain::journal_transcript, proved::journal_transcript),
        both("transcript of posts, sheet", &posts, plain::sheet_transcript, proved::sheet_transcript),
        both("transcript of posts, journal", &posts, plain::journal_transcript, proved::journal_transcript),
    ]
}

/// A time per unit, in a unit of time that suits it.
fn shown(time: Duration, units: u64) -> String {
    let nanoseconds = time.as_nanos() as f64 / units as f64;
    if nanoseconds < 10_000.0 {
        format!("{nanoseconds:.1} ns")
    } else {
        format!("{:.3} ms", nanoseconds / 1e6)
    }
}

fn table() {
    println!("| {:<44} | {:>10} | {:>10} | {:>5} |", "what", "plain Rust", "proved", "ratio");
    println!("|{:-<46}|{:->12}|{:->12}|{:->7}|", "", ":", ":", ":");
    for Measured { what, units, plain, proved } in conversions().into_iter().chain(lines()).chain(transcripts()) {
        let ratio = proved.as_secs_f64() / plain.as_secs_f64();
        println!("| {what:<44} | {:>10} | {:>10} | {ratio:>5.2} |", shown(plain, units), shown(proved, units));
    }
}

fn main() -> std::io::Result<()> {
    let words: Vec<String> = std::env::args().skip(1).collect();
    match words.iter().map(String::as_str).collect::<Vec<_>>().as_slice() {
        [] => table(),
        ["inputs", folder] => postings::write(std::path::Path::new(folder))?,
        _ => {
            eprintln!("usage: bench [inputs FOLDER]");
            std::process::exit(2);
        }
    }
    Ok(())
}
