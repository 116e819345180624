//! The time of each call on each list: the proved library and the plain build side by side, as a table.
//!
//! A time is the median of many samples, and the two sides take turns sample by sample, so that whatever else the
//! machine does meets both. A call that edits starts from a copy of the same record each time; the copy is not timed.
//! Words after the program's name pick rows: those that have each of them in list or call.

use panel_host::crews::{self, Crew};
use panel_host::*;
use std::hint::black_box;
use std::time::Instant;

const SAMPLES: usize = 201;
const BATCH_NS: f64 = 40_000.0;
const ONES: [u64; 4] = [1; 4];

/// What is timed: everything that the calls of one list need.
struct Bench {
    crew: Crew,
    text: Vec<u8>,
    fresh: Vec<u64>,
    /// The record after an elimination with weights 1 and tolerance 1/1.
    eliminated: Vec<u64>,
    /// A role that can be struck from the fresh record, or 0; and a role that is absent after elimination.
    strike: u64,
    restore: Option<u64>,
}

impl Bench {
    fn new(crew: Crew) -> Bench {
        let mut fresh = vec![0; RECORD_WORDS];
        assert_eq!(plain::mine(crew.n, crew.m, &crew.rows, &mut fresh).code, 0);
        let strike = (0..fresh[2]).rev().find(|&k| plain::strike(&mut fresh.clone(), k).code == 0);
        let mut eliminated = fresh.clone();
        plain::eliminate(&mut eliminated, ONES, 1, 1);
        let restore = (0..fresh[2]).rev().find(|k| eliminated[4 + *k as usize / 64] >> (k % 64) & 1 == 0);
        Bench { text: crews::text(&crew), crew, fresh, eliminated, strike: strike.unwrap_or(0), restore }
    }
}

/// One side of a comparison: makes so many calls and gives the mean time of one, in nanoseconds.
type Timed<'a> = Box<dyn FnMut(usize) -> f64 + 'a>;

/// Calls that write, each on its own copy of the record.
fn edits<'a, A>(from: &'a [u64], call: impl Fn(&mut [u64]) -> A + 'a) -> Timed<'a> {
    let mut copies: Vec<Vec<u64>> = Vec::new();
    Box::new(move |calls| {
        copies.resize_with(calls, || vec![0; RECORD_WORDS]);
        copies.iter_mut().for_each(|copy| copy.copy_from_slice(from));
        let start = Instant::now();
        for copy in copies.iter_mut() {
            black_box(call(black_box(copy)));
        }
        start.elapsed().as_nanos() as f64 / calls as f64
    })
}

/// Calls that leave the record as it is.
fn reads<'a, A>(mut call: impl FnMut() -> A + 'a) -> Timed<'a> {
    Box::new(move |calls| {
        let start = Instant::now();
        for _ in 0..calls {
            black_box(call());
        }
        start.elapsed().as_nanos() as f64 / calls as f64
    })
}

fn median(times: &mut [f64]) -> f64 {
    times.sort_by(f64::total_cmp);
    times[times.len() / 2]
}

/// The medians of both sides.
fn compare(mut proved: Timed, mut plain: Timed) -> (f64, f64) {
    let once = proved(3).max(plain(3)).max(1.0);
    // few enough copies to stay in the cache: 8 records are 128 KB
    let calls = ((BATCH_NS / once) as usize).clamp(1, 8);
    let (mut ours, mut theirs) = (vec![], vec![]);
    for _ in 0..SAMPLES {
        ours.push(proved(calls));
        theirs.push(plain(calls));
    }
    (median(&mut ours), median(&mut theirs))
}

macro_rules! both {
    ($side:ident => $timed:expr) => {{
        let ours = {
            use panel_host::proved as $side;
            $timed
        };
        let theirs = {
            use panel_host::plain as $side;
            $timed
        };
        compare(ours, theirs)
    }};
}

fn told(ns: f64) -> String {
    if ns < 10_000.0 {
        format!("{:.2} µs", ns / 1000.0)
    } else {
        format!("{:.1} µs", ns / 1000.0)
    }
}

const CALLS: [&str; 10] = [
    "read_crew",
    "mine",
    "strike",
    "restore",
    "eliminate 1/1",
    "eliminate 2/1",
    "review",
    "quality",
    "may",
    "write_crew",
];

/// The medians of a call on a list; none where nothing can be restored.
fn times(b: &Bench, call: &str) -> Option<(f64, f64)> {
    let (n, m) = (b.crew.n, b.crew.m);
    let times = match call {
        "read_crew" => both!(side => edits(&b.fresh, |rec| side::read_crew(&b.text, &mut rec[..ROWS_WORDS]))),
        "mine" => both!(side => edits(&b.fresh, |rec| side::mine(n, m, &b.crew.rows, rec))),
        "strike" => both!(side => edits(&b.fresh, |rec| side::strike(rec, b.strike))),
        "restore" => {
            let k = b.restore?;
            both!(side => edits(&b.eliminated, |rec| side::restore(rec, k)))
        }
        "eliminate 1/1" => both!(side => edits(&b.fresh, |rec| side::eliminate(rec, ONES, 1, 1))),
        "eliminate 2/1" => both!(side => edits(&b.fresh, |rec| side::eliminate(rec, ONES, 2, 1))),
        "review" => both!(side => edits(&b.eliminated, |rec| side::review(rec, ONES))),
        "quality" => both!(side => reads(|| side::quality(black_box(&b.fresh), ONES))),
        "may" => both!(side => reads(|| side::may(black_box(&b.fresh), n - 1, 0))),
        "write_crew" => both!(side => {
            let mut text = vec![0; CREW_BYTES];
            reads(move || side::write_crew(black_box(&b.fresh), black_box(&mut text)))
        }),
        _ => return None,
    };
    Some(times)
}

/// Each call on each list, and the ratio of the two sides.
fn compared(wanted: &[String]) {
    let lists = [
        ("worked example, 3 × 3", crews::worked()),
        ("tour, 12 × 40", crews::tour()),
        ("7 × 7 lacking one", crews::lacking_one(7, 7)),
        ("128 × 256, 8 rows", crews::full_table()),
        ("128 × 256, own rows", crews::full_table_own()),
        ("nested chain, 128 × 256", crews::nested_chain(128, 256)),
        ("antichain, 127 × 256", crews::antichain(127, 256)),
    ];
    println!("| list | c | call | proved | plain | ratio |");
    println!("|---|---|---|---|---|---|");
    let mut ratios = Vec::new();
    for (name, crew) in lists {
        let b = Bench::new(crew);
        for call in CALLS {
            let title = format!("{name}, {call}");
            if !wanted.iter().all(|word| title.contains(word)) {
                continue;
            }
            let Some((ours, theirs)) = times(&b, call) else { continue };
            let ratio = ours / theirs;
            println!("| {name} | {} | {call} | {} | {} | {ratio:.2} |", b.fresh[2], told(ours), told(theirs));
            ratios.push((ratio, title));
        }
    }
    ratios.sort_by(|a, b| a.0.total_cmp(&b.0));
    if let Some((largest, title)) = ratios.last() {
        let above = ratios.iter().filter(|(ratio, _)| *ratio > 4.0).count();
        println!();
        println!(
            "{} ratios: median {:.2}, largest {largest:.2} ({title}), above 4: {above}",
            ratios.len(),
            ratios[ratios.len() / 2].0
        );
    }
}

/// How the time grows with n, m and c: proved / plain.
fn growth() {
    let calls = ["mine", "quality", "eliminate 1/1", "review"];
    println!();
    println!("| grows | n | m | c | {} |", calls.join(" | "));
    println!("|---|---|---|---|---|---|---|---|");
    let mut lists = Vec::new();
    lists.extend([7, 14, 28, 56, 112].map(|n| ("n, lacking blocks", crews::lacking_blocks(n, 7, 36))));
    lists.extend([1, 4, 9, 18, 36].map(|size| ("m, lacking blocks", crews::lacking_blocks(7, 7, size))));
    lists.extend(
        [2, 3, 4, 5, 6, 7].map(|blocks| ("c, lacking blocks", crews::lacking_blocks(blocks, blocks, 252 / blocks))),
    );
    lists.extend([8, 16, 32, 64, 128].map(|n| ("n and c, nested chain", crews::nested_chain(n, 256))));
    for (name, crew) in lists {
        let b = Bench::new(crew);
        print!("| {name} | {} | {} | {} |", b.crew.n, b.crew.m, b.fresh[2]);
        for call in calls {
            let (ours, theirs) = times(&b, call).expect("a call for every list");
            print!(" {} / {} |", told(ours), told(theirs));
        }
        println!();
    }
}

fn main() {
    let wanted: Vec<String> = std::env::args().skip(1).collect();
    compared(&wanted);
    if wanted.is_empty() {
        growth();
    }
}
