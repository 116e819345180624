//! The memory budget of the header, held to what is measured: the stack of each call on the worst lists, the code and
//! data of the archive, and what it takes from outside. Prints each number beside the header's; every fault is one
//! line, and the exit is 1.

use panel_host::crews::{self, Crew, Rng};
use panel_host::*;
use std::arch::asm;
use std::collections::BTreeSet;
use std::process::{exit, Command};

const ARCHIVE: &str = concat!(env!("CARGO_MANIFEST_DIR"), "/../crates/panel_c/out/libpanel_c.a");
const HEADER: &str = include_str!("../../include/rolepanel.h");
const ONES: [u64; 4] = [1; 4];

fn main() {
    let mut faults = Vec::new();
    stacks(&mut faults);
    archive(&mut faults);
    for fault in &faults {
        eprintln!("host/tests/budget.rs: {fault}");
    }
    exit(!faults.is_empty() as i32);
}

/// The names that the header gives a value, each with it.
fn constants() -> impl Iterator<Item = (&'static str, &'static str)> {
    HEADER.lines().filter_map(|line| line.strip_prefix("#define ")?.split_once(' '))
}

/// The number that the header gives a name.
fn stated(name: &str) -> usize {
    let number = constants().find(|constant| constant.0 == name).and_then(|constant| constant.1.parse().ok());
    number.unwrap_or_else(|| panic!("the header has no number {name}"))
}

fn hold(name: &str, measured: usize, faults: &mut Vec<String>) {
    let most = stated(name);
    println!("{name:<22} {most:>6} bytes, measured {measured:>6}");
    if measured > most {
        faults.push(format!("{name} is {most}, and {measured} bytes are needed"));
    }
}

// ---- stack

/// A stack that is painted, so that it can be seen afterwards how far down the calls made on it went.
struct Stack(Vec<u128>);

const PAINT: u128 = 0x5CA1_AB1E_0DDB_A115_CA1A_B1E0_DDBA_115C;

impl Stack {
    fn painted() -> Stack {
        Stack(vec![PAINT; 1 << 15])
    }

    /// Makes a call with nothing but it on this stack. What hands it over is counted with it: some tens of bytes.
    fn call<A, F: FnMut() -> A>(&mut self, mut call: F) {
        extern "C" fn make<A, F: FnMut() -> A>(call: &mut F) {
            call();
        }
        // SAFETY: the stack is aligned, nobody else's, and far longer than a call needs; the old one comes back.
        unsafe {
            asm!(
                "mov r12, rsp",
                "mov rsp, {top}",
                "call {make}",
                "mov rsp, r12",
                top = in(reg) self.0.as_mut_ptr_range().end,
                make = sym make::<A, F>,
                in("rdi") &mut call,
                out("r12") _,
                clobber_abi("C"),
            );
        }
    }

    /// The bytes from the top to the lowest that was written to.
    fn used(&self) -> usize {
        let untouched = self.0.iter().take_while(|&&words| words == PAINT).count();
        assert!(untouched > self.0.len() / 2, "the calls came near the end of their stack");
        16 * (self.0.len() - untouched)
    }
}

/// The lists of `crews`: at the limits of n, m, c and of links, small ones, and some that are refused.
fn lists() -> Vec<Crew> {
    let rng = &mut Rng(6);
    vec![
        crews::worked(),
        crews::tour(),
        crews::lacking_one(7, 7),
        crews::lacking_one(8, 8),
        crews::lacking_blocks(112, 7, 36),
        crews::nested_chain(128, 256),
        crews::antichain(127, 256),
        crews::full_table(),
        crews::full_table_own(),
        crews::random_rows(rng, 7, 256, 50),
        crews::tasks(rng, 128, 256, 4, 4),
        crews::nested_groups(rng, 24, 256, 3),
        crews::crew(256, &[[0; 4]; 128]),
    ]
}

/// The records of these lists, fresh and eliminated; for each part, one that is damaged there; and two that are none.
fn records(lists: &[Crew]) -> Vec<Vec<u64>> {
    let rng = &mut Rng(7);
    let mut records = vec![vec![0; RECORD_WORDS], vec![0; RECORD_WORDS - 1]];
    let parts = [0, CREW, SETS, PERMISSIONS, MEMBERS, JUNIORS, RECORD_WORDS];
    for crew in lists {
        let mut record = vec![0; RECORD_WORDS];
        if plain::mine(crew.n, crew.m, &crew.rows, &mut record).code != 0 {
            continue;
        }
        records.push(record.clone());
        plain::eliminate(&mut record, ONES, 1, 1);
        records.push(record.clone());
        for part in parts.windows(2) {
            let mut damaged = record.clone();
            damaged[rng.within(part[0], part[1] - 1)] ^= 1 << rng.below(64);
            records.push(damaged);
        }
    }
    records
}

/// The stack of a call that is made on a copy of each record, with each number below a limit.
fn on_each<A>(records: &[Vec<u64>], numbers: u64, call: impl Fn(&mut [u64], u64) -> A) -> usize {
    let mut stack = Stack::painted();
    for record in records {
        for number in 0..numbers {
            let mut copy = record.clone();
            stack.call(|| call(&mut copy, number));
        }
    }
    stack.used()
}

fn mining(lists: &[Crew]) -> usize {
    let (mut stack, mut record) = (Stack::painted(), vec![0; RECORD_WORDS]);
    for crew in lists {
        stack.call(|| proved::mine(crew.n, crew.m, &crew.rows, &mut record));
    }
    stack.used()
}

/// The texts of the lists, and each with a byte too many.
fn reading(lists: &[Crew]) -> usize {
    let (mut stack, mut rows) = (Stack::painted(), vec![0; ROWS_WORDS]);
    for crew in lists {
        let mut text = crews::text(crew);
        stack.call(|| proved::read_crew(&text, &mut rows));
        text.push(b'\n');
        stack.call(|| proved::read_crew(&text, &mut rows));
    }
    stack.used()
}

/// The crew text of each record into as many bytes as it has, into one too few, and into a buffer that takes any; where
/// there is none, into no bytes.
fn writing(records: &[Vec<u64>]) -> usize {
    let (mut stack, mut text) = (Stack::painted(), vec![0; stated("PANEL_CREW_BYTES")]);
    for record in records {
        let length = plain::write_crew(record, &mut text).length as usize;
        for count in [length, length.saturating_sub(1), text.len()] {
            stack.call(|| proved::write_crew(record, &mut text[..count]));
        }
    }
    stack.used()
}

fn stacks(faults: &mut Vec<String>) {
    let lists = lists();
    let records = records(&lists);
    let measured = [
        ("PANEL_STACK_MINE", mining(&lists)),
        ("PANEL_STACK_STRIKE", on_each(&records, 129, proved::strike)),
        ("PANEL_STACK_RESTORE", on_each(&records, 129, proved::restore)),
        ("PANEL_STACK_ELIMINATE", on_each(&records, 3, |rec, above| proved::eliminate(rec, ONES, 1 + above, 1))),
        ("PANEL_STACK_REVIEW", on_each(&records, 2, |rec, weight| proved::review(rec, [weight; 4]))),
        ("PANEL_STACK_QUALITY", on_each(&records, 1, |rec, _| proved::quality(rec, ONES))),
        ("PANEL_STACK_MAY", on_each(&records, 129, |rec, u| proved::may(rec, u, 2 * u))),
        ("PANEL_STACK_READ_CREW", reading(&lists)),
        ("PANEL_STACK_WRITE_CREW", writing(&records)),
    ];
    for (name, used) in measured {
        hold(name, used, faults);
    }
    for (name, _) in constants().filter(|(name, _)| name.starts_with("PANEL_STACK_") && *name != "PANEL_STACK_ANY") {
        if !measured.iter().any(|(other, _)| *other == name) {
            faults.push(format!("{name} is in the header and not measured"));
        }
    }
}

// ---- the archive

/// What a program of the binutils prints about the archive.
fn told(program: &str, words: &[&str]) -> String {
    let output = Command::new(program).args(words).arg(ARCHIVE).output();
    let output = output.unwrap_or_else(|error| panic!("{program}: {error}: install GNU binutils"));
    assert!(output.status.success(), "{program}: {}", String::from_utf8_lossy(&output.stderr));
    String::from_utf8(output.stdout).expect("the binutils print ASCII")
}

/// Bytes of code and constants, and of data.
fn sizes() -> (usize, usize) {
    let printed = told("size", &["--totals"]);
    let totals = printed.lines().last().expect("a line of totals");
    let numbers: Vec<usize> = totals.split_whitespace().map_while(|word| word.parse().ok()).collect();
    (numbers[0], numbers[1] + numbers[2])
}

/// The names that the archive gives, and those that it takes from outside.
fn names() -> (BTreeSet<String>, BTreeSet<String>) {
    let printed = told("nm", &["--extern-only", "--format=posix"]);
    let symbols = printed.lines().filter_map(|line| line.split_once(' '));
    let (used, given): (Vec<_>, Vec<_>) = symbols.partition(|(_, kind)| kind.starts_with('U'));
    let names = |symbols: Vec<(&str, &str)>| symbols.iter().map(|(name, _)| name.to_string()).collect();
    let (used, given): (BTreeSet<_>, BTreeSet<_>) = (names(used), names(given));
    let taken = &used - &given;
    (given, taken)
}

fn archive(faults: &mut Vec<String>) {
    let (code, data) = sizes();
    hold("PANEL_CODE_BYTES", code, faults);
    if data != 0 {
        faults.push(format!("the archive has {data} bytes of data"));
    }
    let (given, taken) = names();
    println!("from outside: {taken:?}");
    if taken != BTreeSet::from(["memcpy".to_string(), "memset".to_string()]) {
        faults.push(format!("the archive needs other names than memcpy and memset: {taken:?}"));
    }
    if let Some(name) = given.iter().find(|name| !name.starts_with("panel_")) {
        faults.push(format!("the archive gives a name that is no call: {name}"));
    }
}
