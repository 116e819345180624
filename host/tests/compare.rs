//! The proved library beside the plain one: same answers, same words and same bytes, on many lists, sequences and damaged
//! records.

use panel_host::crews::{self, Crew, Rng};
use panel_host::*;
use std::collections::BTreeSet;

/// A call on a record.
#[derive(Clone, Copy, Debug)]
enum Call {
    Strike(u64),
    Restore(u64),
    Eliminate([u64; 4], u64, u64),
    Review([u64; 4]),
    Quality([u64; 4]),
    May(u64, u64),
    /// The crew text into so many bytes.
    Write(usize),
}

/// An answer's number and its results.
type Answer = (u64, u64, u64);

macro_rules! on {
    ($side:ident, $rec:expr, $text:expr, $call:expr) => {
        match $call {
            Call::Strike(k) => ($side::strike($rec, k).code, 0, 0),
            Call::Restore(k) => ($side::restore($rec, k).code, 0, 0),
            Call::Eliminate(w, a, b) => {
                let r = $side::eliminate($rec, w, a, b);
                (r.code, r.removed, r.examined)
            }
            Call::Review(w) => {
                let r = $side::review($rec, w);
                (r.code, r.restored, r.examined)
            }
            Call::Quality(w) => {
                let r = $side::quality($rec, w);
                (r.code, r.quality, 0)
            }
            Call::May(u, p) => {
                let r = $side::may($rec, u, p);
                (r.code, r.allowed, 0)
            }
            Call::Write(_) => {
                let r = $side::write_crew($rec, $text);
                (r.code, r.length, 0)
            }
        }
    };
}

impl Call {
    fn name(&self) -> &'static str {
        match self {
            Call::Strike(_) => "strike",
            Call::Restore(_) => "restore",
            Call::Eliminate(..) => "eliminate",
            Call::Review(_) => "review",
            Call::Quality(_) => "quality",
            Call::May(..) => "may",
            Call::Write(_) => "write_crew",
        }
    }

    /// The bytes that it is lent beside the record.
    fn lent(&self) -> Vec<u8> {
        let count = if let Call::Write(count) = self { *count } else { 0 };
        (0..count).map(|i| (i * 37 + 128) as u8).collect()
    }
}

/// Which call gave which number.
type Seen = BTreeSet<(&'static str, u64)>;

fn same_words(ours: &[u64], theirs: &[u64], context: &dyn std::fmt::Debug) {
    if let Some(i) = (0..ours.len()).find(|&i| ours[i] != theirs[i]) {
        panic!("word {i}: proved {:x}, plain {:x}, after {context:?}", ours[i], theirs[i]);
    }
}

/// The crew list in the words of a record; where n or m is past its limit, as far as there are words and digits.
fn crew_of(rec: &[u64]) -> Crew {
    let number = |i: usize, most| rec.get(i).map_or(1, |&number| number.min(most));
    let (n, m) = (number(0, 128), number(1, 256));
    let rows = (CREW..CREW + 4 * n as usize).map(|i| rec.get(i).copied().unwrap_or(0)).collect();
    Crew { n, m, rows }
}

/// Makes the call with both on a copy of the record each, compares everything, and leaves the record as they do.
fn both(rec: &mut [u64], call: Call, seen: &mut Seen, context: &dyn std::fmt::Debug) -> Answer {
    let (before, lent) = (rec.to_vec(), call.lent());
    let (mut other, mut text, mut other_text) = (rec.to_vec(), lent.clone(), lent.clone());
    let ours: Answer = on!(proved, rec, &mut text, call);
    let theirs: Answer = on!(plain, &mut other, &mut other_text, call);
    assert_eq!(ours, theirs, "{call:?} on {context:?}");
    same_words(rec, &other, &(call, context));
    assert!(text == other_text, "bytes: proved {text:?}, plain {other_text:?}, after {call:?} on {context:?}");
    if ours.0 != 0 {
        assert_eq!((ours.1, ours.2), (0, 0), "zeros beside a refusal: {call:?}");
        assert!(text == lent, "bytes as lent: {call:?} on {context:?}");
    }
    if ours.0 != 0 || matches!(call, Call::Quality(_) | Call::May(..) | Call::Write(_)) {
        same_words(rec, &before, &(call, context));
    }
    if ours.0 == 0 && matches!(call, Call::Write(_)) {
        let (written, beyond) = text.split_at(ours.1 as usize);
        assert!(written == crews::text(&crew_of(rec)), "the crew text: {call:?} on {context:?}");
        assert!(beyond == &lent[written.len()..], "bytes beyond the text: {call:?} on {context:?}");
    }
    seen.insert((call.name(), ours.0));
    ours
}

fn mined_by_both(n: u64, m: u64, rows: &[u64], length: usize, seen: &mut Seen) -> (MineAnswer, Vec<u64>) {
    let old: Vec<u64> = (0..length as u64).map(|i| i.wrapping_mul(0x1234_5678_9ABC_DEF1)).collect();
    let (mut ours, mut theirs) = (old.clone(), old.clone());
    let answer = proved::mine(n, m, rows, &mut ours);
    assert_eq!(answer, plain::mine(n, m, rows, &mut theirs), "mining {n} {m} {rows:x?}");
    same_words(&ours, &theirs, &("mining", n, m, rows));
    if answer.code != 0 {
        assert_eq!(answer.candidates, 0);
        same_words(&ours, &old, &("mining refused", n, m, rows));
    }
    seen.insert(("mine", answer.code));
    (answer, ours)
}

fn mined(crew: &Crew, seen: &mut Seen) -> Option<Vec<u64>> {
    let (answer, rec) = mined_by_both(crew.n, crew.m, &crew.rows, RECORD_WORDS, seen);
    (answer.code == 0).then_some(rec)
}

fn weights(rng: &mut Rng) -> [u64; 4] {
    let most = [1, 1, 3, 10, 1000][rng.below(5)];
    let mut w = [0; 4].map(|_: u64| rng.within(0, most) as u64);
    if rng.percent(30) {
        w = [1; 4];
    }
    if rng.percent(3) {
        w[rng.below(4)] = [1001, 1 << 63, u64::MAX, 1000][rng.below(4)];
    }
    w
}

fn tolerance(rng: &mut Rng) -> (u64, u64) {
    match rng.below(20) {
        0 => [
            (0, 0),
            (1, 0),
            (1, 2),
            (3, 1),
            (2001, 1000),
            (1001, 1001),
            (u64::MAX, u64::MAX),
            (2, 1 << 63),
            (0, 1 << 63),
        ][rng.below(9)],
        1 => [(2000, 1000), (1000, 1000), (2, 1), (1, 1)][rng.below(4)],
        2..=8 => (1, 1),
        _ => {
            let most = [4, 20, 1000][rng.below(3)];
            let b = rng.within(1, most);
            let most = [b + b / 4, 2 * b][rng.below(2)];
            (rng.within(b, most) as u64, b as u64)
        }
    }
}

fn number(rng: &mut Rng, end: u64) -> u64 {
    match rng.below(40) {
        0 => end,
        1 => [u64::MAX, 1 << 63, end + 1, 128, 256][rng.below(5)],
        _ => rng.below(end.max(1) as usize) as u64,
    }
}

/// How many bytes are lent for the crew text of a record: as many as it has, one less, some more or less, any, none.
fn bytes(rng: &mut Rng, rec: &[u64]) -> usize {
    let exact = crews::text(&crew_of(rec)).len();
    match rng.below(8) {
        0..=2 => exact,
        3 => exact - 1,
        4 => exact + rng.within(1, 40),
        5 => rng.below(exact),
        6 => CREW_BYTES + rng.below(2),
        _ => 0,
    }
}

fn any_call(rng: &mut Rng, rec: &[u64]) -> Call {
    let c = rec.get(2).copied().unwrap_or(1).min(129);
    match rng.below(21) {
        0..=7 => Call::Strike(number(rng, c)),
        8..=12 => Call::Restore(number(rng, c)),
        13..=14 => {
            let (a, b) = tolerance(rng);
            Call::Eliminate(weights(rng), a, b)
        }
        15..=16 => Call::Review(weights(rng)),
        17 => Call::Quality(weights(rng)),
        18 => Call::Write(bytes(rng, rec)),
        _ => Call::May(
            number(rng, rec.first().copied().unwrap_or(1).min(129)),
            number(rng, rec.get(1).copied().unwrap_or(1).min(257)),
        ),
    }
}

fn any_crew(rng: &mut Rng) -> Crew {
    let m = [
        rng.within(1, 12),
        rng.within(1, 64),
        rng.within(60, 70),
        rng.within(120, 135),
        rng.within(185, 200),
        rng.within(240, 256),
    ][rng.below(6)];
    match rng.below(9) {
        0 => {
            let (n, chance) = (rng.within(1, 7), rng.within(20, 90));
            crews::random_rows(rng, n, m, chance)
        }
        1 => {
            let (n, small) = (rng.within(1, 30), m.min(6));
            crews::random_rows(rng, n, small, 60)
        }
        2 => {
            let n = rng.within(1, 128);
            crews::random_rows(rng, n, m, 100 / m.max(2) + 1)
        }
        3 | 4 => {
            let (n, kinds, most) = (rng.within(2, 40), rng.within(2, 7), rng.within(1, 4));
            crews::tasks(rng, n, m, kinds, most)
        }
        5 | 6 => {
            let (n, groups) = (rng.within(2, 24), rng.within(1, 4));
            crews::nested_groups(rng, n, m, groups)
        }
        7 => {
            let n = rng.within(1, 7);
            crews::lacking_one(n, m.max(n))
        }
        _ => {
            let n = rng.within(1, 128);
            if rng.percent(50) && n < m {
                crews::antichain(n, m)
            } else {
                crews::nested_chain(n, m)
            }
        }
    }
}

fn sequence(rng: &mut Rng, crew: &Crew, calls: usize, seen: &mut Seen) {
    let Some(mut rec) = mined(crew, seen) else { return };
    let mut done = Vec::new();
    for _ in 0..calls {
        let call = any_call(rng, &rec);
        done.push(call);
        both(&mut rec, call, seen, &(crew, &done));
    }
}

/// Every call once on a record as it is; what it alters is not kept.
fn ask_all(rec: &[u64], rng: &mut Rng, seen: &mut Seen, context: &dyn std::fmt::Debug) -> u64 {
    let w = weights(rng);
    let (a, b) = tolerance(rng);
    let (k, u, p) = (number(rng, 128), number(rng, 128), number(rng, 256));
    let calls = [
        Call::Strike(k),
        Call::Restore(k),
        Call::Eliminate(w, a, b),
        Call::Review(w),
        Call::Quality(w),
        Call::May(u, p),
        Call::Write(bytes(rng, rec)),
    ];
    calls.map(|call| both(&mut rec.to_vec(), call, seen, context).0)[4]
}

const ONES: [u64; 4] = [1; 4];

#[test]
fn worked_cases() {
    let seen = &mut Seen::new();
    let fresh = mined(&crews::worked(), seen).expect("the worked list");
    let made = |calls: &[Call], seen: &mut Seen| -> Vec<Answer> {
        let mut rec = fresh.clone();
        calls.iter().map(|&call| both(&mut rec, call, seen, &"the worked list")).collect()
    };
    assert_eq!((0..4).map(|k| fresh[SETS + 4 * k]).collect::<Vec<_>>(), [2, 3, 6, 7]);
    assert_eq!((0..4).map(|k| fresh[PERMISSIONS + 4 * k]).collect::<Vec<_>>(), [2, 1, 4, 0]);
    assert_eq!((0..4).map(|k| fresh[MEMBERS + 2 * k]).collect::<Vec<_>>(), [0, 1, 2, 4]);
    assert_eq!((0..4).map(|k| fresh[JUNIORS + 2 * k]).collect::<Vec<_>>(), [0, 1, 1, 6]);
    assert_eq!(made(&[Call::Quality(ONES)], seen), [(0, 14, 0)]);
    assert_eq!(made(&[Call::Strike(0), Call::Quality(ONES)], seen)[1], (0, 12, 0));
    assert_eq!(made(&[Call::Strike(0), Call::Strike(3), Call::Quality(ONES)], seen)[2], (0, 10, 0));
    assert_eq!(made(&[Call::Strike(1), Call::Restore(0), Call::Strike(4)], seen), [(8, 0, 0), (7, 0, 0), (6, 0, 0)]);
    assert_eq!(made(&[Call::Eliminate(ONES, 1, 1), Call::Review(ONES)], seen), [(0, 2, 2), (0, 0, 2)]);
    // from the second pass on the worklist may hold roles that are no longer strikable
    let rows: Vec<crews::Row> = [36, 18, 18, 39, 20].map(|row| [row, 0, 0, 0]).to_vec();
    let mut rec = mined(&crews::crew(6, &rows), seen).expect("five rows");
    assert_eq!(both(&mut rec, Call::Eliminate([0, 1, 3, 0], 11, 10), seen, &"five rows"), (0, 2, 9));
}

#[test]
fn mining_and_its_refusals() {
    let (rng, seen) = (&mut Rng(1), &mut Seen::new());
    let answer = |crew: &Crew, seen: &mut Seen| mined_by_both(crew.n, crew.m, &crew.rows, RECORD_WORDS, seen).0;
    assert_eq!(answer(&crews::lacking_one(7, 7), seen), MineAnswer { code: 0, candidates: 126 });
    assert_eq!(answer(&crews::lacking_one(8, 8), seen).code, 4);
    assert_eq!(answer(&crews::full_table(), seen).candidates, 128);
    assert_eq!(answer(&crews::full_table_own(), seen).candidates, 128);
    assert_eq!(answer(&crews::nested_chain(128, 256), seen).candidates, 128);
    assert_eq!(answer(&crews::antichain(127, 256), seen).candidates, 128);
    assert_eq!(answer(&crews::antichain(128, 256), seen).code, 4);
    assert_eq!(answer(&crews::crew(256, &[[0; 4]; 128]), seen).candidates, 0);
    let row = crews::worked().rows;
    for length in [0, 1, 2055, 2057, 4112] {
        assert_eq!(mined_by_both(0, 0, &row, length, seen).0.code, 1);
    }
    for n in [0, 1, 3, 128, 129, 1 << 62, 1 << 63, u64::MAX] {
        for m in [0, 1, 3, 256, 257, 1 << 63, u64::MAX] {
            for length in [0, 4, 11, 12, 13, 512, 516] {
                let rows: Vec<u64> = (0..length).map(|i| if i < 12 { *row.get(i).unwrap_or(&0) } else { 0 }).collect();
                mined_by_both(n, m, &rows, RECORD_WORDS, seen);
            }
        }
    }
    for m in 1..=256 {
        for p in [m - 1, m, m + 1, 255] {
            let mut rows = [[0; 4]; 3];
            crews::put(&mut rows[rng.below(3)], p.min(255));
            mined_by_both(3, m as u64, &rows.concat(), RECORD_WORDS, seen);
        }
    }
    for _ in 0..20_000 {
        let crew = any_crew(rng);
        mined(&crew, seen);
    }
    assert_eq!(seen.iter().map(|s| s.1).collect::<Vec<_>>(), [0, 1, 2, 3, 4]);
}

#[test]
fn sequences_of_calls() {
    let (rng, seen) = (&mut Rng(2), &mut Seen::new());
    for _ in 0..12_000 {
        let crew = any_crew(rng);
        sequence(rng, &crew, 24, seen);
    }
    for crew in [crews::worked(), crews::tour(), crews::lacking_one(6, 6), crews::crew(9, &[[0; 4]; 5])] {
        for _ in 0..100 {
            sequence(rng, &crew, 60, seen);
        }
    }
    for crew in large() {
        for _ in 0..6 {
            sequence(rng, &crew, 60, seen);
        }
    }
    let expected = [
        ("strike", vec![0, 6, 7, 8]),
        ("restore", vec![0, 6, 7]),
        ("eliminate", vec![0, 9]),
        ("review", vec![0, 9]),
        ("quality", vec![0, 9]),
        ("may", vec![0, 6]),
        ("write_crew", vec![0, 11]),
        ("mine", vec![0, 4]),
    ];
    let expected: Seen = expected.iter().flat_map(|(name, codes)| codes.iter().map(|&code| (*name, code))).collect();
    assert_eq!(*seen, expected);
}

fn large() -> Vec<Crew> {
    vec![
        crews::lacking_one(7, 7),
        crews::full_table(),
        crews::full_table_own(),
        crews::nested_chain(128, 256),
        crews::antichain(127, 256),
    ]
}

#[test]
fn standing_sets_with_bare_grants() {
    let (rng, seen) = (&mut Rng(3), &mut Seen::new());
    let (mut sound, mut bare) = (0, 0);
    for round in 0..6_000 {
        let crew = any_crew(rng);
        let Some(fresh) = mined(&crew, seen) else { continue };
        let all = fresh[4] as u128 | (fresh[5] as u128) << 64;
        let mut standing = all;
        for _ in 0..rng.within(0, 6) {
            standing &= !(1 << rng.below(fresh[2].max(1) as usize));
        }
        if round % 7 == 0 {
            standing = all & (rng.word() as u128 | (rng.word() as u128) << 64);
        }
        let rec = plain::with_standing(crew.n, crew.m, &crew.rows, standing);
        match ask_all(&rec, rng, seen, &(&crew, standing)) {
            5 => bare += 1,
            _ => sound += 1,
        }
    }
    assert!(sound > 500 && bare > 500, "sound {sound}, bare {bare}");
}

#[test]
fn damaged_records() {
    let (rng, seen) = (&mut Rng(4), &mut Seen::new());
    let mut records: Vec<Vec<u64>> = Vec::new();
    for crew in large().into_iter().chain([crews::worked(), crews::tour(), crews::crew(9, &[[0; 4]; 5])]) {
        let mut rec = mined(&crew, seen).expect("a list that can be mined");
        records.push(rec.clone());
        both(&mut rec, Call::Eliminate(ONES, 1, 1), seen, &crew);
        records.push(rec);
    }
    let mut still_sound = 0;
    for (which, rec) in records.iter().enumerate() {
        // each word: one bit, and another number
        for i in 0..RECORD_WORDS {
            let mut damaged = rec.clone();
            damaged[i] ^= 1 << rng.below(64);
            ask_all(&damaged, rng, seen, &(which, i));
            let other = [0, 1, u64::MAX, rng.word(), damaged[rng.below(RECORD_WORDS)]][rng.below(5)];
            damaged[i] = other;
            ask_all(&damaged, rng, seen, &(which, i, other));
        }
        // the header's numbers
        for i in 0..8 {
            for value in (0..=260).chain([1 << 31, 1 << 32, 1 << 61, 1 << 62, 1 << 63, u64::MAX]) {
                let mut damaged = rec.clone();
                damaged[i] = value;
                let code = both(&mut damaged.clone(), Call::Quality(ONES), seen, &(which, i, value)).0;
                still_sound += (code == 0 && damaged != *rec) as u64;
            }
        }
        for length in [0, 1, 7, 8, 2055, 2057, 4112] {
            let mut other = rec.clone();
            other.resize(length, 0);
            assert_eq!(ask_all(&other, rng, seen, &(which, length)), 1);
        }
    }
    // damage in several places, and records that two lists share
    for _ in 0..20_000 {
        let mut damaged = records[rng.below(records.len())].clone();
        if rng.percent(30) {
            let other = &records[rng.below(records.len())];
            let (from, to) = (rng.below(RECORD_WORDS), rng.below(RECORD_WORDS));
            if from < to {
                damaged[from..to].copy_from_slice(&other[from..to]);
            }
        }
        for _ in 0..rng.within(0, 4) {
            let i = rng.below(RECORD_WORDS);
            damaged[i] ^= 1 << rng.below(64);
        }
        let call = any_call(rng, &damaged);
        both(&mut damaged, call, seen, &"damage in several places");
    }
    assert!(still_sound > 100, "a larger m, an added empty row: {still_sound}");
    for name in ["strike", "restore", "eliminate", "review", "quality", "may", "write_crew"] {
        assert!(seen.contains(&(name, 1)) && seen.contains(&(name, 5)), "{name}: 1 and 5");
    }
}

fn read_by_both(text: &[u8], length: usize, seen: &mut Seen) -> CrewRead {
    let old: Vec<u64> = (0..length as u64).map(|i| i.wrapping_mul(0x9876_5432_1FED_CBA9)).collect();
    let (mut ours, mut theirs) = (old.clone(), old.clone());
    let answer = proved::read_crew(text, &mut ours);
    assert_eq!(answer, plain::read_crew(text, &mut theirs), "{:?}", String::from_utf8_lossy(text));
    assert_eq!(ours, theirs, "{:?}", String::from_utf8_lossy(text));
    if answer.code != 0 {
        assert_eq!((answer.n, answer.m), (0, 0));
        assert_eq!(ours, old);
    }
    seen.insert(("read_crew", answer.code));
    answer
}

#[test]
fn crew_texts() {
    let (rng, seen) = (&mut Rng(5), &mut Seen::new());
    for (text, code) in [
        ("crew,3,3\n0,3\n1,6\n2,7\n", 0),
        ("crew,3,3\n0,3\n1,6\n2,8\n", 3),
        ("crew,129,3\n", 2),
        ("crew,129,3", 10),
        ("crew,3,257\n", 2),
        ("crew,0,3\n", 2),
        ("crew,0,01\n", 10),
        ("crew,1000,3\n", 10),
        ("crew,00,3\n", 10),
        ("crew,,3\n", 10),
        ("crew, 3,3\n", 10),
        ("Crew,1,1\n", 10),
        ("crew,1,1\n0,1\n\n", 10),
        ("crew,1,1\n0,2\n1,x\n", 3),
        ("crew,2,4\n0,f\n0,f\n", 10),
        ("crew,1,4\n0,F\n", 10),
        ("crew,1,4\r\n0,f\r\n", 10),
        ("crew,1,1\n00,1\n", 10),
        ("", 10),
        ("c", 10),
    ] {
        assert_eq!(read_by_both(text.as_bytes(), ROWS_WORDS, seen).code, code, "{text:?}");
        for length in [0, 511, 513] {
            assert_eq!(read_by_both(text.as_bytes(), length, seen).code, 3);
        }
    }
    for m in 1..=256 {
        for digit in 0..16 {
            let text = format!("crew,1,{m}\n0,{digit:x}{}\n", "0".repeat((m as usize - 1) / 4));
            let fits = digit >> ((m - 1) % 4 + 1) == 0;
            assert_eq!(read_by_both(text.as_bytes(), ROWS_WORDS, seen).code, if fits { 0 } else { 3 });
        }
    }
    for length in [16383, 16384, 16385, 40000] {
        let mut text = crews::text(&crews::full_table());
        text.resize(length, b'\n');
        assert_eq!(read_by_both(&text, ROWS_WORDS, seen).code, 10);
        assert_eq!(read_by_both(&vec![b'0'; length], ROWS_WORDS, seen).code, 10);
    }
    for _ in 0..60_000 {
        let crew = any_crew(rng);
        let mut text = crews::text(&crew);
        for _ in 0..rng.below(3) {
            let at = if rng.percent(30) { rng.below(14).min(text.len()) } else { rng.below(text.len() + 1) };
            let byte = b"0123456789abcdefg,\n\r \0-ABFcrew\xff"[rng.below(31)];
            match rng.below(6) {
                0 => text.insert(at, byte),
                1 if at < text.len() => drop(text.remove(at)),
                2 => text.truncate(at),
                3 => text.extend_from_slice(&[byte; 3][..rng.within(1, 3)]),
                _ if at < text.len() => text[at] = byte,
                _ => {}
            }
            if text.is_empty() {
                break;
            }
        }
        let answer = read_by_both(&text, ROWS_WORDS, seen);
        if text == crews::text(&crew) {
            assert_eq!(answer, CrewRead { code: 0, n: crew.n, m: crew.m });
        }
    }
    assert_eq!(seen.iter().map(|s| s.1).collect::<Vec<_>>(), [0, 2, 3, 10]);
}

/// A text read, mined and written back by one side, through nothing but its calls; the first refusal where there is one.
macro_rules! handed_back {
    ($side:ident, $text:expr) => {{
        let (mut rows, mut rec, mut back) = ([0; ROWS_WORDS], [0; RECORD_WORDS], [0; CREW_BYTES]);
        let read = $side::read_crew($text, &mut rows);
        let mined = $side::mine(read.n, read.m, &rows[..4 * read.n as usize], &mut rec);
        let written = $side::write_crew(&rec, &mut back);
        match [read.code, mined.code, written.code].into_iter().find(|code| *code != 0) {
            Some(code) => Err(code),
            None => Ok(back[..written.length as usize].to_vec()),
        }
    }};
}

/// Both sides give it back, and what they give back is the text itself.
fn comes_back(text: &[u8]) -> Result<(), u64> {
    let (ours, theirs) = (handed_back!(proved, text), handed_back!(plain, text));
    assert_eq!(ours, theirs, "{:?}", String::from_utf8_lossy(text));
    assert!(ours? == text, "{:?}", String::from_utf8_lossy(text));
    Ok(())
}

/// Request 1 of document 02, 'Hand the list back'.
#[test]
fn lists_handed_back() {
    let (rng, seen) = (&mut Rng(6), &mut Seen::new());
    let mut lists = large();
    lists.extend([crews::worked(), crews::tour(), crews::crew(256, &[[0; 4]; 128])]);
    for n in [1, 2, 9, 10, 11, 99, 100, 101, 127, 128] {
        for m in [1, 3, 4, 5, 63, 64, 65, 127, 128, 129, 191, 192, 193, 255, 256] {
            // three kinds of rows, so that there are few candidates
            let kinds = crews::random_rows(rng, 3, m, 50).rows;
            let rows: Vec<crews::Row> =
                (0..n).map(|u| kinds[u % 3 * 4..][..4].try_into().expect("four words")).collect();
            lists.push(crews::crew(m, &rows));
        }
    }
    for crew in &lists {
        let text = crews::text(crew);
        assert_eq!(comes_back(&text), Ok(()));
        let lent = [(text.len(), 0), (text.len() - 1, 11), (text.len() + 1, 0), (CREW_BYTES, 0), (0, 11)];
        let mut rec = mined(crew, seen).expect("a list that can be mined");
        // fresh, and after each edit: what stands makes no difference
        let none = Call::Quality(ONES);
        for edit in [none, Call::Strike(0), Call::Restore(0), Call::Eliminate(ONES, 1, 1), Call::Review(ONES)] {
            both(&mut rec, edit, seen, crew);
            for (count, code) in lent {
                assert_eq!(both(&mut rec, Call::Write(count), seen, crew).0, code);
            }
        }
    }
    let longest = lists.iter().map(|crew| crews::text(crew).len()).max();
    assert_eq!(longest, Some(CREW_BYTES));
    // every number of bytes for one list
    let mut rec = mined(&crews::tour(), seen).expect("a tour");
    let length = crews::text(&crews::tour()).len();
    for count in 0..2 * length {
        let answer = both(&mut rec, Call::Write(count), seen, &"a tour");
        assert_eq!(answer, if count < length { (11, 0, 0) } else { (0, length as u64, 0) });
    }
    // random lists, some with more than 128 candidates, and texts with one byte altered
    let mut codes = BTreeSet::new();
    for round in 0..12_000 {
        let mut text = crews::text(&any_crew(rng));
        if round % 3 == 0 {
            let at = rng.below(text.len());
            text[at] = b"0123456789abcdef,\n"[rng.below(18)];
        }
        codes.insert(comes_back(&text).err().unwrap_or(0));
    }
    assert_eq!(codes, BTreeSet::from([0, 2, 3, 4, 10]));
}
