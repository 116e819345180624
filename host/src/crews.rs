//! Crew lists for the tests and the benchmark: n, m and the rows, four words each.

pub type Row = [u64; 4];

#[derive(Clone, Debug)]
pub struct Crew {
    pub n: u64,
    pub m: u64,
    pub rows: Vec<u64>,
}

/// A random source with a seed (splitmix64).
pub struct Rng(pub u64);

impl Rng {
    pub fn word(&mut self) -> u64 {
        self.0 = self.0.wrapping_add(0x9E37_79B9_7F4A_7C15);
        let mut z = self.0;
        z = (z ^ z >> 30).wrapping_mul(0xBF58_476D_1CE4_E5B9);
        z = (z ^ z >> 27).wrapping_mul(0x94D0_49BB_1331_11EB);
        z ^ z >> 31
    }

    /// A number below `end`.
    pub fn below(&mut self, end: usize) -> usize {
        (self.word() % end as u64) as usize
    }

    /// A number from `low` to `high`.
    pub fn within(&mut self, low: usize, high: usize) -> usize {
        low + self.below(high - low + 1)
    }

    pub fn percent(&mut self, chance: usize) -> bool {
        self.below(100) < chance
    }
}

pub fn put(row: &mut Row, p: usize) {
    row[p / 64] |= 1 << (p % 64);
}

pub fn union(a: &Row, b: &Row) -> Row {
    [a[0] | b[0], a[1] | b[1], a[2] | b[2], a[3] | b[3]]
}

/// The set of the first `count` items.
pub fn first(count: usize) -> Row {
    let mut row = [0; 4];
    (0..count).for_each(|p| put(&mut row, p));
    row
}

pub fn crew(m: usize, rows: &[Row]) -> Crew {
    Crew { n: rows.len() as u64, m: m as u64, rows: rows.concat() }
}

/// Document 01's worked list.
pub fn worked() -> Crew {
    crew(3, &[[3, 0, 0, 0], [6, 0, 0, 0], [7, 0, 0, 0]])
}

/// User i lacks only permission i of m.
pub fn lacking_one(n: usize, m: usize) -> Crew {
    let rows: Vec<Row> = (0..n)
        .map(|i| {
            let mut row = first(m);
            row[i / 64] &= !(1 << (i % 64));
            row
        })
        .collect();
    crew(m, &rows)
}

/// User u lacks only one of these blocks of permissions, that of number u mod `blocks`; 2^blocks - 2 candidates where
/// each block is lacked.
pub fn lacking_blocks(n: usize, blocks: usize, size: usize) -> Crew {
    let m = blocks * size;
    let rows: Vec<Row> = (0..n)
        .map(|u| {
            let mut row = [0; 4];
            (0..m).filter(|p| p / size != u % blocks).for_each(|p| put(&mut row, p));
            row
        })
        .collect();
    crew(m, &rows)
}

/// Each row lies within the next, and the last has all.
pub fn nested_chain(n: usize, m: usize) -> Crew {
    let rows: Vec<Row> = (0..n).map(|u| first((u + 1) * m / n)).collect();
    crew(m, &rows)
}

/// No row within another: each user holds permission 0 and one of their own; n + 1 candidates.
pub fn antichain(n: usize, m: usize) -> Crew {
    let rows: Vec<Row> = (0..n)
        .map(|u| {
            let mut row = first(1);
            put(&mut row, m - 1 - u);
            row
        })
        .collect();
    crew(m, &rows)
}

/// 128 users on 256 permissions with 128 candidates, mined from eight rows: seven lack one block of 32, one lacks none.
pub fn full_table() -> Crew {
    let rows: Vec<Row> = (0..128)
        .map(|u| {
            let mut row = first(256);
            if u % 8 < 7 {
                (0..32).map(|i| 32 * (u % 8) + i).for_each(|p| row[p / 64] &= !(1 << (p % 64)));
            }
            row
        })
        .collect();
    crew(256, &rows)
}

/// The same 128 candidates, each one the row of one user, in a scattered order.
pub fn full_table_own() -> Crew {
    let rows: Vec<Row> = (0..128)
        .map(|u| {
            let lacking = (u * 37 + 11) % 128;
            let mut row = [0; 4];
            (0..256).filter(|p| p / 32 == 7 || lacking >> (p / 32) & 1 == 0).for_each(|p| put(&mut row, p));
            row
        })
        .collect();
    crew(256, &rows)
}

/// Each permission is held with the given chance.
pub fn random_rows(rng: &mut Rng, n: usize, m: usize, chance: usize) -> Crew {
    let rows: Vec<Row> = (0..n)
        .map(|_| {
            let mut row = [0; 4];
            (0..m).filter(|_| rng.percent(chance)).for_each(|p| put(&mut row, p));
            row
        })
        .collect();
    crew(m, &rows)
}

/// Each row is the union of a few of some tasks, which are scattered sets.
pub fn tasks(rng: &mut Rng, n: usize, m: usize, kinds: usize, most: usize) -> Crew {
    let share = rng.within(3, 25);
    let pool: Vec<Row> = (0..kinds)
        .map(|_| {
            let mut set = [0; 4];
            put(&mut set, rng.below(m));
            (0..m).filter(|_| rng.percent(share)).for_each(|p| put(&mut set, p));
            set
        })
        .collect();
    let rows: Vec<Row> =
        (0..n).map(|_| (0..rng.within(1, most)).fold([0; 4], |row, _| union(&row, &pool[rng.below(kinds)]))).collect();
    crew(m, &rows)
}

/// Each user holds the first so many permissions of one or two of these groups, which share the permissions out.
pub fn nested_groups(rng: &mut Rng, n: usize, m: usize, groups: usize) -> Crew {
    let rows: Vec<Row> = (0..n)
        .map(|_| {
            let mut row = [0; 4];
            for _ in 0..rng.within(1, 2) {
                let group = rng.below(groups);
                let own: Vec<usize> = (group..m).step_by(groups).collect();
                if !own.is_empty() {
                    own[..rng.within(1, own.len())].iter().for_each(|&p| put(&mut row, p));
                }
            }
            row
        })
        .collect();
    crew(m, &rows)
}

/// A tour of 12 users and 40 permissions: everyone has the basic ones, and a few of eight tasks.
pub fn tour() -> Crew {
    let mut rng = Rng(2026);
    let pool: Vec<Row> = (0..8)
        .map(|task| {
            let mut set = [0; 4];
            (0..7).for_each(|i| put(&mut set, 4 + (task * 4 + i * 3) % 36));
            set
        })
        .collect();
    let rows: Vec<Row> =
        (0..12).map(|_| (0..rng.within(1, 4)).fold(first(4), |row, _| union(&row, &pool[rng.below(8)]))).collect();
    crew(40, &rows)
}

/// A crew text.
pub fn text(crew: &Crew) -> Vec<u8> {
    let digits = crew.m.div_ceil(4) as usize;
    let mut lines = format!("crew,{},{}\n", crew.n, crew.m);
    for (u, row) in crew.rows.chunks(4).enumerate() {
        let all = format!("{:016x}{:016x}{:016x}{:016x}", row[3], row[2], row[1], row[0]);
        lines += &format!("{},{}\n", u, &all[64 - digits..]);
    }
    lines.into_bytes()
}
