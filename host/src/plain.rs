//! The calls of the panel written for speed and without proofs, from documents 01 and 02: what a good programmer would
//! link if there were no proved library. Sets of roles and of users are u128, sets of permissions four words.
//!
//! What it rests on: a proper subset has a lower number; the users of a role are those whose own role (the candidate
//! that equals their row) is it or above it; permission p is in a role exactly when the first candidate that holds p is
//! it or below it. So a grant's covers are an interval between two candidates.

use crate::*;

type Set = [u64; 4];

const EMPTY: Set = [0; 4];

fn meet(a: &Set, b: &Set) -> Set {
    [a[0] & b[0], a[1] & b[1], a[2] & b[2], a[3] & b[3]]
}

fn less(a: &Set, b: &Set) -> Set {
    [a[0] & !b[0], a[1] & !b[1], a[2] & !b[2], a[3] & !b[3]]
}

fn add(a: &mut Set, b: &Set) {
    for i in 0..4 {
        a[i] |= b[i];
    }
}

fn is_empty(a: &Set) -> bool {
    a[0] | a[1] | a[2] | a[3] == 0
}

/// Word by word without a branch; the language's own comparison of arrays calls a function.
fn same(a: &Set, b: &Set) -> bool {
    (a[0] ^ b[0]) | (a[1] ^ b[1]) | (a[2] ^ b[2]) | (a[3] ^ b[3]) == 0
}

fn size(a: &Set) -> u64 {
    a.iter().map(|w| w.count_ones() as u64).sum()
}

fn value_order(a: &Set, b: &Set) -> std::cmp::Ordering {
    a.iter().rev().cmp(b.iter().rev())
}

fn set_at(words: &[u64], at: usize) -> Set {
    [words[at], words[at + 1], words[at + 2], words[at + 3]]
}

fn roles_at(words: &[u64], at: usize) -> u128 {
    words[at] as u128 | (words[at + 1] as u128) << 64
}

fn put_roles(words: &mut [u64], at: usize, roles: u128) {
    words[at] = roles as u64;
    words[at + 1] = (roles >> 64) as u64;
}

fn lowest(roles: u128) -> usize {
    roles.trailing_zeros() as usize
}

fn highest(roles: u128) -> usize {
    127 - roles.leading_zeros() as usize
}

fn bit(k: usize) -> u128 {
    1 << k
}

fn all_below(count: usize) -> u128 {
    if count == 128 {
        u128::MAX
    } else {
        bit(count) - 1
    }
}

/// The items of a set, growing.
fn items(mut roles: u128) -> impl Iterator<Item = usize> {
    std::iter::from_fn(move || {
        (roles != 0).then(|| {
            let k = lowest(roles);
            roles &= roles - 1;
            k
        })
    })
}

fn swap<const BY: usize>(a: &mut [u128; 128], mask: u128) {
    let mut i = 0;
    while i < 128 {
        for k in i..i + BY {
            let t = (a[k] >> BY ^ a[k + BY]) & mask;
            a[k + BY] ^= t;
            a[k] ^= t << BY;
        }
        i += 2 * BY;
    }
}

/// Bit i of entry j becomes bit j of entry i; the entries at `count` and above are zero.
fn transposed(from: &[u128; 128], count: usize) -> [u128; 128] {
    if count <= 24 {
        let mut to = [0; 128];
        for (j, &entry) in from.iter().enumerate().take(count) {
            items(entry).for_each(|i| to[i] |= bit(j));
        }
        return to;
    }
    let mut a = *from;
    swap::<64>(&mut a, u64::MAX as u128);
    swap::<32>(&mut a, u128::MAX / 0x1_0000_0001);
    swap::<16>(&mut a, u128::MAX / 0x1_0001);
    swap::<8>(&mut a, u128::MAX / 0x101);
    swap::<4>(&mut a, u128::MAX / 0x11);
    swap::<2>(&mut a, u128::MAX / 5);
    swap::<1>(&mut a, u128::MAX / 3);
    a
}

// ---- mining ----------------------------------------------------------------------------------------------------

const SLOTS: usize = 512;
const FREE: u8 = 255;

/// The candidates as they are found, and a hash table of their places.
struct Found {
    sets: [Set; 128],
    count: usize,
    slots: [u8; SLOTS],
}

/// Where a set is, or else the slot that it would take.
enum Place {
    At(usize),
    Slot(usize),
}

impl Found {
    fn place(&self, set: &Set) -> Place {
        let mixed = set[0]
            .wrapping_mul(0x9E37_79B9_7F4A_7C15)
            .wrapping_add(set[1].wrapping_mul(0xC2B2_AE3D_27D4_EB4F))
            .wrapping_add(set[2].wrapping_mul(0x1656_67B1_9E37_79F9))
            .wrapping_add(set[3].wrapping_mul(0xD6E8_FEB8_6659_FD93));
        let mut slot = ((mixed ^ mixed >> 32).wrapping_mul(0x9E37_79B9_7F4A_7C15) >> 55) as usize;
        loop {
            match self.slots[slot] {
                FREE => return Place::Slot(slot),
                i if same(&self.sets[i as usize], set) => return Place::At(i as usize),
                _ => slot = (slot + 1) % SLOTS,
            }
        }
    }

    /// Puts in a set that is not there yet, whose slot this is; says whether there was room.
    fn insert(&mut self, slot: usize, set: &Set) -> bool {
        if self.count == 128 {
            return false;
        }
        self.sets[self.count] = *set;
        self.slots[slot] = self.count as u8;
        self.count += 1;
        true
    }
}

/// All nonempty intersections of one or more rows, in no order; none when there are more than 128.
fn closure(rows: &[u64]) -> Option<Found> {
    let mut found = Found { sets: [EMPTY; 128], count: 0, slots: [FREE; SLOTS] };
    for at in (0..rows.len()).step_by(4) {
        let row = set_at(rows, at);
        if is_empty(&row) {
            continue;
        }
        let Place::Slot(_) = found.place(&row) else { continue };
        let mut last = EMPTY;
        for i in 0..found.count {
            let both = meet(&found.sets[i], &row);
            if same(&both, &found.sets[i]) || same(&both, &row) || is_empty(&both) || same(&both, &last) {
                continue;
            }
            last = both;
            if let Place::Slot(slot) = found.place(&both) {
                if !found.insert(slot, &both) {
                    return None;
                }
            }
        }
        let Place::Slot(slot) = found.place(&row) else { unreachable!("a row that was not there") };
        if !found.insert(slot, &row) {
            return None;
        }
    }
    Some(found)
}

// ---- what follows from a crew list, whatever stands ------------------------------------------------------------

struct Index {
    c: usize,
    sets: [Set; 128],
    /// The candidates properly within k.
    lower: [u128; 128],
    /// A(k).
    users: [u128; 128],
    /// The candidate that equals each user's row, and NONE where the row is empty.
    own_of: [u8; 128],
    /// The candidates that equal some user's row.
    own: u128,
}

const NONE: u8 = 255;

impl Index {
    /// From the candidates in their order, and the candidate that equals each user's row.
    fn new(sets: [Set; 128], c: usize, own_of: impl Iterator<Item = u8>) -> Index {
        let mut index = Index { c, sets, lower: [0; 128], users: [0; 128], own_of: [NONE; 128], own: 0 };
        let mut users = 0;
        for k in own_of {
            index.own_of[users] = k;
            users += 1;
            if k != NONE {
                index.own |= bit(k as usize);
            }
        }
        for k in (0..c).rev() {
            index.lower[k] = if index.own & bit(k) != 0 { index.subsets(k) } else { index.shared(k) };
        }
        let mut roles_of_user = [0; 128];
        for (roles, &k) in roles_of_user.iter_mut().zip(&index.own_of[..users]) {
            if k != NONE {
                *roles = index.lower[k as usize] | bit(k as usize);
            }
        }
        index.users = transposed(&roles_of_user, users);
        index
    }

    /// The candidates below k whose set lies within that of k, a word of them at a time.
    fn subsets(&self, k: usize) -> u128 {
        let outside = self.sets[k].map(|w| !w);
        let mut words = [0u64; 2];
        for (half, word) in words.iter_mut().enumerate() {
            for j in (64 * half..k.min(64 * half + 64)).rev() {
                let s = &self.sets[j];
                let beyond = s[0] & outside[0] | s[1] & outside[1] | s[2] & outside[2] | s[3] & outside[3];
                *word |= ((beyond == 0) as u64) << (j % 64);
            }
        }
        roles_at(&words, 0)
    }

    /// A role that is nobody's row is the meet of the rows above it, and what lies within it lies within each of them.
    fn shared(&self, k: usize) -> u128 {
        let above = self.own & !all_below(k);
        let mut lower = all_below(k);
        for r in items(above) {
            if self.lower[r] & bit(k) != 0 {
                lower &= self.lower[r];
            }
        }
        lower
    }

    /// The maximal ones of a set of roles, and the union of their permissions.
    fn maximal(&self, mut roles: u128) -> (u128, Set) {
        let (mut top, mut union) = (0, EMPTY);
        while roles != 0 {
            let j = highest(roles);
            top |= bit(j);
            add(&mut union, &self.sets[j]);
            roles &= !(self.lower[j] | bit(j));
        }
        (top, union)
    }

    /// The minimal ones among the standing roles above k.
    fn minimal_above(&self, standing: u128, k: usize) -> u128 {
        let mut bottom = 0;
        for r in items(standing & !all_below(k + 1)) {
            if self.lower[r] & bit(k) != 0 && self.lower[r] & bottom == 0 {
                bottom |= bit(r);
            }
        }
        bottom
    }

    /// The building of a standing set, handed out from the highest role down: permissions, members, juniors of each.
    fn building(&self, standing: u128, mut give: impl FnMut(usize, &Set, u128, u128) -> bool) -> bool {
        let mut from_above = [0u128; 128];
        for k in (0..self.c).rev() {
            if standing & bit(k) == 0 {
                if !give(k, &EMPTY, 0, 0) {
                    return false;
                }
                continue;
            }
            let (juniors, union) = self.maximal(self.lower[k] & standing);
            for j in items(juniors) {
                from_above[j] |= self.users[k];
            }
            if !give(k, &less(&self.sets[k], &union), self.users[k] & !from_above[k], juniors) {
                return false;
            }
        }
        true
    }

    /// Whether the standing roles cover each grant: a row is the union of the standing roles within it.
    fn covers_all(&self, standing: u128) -> bool {
        items(self.own & !standing).all(|k| same(&self.maximal(self.lower[k] & standing).1, &self.sets[k]))
    }
}

// ---- the record ------------------------------------------------------------------------------------------------

fn limits_kept(n: u64, m: u64) -> bool {
    (1..=128).contains(&n) && (1..=256).contains(&m)
}

/// Whether no row has a bit at m or above.
fn rows_within(rows: &[u64], m: u64) -> bool {
    let mut beyond = [!0u64; 4];
    for (i, word) in beyond.iter_mut().enumerate() {
        let from = (m as usize).saturating_sub(64 * i).min(64);
        *word = if from == 64 { 0 } else { !0 << from };
    }
    rows.chunks_exact(4)
        .all(|row| row[0] & beyond[0] | row[1] & beyond[1] | row[2] & beyond[2] | row[3] & beyond[3] == 0)
}

fn all_zero(words: &[u64]) -> bool {
    words.iter().fold(0, |seen, w| seen | w) == 0
}

/// The candidate that equals each row, by the numbers of what was found.
fn own_roles<'a>(rows: &'a [u64], found: &'a Found, number: &'a [u8; 128]) -> impl Iterator<Item = u8> + 'a {
    rows.chunks_exact(4).map(|row| match found.place(&set_at(row, 0)) {
        Place::At(i) => number[i],
        Place::Slot(_) => NONE, // an empty row
    })
}

/// The index of a sound record; none if it is not sound.
fn sound(rec: &[u64; RECORD_WORDS]) -> Option<Index> {
    let (n, m, c, standing) = (rec[0], rec[1], rec[2], roles_at(rec, STANDING));
    if !limits_kept(n, m) || c > 128 || rec[3] | rec[6] | rec[7] != 0 {
        return None;
    }
    let (n, c) = (n as usize, c as usize);
    let rows = &rec[CREW..CREW + 4 * n];
    if standing & !all_below(c) != 0 || !rows_within(rows, m) || !all_zero(&rec[CREW + 4 * n..SETS]) {
        return None;
    }
    // the candidates: as many, growing, and each one found
    let found = closure(rows)?;
    if found.count != c || !all_zero(&rec[SETS + 4 * c..PERMISSIONS]) {
        return None;
    }
    let mut sets = [EMPTY; 128];
    let mut number = [0u8; 128];
    for k in 0..c {
        sets[k] = set_at(rec, SETS + 4 * k);
        if k > 0 && value_order(&sets[k - 1], &sets[k]).is_ge() {
            return None;
        }
        let Place::At(i) = found.place(&sets[k]) else { return None };
        number[i] = k as u8;
    }
    let index = Index::new(sets, c, own_roles(rows, &found, &number));
    let as_built = index.building(standing, |k, permissions, members, juniors| {
        same(&set_at(rec, PERMISSIONS + 4 * k), permissions)
            && roles_at(rec, MEMBERS + 2 * k) == members
            && roles_at(rec, JUNIORS + 2 * k) == juniors
    });
    let rest = all_zero(&rec[PERMISSIONS + 4 * c..MEMBERS])
        && all_zero(&rec[MEMBERS + 2 * c..JUNIORS])
        && all_zero(&rec[JUNIORS + 2 * c..]);
    (as_built && rest && index.covers_all(standing)).then_some(index)
}

/// The record at its right length with its index, or the refusal 1 or 5.
fn opened(rec: &[u64]) -> Result<(&[u64; RECORD_WORDS], Index), u64> {
    let rec: &[u64; RECORD_WORDS] = rec.try_into().map_err(|_| 1u64)?;
    Ok((rec, sound(rec).ok_or(5u64)?))
}

fn opened_mut(rec: &mut [u64]) -> Result<(&mut [u64; RECORD_WORDS], Index), u64> {
    let rec: &mut [u64; RECORD_WORDS] = rec.try_into().map_err(|_| 1u64)?;
    let index = sound(rec).ok_or(5u64)?;
    Ok((rec, index))
}

/// Writes the record that is built afresh from a crew list, which is in order, and a standing set.
fn build(n: u64, m: u64, crew: &[u64], found: &Found, standing: u128, rec: &mut [u64]) {
    let c = found.count;
    let mut order: [u8; 128] = std::array::from_fn(|i| i as u8);
    order[..c].sort_unstable_by(|&i, &j| value_order(&found.sets[i as usize], &found.sets[j as usize]));
    let mut sets = [EMPTY; 128];
    let mut number = [0u8; 128];
    for (k, &i) in order[..c].iter().enumerate() {
        sets[k] = found.sets[i as usize];
        number[i as usize] = k as u8;
    }
    let index = Index::new(sets, c, own_roles(crew, found, &number));
    rec.fill(0);
    (rec[0], rec[1], rec[2]) = (n, m, c as u64);
    put_roles(rec, STANDING, standing);
    rec[CREW..CREW + crew.len()].copy_from_slice(crew);
    for (k, set) in index.sets[..c].iter().enumerate() {
        rec[SETS + 4 * k..SETS + 4 * k + 4].copy_from_slice(set);
    }
    index.building(standing, |k, permissions, members, juniors| {
        rec[PERMISSIONS + 4 * k..PERMISSIONS + 4 * k + 4].copy_from_slice(permissions);
        put_roles(rec, MEMBERS + 2 * k, members);
        put_roles(rec, JUNIORS + 2 * k, juniors);
        true
    });
}

pub fn mine(n: u64, m: u64, crew: &[u64], rec: &mut [u64]) -> MineAnswer {
    if rec.len() != RECORD_WORDS {
        return MineAnswer::refused(1);
    }
    if !limits_kept(n, m) {
        return MineAnswer::refused(2);
    }
    if crew.len() != 4 * n as usize || !rows_within(crew, m) {
        return MineAnswer::refused(3);
    }
    let Some(found) = closure(crew) else {
        return MineAnswer::refused(4);
    };
    build(n, m, crew, &found, all_below(found.count), rec);
    MineAnswer { code: 0, candidates: found.count as u64 }
}

/// The record of a crew list that can be mined, with another standing set: for the tests, since a standing set that
/// leaves a grant bare makes a record that no call writes.
pub fn with_standing(n: u64, m: u64, crew: &[u64], standing: u128) -> Vec<u64> {
    let mut rec = vec![0; RECORD_WORDS];
    let found = closure(crew).expect("a list that can be mined");
    build(n, m, crew, &found, standing & all_below(found.count), &mut rec);
    rec
}

// ---- editing ---------------------------------------------------------------------------------------------------

/// Roles, direct members, direct permissions, links.
type Counts = [i64; 4];

fn weigh(counts: &Counts, w: &[u64; 4]) -> i64 {
    (0..4).map(|i| counts[i] * w[i] as i64).sum()
}

fn weights_allowed(w: &[u64; 4]) -> bool {
    w.iter().all(|&w| w <= 1000)
}

fn count_rows(rec: &[u64; RECORD_WORDS]) -> Counts {
    let ones = |words: &[u64]| words.iter().map(|w| w.count_ones() as i64).sum::<i64>();
    let c = rec[2] as usize;
    [
        ones(&rec[STANDING..STANDING + 2]),
        ones(&rec[MEMBERS..MEMBERS + 2 * c]),
        ones(&rec[PERMISSIONS..PERMISSIONS + 4 * c]),
        ones(&rec[JUNIORS..JUNIORS + 2 * c]),
    ]
}

/// What a strike does to the counts and to the rows of the neighbours: what each of them gains. Filled by a trial, used
/// where the trial is kept.
struct Strike {
    counts: Counts,
    links: [u128; 128],
    permissions: [Set; 128],
    members: [u128; 128],
}

impl Strike {
    fn new() -> Strike {
        Strike { counts: [0; 4], links: [0; 128], permissions: [EMPTY; 128], members: [0; 128] }
    }
}

/// What a restoration does to the counts, and the row of the role that comes back.
struct Restoration {
    counts: Counts,
    permissions: Set,
    members: u128,
    juniors: u128,
    seniors: u128,
}

/// A standing set and the rows of its building, taken out of a record to be edited many times.
struct Rows {
    standing: u128,
    permissions: [Set; 128],
    members: [u128; 128],
    juniors: [u128; 128],
    seniors: [u128; 128],
}

impl Rows {
    fn of(rec: &[u64; RECORD_WORDS], c: usize) -> Rows {
        let mut rows = Rows {
            standing: roles_at(rec, STANDING),
            permissions: [EMPTY; 128],
            members: [0; 128],
            juniors: [0; 128],
            seniors: [0; 128],
        };
        for k in 0..c {
            rows.permissions[k] = set_at(rec, PERMISSIONS + 4 * k);
            rows.members[k] = roles_at(rec, MEMBERS + 2 * k);
            rows.juniors[k] = roles_at(rec, JUNIORS + 2 * k);
            items(rows.juniors[k]).for_each(|j| rows.seniors[j] |= bit(k));
        }
        rows
    }

    fn write(&self, rec: &mut [u64; RECORD_WORDS], c: usize) {
        put_roles(rec, STANDING, self.standing);
        for k in 0..c {
            rec[PERMISSIONS + 4 * k..PERMISSIONS + 4 * k + 4].copy_from_slice(&self.permissions[k]);
            put_roles(rec, MEMBERS + 2 * k, self.members[k]);
            put_roles(rec, JUNIORS + 2 * k, self.juniors[k]);
        }
    }

    /// How the neighbours' rows change when k is struck: a senior gets those of k's juniors that no other junior of it
    /// has below, and what was direct at k and no other junior has; a junior gets members likewise.
    fn try_strike(&self, index: &Index, k: usize, change: &mut Strike) {
        let (juniors, seniors) = (self.juniors[k], self.seniors[k]);
        let (mut links, mut permissions, mut members) = (0, 0, 0);
        for s in items(seniors) {
            let mut below = 0;
            let mut gained = self.permissions[k];
            for x in items(self.juniors[s] & !bit(k)) {
                below |= index.lower[x];
                gained = less(&gained, &index.sets[x]);
            }
            change.links[s] = juniors & !below;
            change.permissions[s] = gained;
            links += change.links[s].count_ones() as i64;
            permissions += size(&gained) as i64;
        }
        for j in items(juniors) {
            let mut gained = self.members[k];
            if gained != 0 {
                for s in items(self.seniors[j] & !bit(k)) {
                    gained &= !index.users[s];
                }
            }
            change.members[j] = gained;
            members += gained.count_ones() as i64;
        }
        change.counts = [
            -1,
            members - self.members[k].count_ones() as i64,
            permissions - size(&self.permissions[k]) as i64,
            links - juniors.count_ones() as i64 - seniors.count_ones() as i64,
        ];
    }

    fn strike(&mut self, k: usize, change: &Strike) {
        let (juniors, seniors) = (self.juniors[k], self.seniors[k]);
        for j in items(juniors) {
            self.members[j] |= change.members[j];
            self.seniors[j] &= !bit(k);
        }
        for s in items(seniors) {
            self.juniors[s] = self.juniors[s] & !bit(k) | change.links[s];
            add(&mut self.permissions[s], &change.permissions[s]);
            items(change.links[s]).for_each(|j| self.seniors[j] |= bit(s));
        }
        self.permissions[k] = EMPTY;
        (self.members[k], self.juniors[k], self.seniors[k]) = (0, 0, 0);
        self.standing &= !bit(k);
    }

    /// The same for a role that comes back: its own row, and what the neighbours lose by it.
    fn try_restore(&self, index: &Index, k: usize) -> Restoration {
        let (juniors, union) = index.maximal(index.lower[k] & self.standing);
        let seniors = index.minimal_above(self.standing, k);
        let permissions = less(&index.sets[k], &union);
        let mut members = index.users[k];
        let (mut links, mut lost_permissions, mut lost_members) = (0, 0, 0);
        for s in items(seniors) {
            members &= !index.users[s];
            links += (self.juniors[s] & juniors).count_ones() as i64;
            lost_permissions += size(&meet(&self.permissions[s], &permissions)) as i64;
        }
        for j in items(juniors) {
            lost_members += (self.members[j] & members).count_ones() as i64;
        }
        let counts = [
            1,
            members.count_ones() as i64 - lost_members,
            size(&permissions) as i64 - lost_permissions,
            juniors.count_ones() as i64 + seniors.count_ones() as i64 - links,
        ];
        Restoration { counts, permissions, members, juniors, seniors }
    }

    fn restore(&mut self, k: usize, back: &Restoration) {
        for s in items(back.seniors) {
            items(self.juniors[s] & back.juniors).for_each(|j| self.seniors[j] &= !bit(s));
            self.juniors[s] = self.juniors[s] & !back.juniors | bit(k);
            self.permissions[s] = less(&self.permissions[s], &back.permissions);
        }
        for j in items(back.juniors) {
            self.members[j] &= !back.members;
            self.seniors[j] |= bit(k);
        }
        self.permissions[k] = back.permissions;
        self.members[k] = back.members;
        self.juniors[k] = back.juniors;
        self.seniors[k] = back.seniors;
        self.standing |= bit(k);
    }

    /// Whether each grant of k is covered by another standing role. Only what is direct on both sides can be left bare,
    /// and users with the same row are alike.
    fn can_strike(&self, index: &Index, k: usize) -> bool {
        if is_empty(&self.permissions[k]) {
            return true;
        }
        let mut asked = 0;
        for u in items(self.members[k]) {
            let r = index.own_of[u] as usize;
            if asked & bit(r) != 0 {
                continue;
            }
            asked |= bit(r);
            let mut bare = self.permissions[k];
            let mut others = (index.lower[r] | bit(r)) & self.standing & !bit(k);
            while !is_empty(&bare) {
                if others == 0 {
                    return false;
                }
                let j = highest(others);
                bare = less(&bare, &index.sets[j]);
                others &= !(index.lower[j] | bit(j));
            }
        }
        true
    }
}

fn editable(rec: &mut [u64], k: u64, standing: bool) -> Result<(&mut [u64; RECORD_WORDS], Index, Rows), u64> {
    let (rec, index) = opened_mut(rec)?;
    if k >= rec[2] {
        return Err(6);
    }
    if (roles_at(rec, STANDING) & bit(k as usize) != 0) != standing {
        return Err(7);
    }
    let rows = Rows::of(rec, index.c);
    Ok((rec, index, rows))
}

fn strike_checked(rec: &mut [u64], k: u64) -> Result<(), u64> {
    let (rec, index, mut rows) = editable(rec, k, true)?;
    if !rows.can_strike(&index, k as usize) {
        return Err(8);
    }
    let mut change = Strike::new();
    rows.try_strike(&index, k as usize, &mut change);
    rows.strike(k as usize, &change);
    rows.write(rec, index.c);
    Ok(())
}

pub fn strike(rec: &mut [u64], k: u64) -> StrikeAnswer {
    StrikeAnswer { code: strike_checked(rec, k).err().unwrap_or(0) }
}

fn restore_checked(rec: &mut [u64], k: u64) -> Result<(), u64> {
    let (rec, index, mut rows) = editable(rec, k, false)?;
    let back = rows.try_restore(&index, k as usize);
    rows.restore(k as usize, &back);
    rows.write(rec, index.c);
    Ok(())
}

pub fn restore(rec: &mut [u64], k: u64) -> RestoreAnswer {
    RestoreAnswer { code: restore_checked(rec, k).err().unwrap_or(0) }
}

// ---- elimination and review ------------------------------------------------------------------------------------

/// Redundancies. A grant's covers lie between the first candidate with its permission and the user's own role; the fewer
/// the narrower, so for k only the lowest own roles at or above it and the highest first candidates at or below it count.
struct Redundancies<'a> {
    index: &'a Index,
    upper: [u128; 128],
    /// The candidates that are the first to hold some permission.
    first: u128,
}

impl<'a> Redundancies<'a> {
    fn new(index: &'a Index) -> Self {
        let mut seen = EMPTY;
        let mut first = 0;
        for k in 0..index.c {
            if !is_empty(&less(&index.sets[k], &seen)) {
                first |= bit(k);
                add(&mut seen, &index.sets[k]);
            }
        }
        Redundancies { index, upper: transposed(&index.lower, index.c), first }
    }

    fn of(&self, able: u128, k: usize) -> u32 {
        let mut least = u32::MAX;
        let mut tops = self.index.own & (self.upper[k] | bit(k));
        while tops != 0 {
            let r = lowest(tops);
            tops &= !(self.upper[r] | bit(r));
            let below = (self.index.lower[r] | bit(r)) & able;
            let mut bottoms = self.first & (self.index.lower[k] | bit(k));
            while bottoms != 0 {
                let g = highest(bottoms);
                bottoms &= !(self.index.lower[g] | bit(g));
                least = least.min((below & (self.upper[g] | bit(g))).count_ones());
            }
        }
        least
    }
}

fn eliminate_checked(rec: &mut [u64], w: [u64; 4], a: u64, b: u64) -> Result<(u64, u64), u64> {
    let (rec, index) = opened_mut(rec)?;
    if !weights_allowed(&w) || !(1..=1000).contains(&b) || !(b..=2 * b).contains(&a) {
        return Err(9);
    }
    let mut rows = Rows::of(rec, index.c);
    let mut worklist = items(rows.standing).filter(|&k| rows.can_strike(&index, k)).fold(0, |set, k| set | bit(k));
    if worklist == 0 {
        return Ok((0, 0));
    }
    let redundancies = Redundancies::new(&index);
    let mut q = weigh(&count_rows(rec), &w);
    let mut change = Strike::new();
    let (mut removed, mut examined) = (0, 0);
    let mut able = worklist;
    loop {
        examined += worklist.count_ones() as u64;
        // what is not strikable now leaves, in whatever order; the others by redundancy, then by number
        let mut order = [0u16; 128];
        let mut count = 0;
        for k in items(able) {
            order[count] = (256 - redundancies.of(able, k) as u16) << 7 | k as u16;
            count += 1;
        }
        order[..count].sort_unstable();
        worklist = 0;
        let removed_before = removed;
        for entry in &order[..count] {
            let k = (entry & 127) as usize;
            if !rows.can_strike(&index, k) {
                continue;
            }
            rows.try_strike(&index, k, &mut change);
            let after = q + weigh(&change.counts, &w);
            if (b as i64) * after < (a as i64) * q {
                rows.strike(k, &change);
                q = after;
                removed += 1;
            } else {
                worklist |= bit(k);
            }
        }
        if worklist == 0 || removed == removed_before {
            break;
        }
        able = items(worklist).filter(|&k| rows.can_strike(&index, k)).fold(0, |set, k| set | bit(k));
    }
    rows.write(rec, index.c);
    Ok((removed, examined))
}

pub fn eliminate(rec: &mut [u64], w: [u64; 4], a: u64, b: u64) -> EliminateAnswer {
    match eliminate_checked(rec, w, a, b) {
        Ok((removed, examined)) => EliminateAnswer { code: 0, removed, examined },
        Err(code) => EliminateAnswer::refused(code),
    }
}

fn review_checked(rec: &mut [u64], w: [u64; 4]) -> Result<(u64, u64), u64> {
    let (rec, index) = opened_mut(rec)?;
    if !weights_allowed(&w) {
        return Err(9);
    }
    let mut rows = Rows::of(rec, index.c);
    let (mut restored, mut examined) = (0, 0);
    loop {
        let restored_before = restored;
        for k in items(all_below(index.c) & !rows.standing) {
            examined += 1;
            let back = rows.try_restore(&index, k);
            if weigh(&back.counts, &w) < 0 {
                rows.restore(k, &back);
                restored += 1;
            }
        }
        if restored == restored_before {
            break;
        }
    }
    if restored > 0 {
        rows.write(rec, index.c);
    }
    Ok((restored, examined))
}

pub fn review(rec: &mut [u64], w: [u64; 4]) -> ReviewAnswer {
    match review_checked(rec, w) {
        Ok((restored, examined)) => ReviewAnswer { code: 0, restored, examined },
        Err(code) => ReviewAnswer::refused(code),
    }
}

// ---- reading ---------------------------------------------------------------------------------------------------

pub fn quality(rec: &[u64], w: [u64; 4]) -> QualityAnswer {
    match opened(rec) {
        Err(code) => QualityAnswer::refused(code),
        Ok(_) if !weights_allowed(&w) => QualityAnswer::refused(9),
        Ok((rec, _)) => QualityAnswer { code: 0, quality: weigh(&count_rows(rec), &w) as u64 },
    }
}

pub fn may(rec: &[u64], u: u64, p: u64) -> MayAnswer {
    let (rec, c) = match opened(rec) {
        Err(code) => return MayAnswer::refused(code),
        Ok((rec, index)) => (rec, index.c),
    };
    if u >= rec[0] || p >= rec[1] {
        return MayAnswer::refused(6);
    }
    let (u, p) = (u as usize, p as usize);
    // a junior has a lower number: one walk downward reaches everything
    let mut reached = 0u128;
    for k in (0..c).rev() {
        if reached & bit(k) != 0 || rec[MEMBERS + 2 * k + u / 64] >> (u % 64) & 1 != 0 {
            if rec[PERMISSIONS + 4 * k + p / 64] >> (p % 64) & 1 != 0 {
                return MayAnswer { code: 0, allowed: 1 };
            }
            reached |= roles_at(rec, JUNIORS + 2 * k);
        }
    }
    MayAnswer { code: 0, allowed: 0 }
}

// ---- crew text -------------------------------------------------------------------------------------------------

struct Text<'a> {
    bytes: &'a [u8],
    at: usize,
}

impl Text<'_> {
    fn fixed(&mut self, bytes: &[u8]) -> Option<()> {
        self.bytes[self.at..].starts_with(bytes).then(|| self.at += bytes.len())
    }

    /// One to three digits without a leading zero.
    fn decimal(&mut self) -> Option<u64> {
        let digits = self.bytes[self.at..].iter().take_while(|b| b.is_ascii_digit()).take(4).count();
        let field = &self.bytes[self.at..self.at + digits];
        if digits == 0 || digits > 3 || digits > 1 && field[0] == b'0' {
            return None;
        }
        self.at += digits;
        Some(field.iter().fold(0, |number, b| 10 * number + (b - b'0') as u64))
    }

    /// So many lower-case digits, the highest first; at most 64.
    fn hexadecimal(&mut self, digits: usize) -> Option<Set> {
        let field = self.bytes.get(self.at..self.at + digits)?;
        let mut set = EMPTY;
        for (i, &b) in field.iter().rev().enumerate() {
            let digit = match b {
                b'0'..=b'9' => b - b'0',
                b'a'..=b'f' => b - b'a' + 10,
                _ => return None,
            };
            set[i / 16] |= (digit as u64) << (4 * (i % 16));
        }
        self.at += digits;
        Some(set)
    }

    fn header(&mut self) -> Option<(u64, u64)> {
        self.fixed(b"crew,")?;
        let n = self.decimal()?;
        self.fixed(b",")?;
        let m = self.decimal()?;
        self.fixed(
            b"
",
        )?;
        Some((n, m))
    }

    fn row(&mut self, u: u64, digits: usize) -> Option<Set> {
        (self.decimal()? == u).then_some(())?;
        self.fixed(b",")?;
        let set = self.hexadecimal(digits)?;
        self.fixed(
            b"
",
        )?;
        Some(set)
    }
}

pub fn read_crew(text: &[u8], rows: &mut [u64]) -> CrewRead {
    if rows.len() != ROWS_WORDS {
        return CrewRead::refused(3);
    }
    if text.len() > TEXT_BYTES {
        return CrewRead::refused(10);
    }
    let mut reader = Text { bytes: text, at: 0 };
    let Some((n, m)) = reader.header() else { return CrewRead::refused(10) };
    if !limits_kept(n, m) {
        return CrewRead::refused(2);
    }
    let mut words = [0u64; ROWS_WORDS];
    for u in 0..n as usize {
        let Some(row) = reader.row(u as u64, m.div_ceil(4) as usize) else { return CrewRead::refused(10) };
        if !rows_within(&row, m) {
            return CrewRead::refused(3);
        }
        words[4 * u..4 * u + 4].copy_from_slice(&row);
    }
    if reader.at != text.len() {
        return CrewRead::refused(10);
    }
    rows.copy_from_slice(&words);
    CrewRead { code: 0, n, m }
}

/// A number below 1,000 in three digits, and how many of these it needs.
fn decimal(number: u64) -> ([u8; 3], usize) {
    let digits = [number / 100, number / 10 % 10, number % 10].map(|digit| b'0' + digit as u8);
    (digits, 1 + (number > 9) as usize + (number > 99) as usize)
}

/// Eight lower-case digits, the highest first: each goes to a byte of its own, and all get their letters at once.
fn eight_digits(number: u32) -> [u8; 8] {
    let mut x = number as u64;
    x = (x | x << 16) & 0x0000_FFFF_0000_FFFF;
    x = (x | x << 8) & 0x00FF_00FF_00FF_00FF;
    x = (x | x << 4) & 0x0F0F_0F0F_0F0F_0F0F;
    let letters = (x + 0x0606_0606_0606_0606) >> 4 & 0x0101_0101_0101_0101;
    (x + 0x3030_3030_3030_3030 + letters * (b'a' - b'9' - 1) as u64).to_be_bytes()
}

/// Fields put one after the other into bytes that were counted before.
struct Fields<'a> {
    bytes: &'a mut [u8],
    at: usize,
}

impl Fields<'_> {
    fn put(&mut self, field: &[u8]) {
        self.bytes[self.at..self.at + field.len()].copy_from_slice(field);
        self.at += field.len();
    }

    fn decimal(&mut self, number: u64) {
        let (digits, count) = decimal(number);
        self.put(&digits[3 - count..]);
    }

    /// So many digits of a row, at most 64; words above them are not looked at, since they are zero.
    fn hexadecimal(&mut self, row: &[u64], digits: usize) {
        let mut all = [0u8; 64];
        for (part, word) in all.rchunks_exact_mut(16).zip(&row[..digits.div_ceil(16)]) {
            part[..8].copy_from_slice(&eight_digits((word >> 32) as u32));
            part[8..].copy_from_slice(&eight_digits(*word as u32));
        }
        self.put(&all[64 - digits..]);
    }
}

pub fn write_crew(rec: &[u64], text: &mut [u8]) -> CrewWritten {
    let rec = match opened(rec) {
        Err(code) => return CrewWritten::refused(code),
        Ok((rec, _)) => rec,
    };
    let (n, m) = (rec[0] as usize, rec[1]);
    let digits = m.div_ceil(4) as usize;
    // the header, and n lines with one, two or three digits for the user
    let numbers = n + n.saturating_sub(10) + n.saturating_sub(100);
    let length = 7 + decimal(rec[0]).1 + decimal(m).1 + numbers + n * (digits + 2);
    let Some(bytes) = text.get_mut(..length) else { return CrewWritten::refused(11) };
    let mut fields = Fields { bytes, at: 0 };
    fields.put(b"crew,");
    fields.decimal(rec[0]);
    fields.put(b",");
    fields.decimal(m);
    for (u, row) in rec[CREW..CREW + 4 * n].chunks_exact(4).enumerate() {
        fields.put(b"\n");
        fields.decimal(u as u64);
        fields.put(b",");
        fields.hexadecimal(row, digits);
    }
    fields.put(b"\n");
    CrewWritten { code: 0, length: length as u64 }
}
