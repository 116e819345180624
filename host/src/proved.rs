//! The proved library. A slice lends its words for the time of the call, and Rust's borrows see to what the library
//! asks of its callers: pointers that are valid and never null, and buffers that do not overlap.

use crate::*;

mod raw {
    use crate::*;

    unsafe extern "C" {
        pub fn panel_mine(
            n: u64,
            m: u64,
            crew: *const u64,
            crew_len: usize,
            rec: *mut u64,
            rec_len: usize,
        ) -> MineAnswer;
        pub fn panel_strike(rec: *mut u64, rec_len: usize, k: u64) -> StrikeAnswer;
        pub fn panel_restore(rec: *mut u64, rec_len: usize, k: u64) -> RestoreAnswer;
        pub fn panel_eliminate(
            rec: *mut u64,
            rec_len: usize,
            w1: u64,
            w2: u64,
            w3: u64,
            w4: u64,
            a: u64,
            b: u64,
        ) -> EliminateAnswer;
        pub fn panel_review(rec: *mut u64, rec_len: usize, w1: u64, w2: u64, w3: u64, w4: u64) -> ReviewAnswer;
        pub fn panel_quality(rec: *const u64, rec_len: usize, w1: u64, w2: u64, w3: u64, w4: u64) -> QualityAnswer;
        pub fn panel_may(rec: *const u64, rec_len: usize, u: u64, p: u64) -> MayAnswer;
        pub fn panel_read_crew(text: *const u8, text_len: usize, rows: *mut u64, rows_len: usize) -> CrewRead;
        pub fn panel_write_crew(rec: *const u64, rec_len: usize, text: *mut u8, text_len: usize) -> CrewWritten;
    }
}

// SAFETY of every call below: pointer and length are those of one live slice, shared slices are only read, and a
// mutable slice overlaps no other.

pub fn mine(n: u64, m: u64, crew: &[u64], rec: &mut [u64]) -> MineAnswer {
    unsafe { raw::panel_mine(n, m, crew.as_ptr(), crew.len(), rec.as_mut_ptr(), rec.len()) }
}

pub fn strike(rec: &mut [u64], k: u64) -> StrikeAnswer {
    unsafe { raw::panel_strike(rec.as_mut_ptr(), rec.len(), k) }
}

pub fn restore(rec: &mut [u64], k: u64) -> RestoreAnswer {
    unsafe { raw::panel_restore(rec.as_mut_ptr(), rec.len(), k) }
}

pub fn eliminate(rec: &mut [u64], w: [u64; 4], a: u64, b: u64) -> EliminateAnswer {
    unsafe { raw::panel_eliminate(rec.as_mut_ptr(), rec.len(), w[0], w[1], w[2], w[3], a, b) }
}

pub fn review(rec: &mut [u64], w: [u64; 4]) -> ReviewAnswer {
    unsafe { raw::panel_review(rec.as_mut_ptr(), rec.len(), w[0], w[1], w[2], w[3]) }
}

pub fn quality(rec: &[u64], w: [u64; 4]) -> QualityAnswer {
    unsafe { raw::panel_quality(rec.as_ptr(), rec.len(), w[0], w[1], w[2], w[3]) }
}

pub fn may(rec: &[u64], u: u64, p: u64) -> MayAnswer {
    unsafe { raw::panel_may(rec.as_ptr(), rec.len(), u, p) }
}

pub fn read_crew(text: &[u8], rows: &mut [u64]) -> CrewRead {
    unsafe { raw::panel_read_crew(text.as_ptr(), text.len(), rows.as_mut_ptr(), rows.len()) }
}

pub fn write_crew(rec: &[u64], text: &mut [u8]) -> CrewWritten {
    unsafe { raw::panel_write_crew(rec.as_ptr(), rec.len(), text.as_mut_ptr(), text.len()) }
}
