//! The role panel from Rust, twice: `proved` is a safe wrapper over the proved library, `plain` the same calls written
//! for speed without proofs. Both have the same functions and answers; `include/rolepanel.h` says what each call
//! promises. `crews` makes lists for the tests and the benchmark.

pub mod crews;
pub mod plain;
pub mod proved;

/// Words of a record.
pub const RECORD_WORDS: usize = 2056;
/// Words of the buffer that a crew text is read into.
pub const ROWS_WORDS: usize = 512;
/// Bytes of the longest crew text that is looked at.
pub const TEXT_BYTES: usize = 16384;
/// Bytes that take the crew text of any record.
pub const CREW_BYTES: usize = 8735;

/// Where the parts of a record start.
pub const STANDING: usize = 4;
pub const CREW: usize = 8;
pub const SETS: usize = 520;
pub const PERMISSIONS: usize = 1032;
pub const MEMBERS: usize = 1544;
pub const JUNIORS: usize = 1800;

/// An answer: the number of a refusal with zeros, or 0 with the results.
macro_rules! answer {
    ($name:ident { $($field:ident),* }) => {
        #[repr(C)]
        #[derive(Clone, Copy, Debug, Default, PartialEq, Eq)]
        pub struct $name {
            pub code: u64,
            $(pub $field: u64,)*
        }

        impl $name {
            /// A refusal: zeros beside its number.
            #[allow(clippy::needless_update)] // two answers have no other field
            pub fn refused(code: u64) -> Self {
                $name { code, ..Default::default() }
            }
        }
    };
}

answer!(MineAnswer { candidates });
answer!(StrikeAnswer {});
answer!(RestoreAnswer {});
answer!(EliminateAnswer { removed, examined });
answer!(ReviewAnswer { restored, examined });
answer!(QualityAnswer { quality });
answer!(MayAnswer { allowed });
answer!(CrewRead { n, m });
answer!(CrewWritten { length });
