//! The calls that are compared: the library's, and those of the plain C in `c/`.

use crate::library;
use checks::packet::Fields;
use checks::spot::View;

/// The rounds call: the fields, the mosaic, red, green, blue and both work buffers.
type Rounds = fn(&Fields, &[u16], &mut [u16], &[u16], &mut [u16], &mut [i32], &mut [i64]) -> Result<(), u32>;

/// The spot call: the view, the planes, and behind the pointers the floats, whether a lit frame has come, and the reading.
type Spot = fn(&View, [&[u16]; 3], [&mut f64; 3], &mut u8, &mut u8) -> Result<(), u32>;

/// One program's calls.
pub struct Calls {
    pub split: fn(usize, usize, &[i32], [&mut [i32]; 4]) -> Result<(), u32>,
    pub join: fn(usize, usize, [&[i32]; 4], &mut [i32]) -> Result<(), u32>,
    pub estimate: fn(usize, usize, u32, &[u16], [&mut [u16]; 3]) -> Result<(), u32>,
    pub update: fn(usize, usize, u32, &[u16], &mut [u16], &mut [i32]) -> Result<(), u32>,
    pub rounds: Rounds,
    pub finish: fn(&Fields, &[u16], [&mut [u16]; 3], &mut [i32], &mut [i64]) -> Result<(), u32>,
    pub spot: Spot,
}

/// The library's, clang's and gcc's.
pub const PROGRAMS: [&Calls; 3] = [
    &Calls {
        split: library::split,
        join: library::join,
        estimate: library::estimate,
        update: library::update,
        rounds: library::rounds,
        finish: library::finish,
        spot: library::spot,
    },
    &clang::CALLS,
    &gcc::CALLS,
];

/// A module with the calls of the plain C by this compiler, whose name `build.rs` puts behind each function's.
macro_rules! plain_c {
    ($compiler:ident: $($function:ident),*) => {
        mod $compiler {
            use super::Calls;

            #[link(name = "plain_c", kind = "static")]
            unsafe extern "C" {}

            checks::frame_calls!($($function),*);

            pub const CALLS: Calls = Calls { split, join, estimate, update, rounds, finish, spot };
        }
    };
}

plain_c!(clang: plain_split_clang, plain_join_clang, plain_estimate_clang, plain_update_clang, plain_rounds_clang,
    plain_finish_clang, plain_spot_clang);
plain_c!(gcc: plain_split_gcc, plain_join_gcc, plain_estimate_gcc, plain_update_gcc, plain_rounds_gcc, plain_finish_gcc,
    plain_spot_gcc);
