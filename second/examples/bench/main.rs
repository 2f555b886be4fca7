//! Each compiled service beside the same algorithm in plain Rust, on 745 hours and 64 parties (the planner: twelve months, 8,784
//! hours of 8,940), one at a time so that instructions can be counted:
//!
//!     SETTLE_LIB_DIR=.. cargo build --release --offline --example bench
//!     valgrind --tool=callgrind target/release/examples/bench SERVICE compiled|plain TIMES
//!
//! The cost of a call is the difference of two counts by the difference of their TIMES. The two must give the same.

#[cfg(settle_lib)]
#[path = "../../tests/settle/compiled.rs"]
mod compiled;
#[cfg(settle_lib)]
mod measured;
#[cfg(settle_lib)]
mod plain;

#[cfg(settle_lib)]
fn main() {
    measured::run();
}

#[cfg(not(settle_lib))]
fn main() {
    eprintln!("SETTLE_LIB_DIR named no folder with libsettle_c.a when this was built");
}
