//! The compiled services (include/sayarimu.h) against this program's own, on random inputs and on the cases of 01. Built
//! only where SETTLE_LIB_DIR names the folder of `libsettle_c.a`.
#![cfg(settle_lib)]

mod cases;
mod compiled;
mod inputs;
mod priced_hours;
mod random_inputs;
mod yearly;
