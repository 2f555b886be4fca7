//! The independent second program.
//!
//! It is written from documents 01 ("Exact scope and rules") and 02 (the requests after it) and Regulation H2, version
//! 5.11, and from nothing else, with 128-bit arithmetic straight from the definitions. It judges whatever the main program
//! answers.
//!
//! | module | renders of 01, or of the request of 02 that it names |
//! |---|---|
//! | `limits` | "Numbers that bound it" |
//! | `refusal` | "Refusal numbers" |
//! | `gln` | the check digit (GS1) |
//! | `record` | one record: body lengths, fields, reading and writing it alone |
//! | `month_file` | a whole file, record by record |
//! | `residual` | "From flows to the curve" |
//! | `largest_remainder` | the rule of "Distributed consumption" and of W2 by which exact figures become whole ones |
//! | `distribution` | "Distributed consumption" |
//! | `periodisation` | "Periodised consumption", and W3's part of it in one month |
//! | `plan` | W3: the records of a reading over several months |
//! | `reconciliation` | "Reconciliation", one hour; W6: quantities first, amounts later |
//! | `invoice` | W2: the month's exact amounts in whole øre |
//! | `setting` | W1: final or provisional; W6: of amounts or of quantities alone |
//! | `month` | a whole month: the order of refusals, the hours' figures, the month sums |
//! | `statement` | "The statement program" |
//! | `hours` | what the reviewer of 00 asks about a month; its layout stands at its head |
//! | `preview` | W1: the statement of a month that may be provisional |
//! | `brp` | W5: one line per balance responsible party |
//! | `report` | a program's output: its text, or the refusal line |
//!
//! The rest makes files to judge by: `random` (seeded numbers), `draft` (a month that can be edited), `make` and
//! `damage` (months of every shape and with every fault), `examples` (the stored ones), `check` (comparing another
//! program with this one) and `bench` (months of a chosen size, to count instructions on).
//!
//! Every public service (`residual::residual`, `residual::curve`, `distribution::distribution`,
//! `periodisation::periodisation`, `plan::plan`, `reconciliation::reconciliation`, `reconciliation::amounts`,
//! `invoice::invoice`, `record::read_alone`, `record::write`, `record::write_plain`, `month::settle`,
//! `month::month_sums`) checks its own input, refuses as 01 and 02 say, and has an answer for every machine value. A service
//! that they lend an output takes its length and hands back the figures, so that refused calls have nothing to write into.

pub mod bench;
pub mod brp;
pub mod check;
pub mod damage;
pub mod distribution;
pub mod draft;
pub mod examples;
pub mod gln;
pub mod hours;
pub mod invoice;
mod largest_remainder;
pub mod limits;
pub mod make;
pub mod month;
pub mod month_file;
pub mod periodisation;
pub mod plan;
pub mod preview;
pub mod random;
pub mod reconciliation;
pub mod record;
pub mod refusal;
pub mod report;
pub mod residual;
pub mod setting;
pub mod statement;
