//! The preview's text. (02, W1) The statement's, but that the heading tells a month that was settled on its fixed figures.

use crate::month::Month;
use crate::report::Report;
use crate::statement::{heading, lines_below};

/// What the preview program prints for a month file.
pub fn preview(file: &[u8]) -> String {
    Report::Preview.of(file)
}

/// The preview of a settled month: "where there are no 06 records, ends its heading line with a space and `provisional`".
pub fn text(month: &Month) -> String {
    let word = if month.file.refixed.is_empty() {
        " provisional"
    } else {
        ""
    };
    format!("{}{word}\n{}", heading(month), lines_below(month))
}
