//! The programs that print a report of one month file: which there are, the setting of each, and what it prints.

use crate::brp;
use crate::hours;
use crate::month::{settle, Month};
use crate::preview;
use crate::refusal::Refusal;
use crate::setting::Setting;
use crate::statement;

/// A program, by what it reports of a month.
#[derive(Clone, Copy, Debug, PartialEq, Eq)]
pub enum Report {
    Statement,
    Hours,
    Preview,
    Brp,
}

impl Report {
    pub const ALL: [Report; 4] = [
        Report::Statement,
        Report::Hours,
        Report::Preview,
        Report::Brp,
    ];

    /// The program's name: the word of the command, and the ending of a file that stores its output.
    pub fn word(self) -> &'static str {
        match self {
            Report::Statement => "statement",
            Report::Hours => "hours",
            Report::Preview => "preview",
            Report::Brp => "brp",
        }
    }

    /// The report that a word names; None for another word.
    pub fn named(word: &str) -> Option<Report> {
        Report::ALL.into_iter().find(|report| report.word() == word)
    }

    /// "The statement program keeps final as its setting; a preview program asks for provisional" (02, W1). All
    /// others are final too. The hours alone print no money: "A file for the first alone may have no 05 records" (02, W6).
    pub fn setting(self) -> Setting {
        match self {
            Report::Statement | Report::Brp => Setting::FINAL,
            Report::Hours => Setting::FINAL.of_quantities(),
            Report::Preview => Setting::PROVISIONAL,
        }
    }

    /// What the program prints for a month file.
    pub fn of(self, file: &[u8]) -> String {
        self.printed(&settle(file, self.setting()))
    }

    /// What the program prints for a month that was settled or refused in its setting: its report, or the one line of the
    /// refusal, which is the same in all.
    pub fn printed(self, judged: &Result<Month, Refusal>) -> String {
        match judged {
            Ok(month) => self.text(month),
            Err(refusal) => format!("{refusal}\n"),
        }
    }

    fn text(self, month: &Month) -> String {
        match self {
            Report::Statement => statement::text(month),
            Report::Hours => hours::text(month),
            Report::Preview => preview::text(month),
            Report::Brp => brp::text(month),
        }
    }
}
