//! The setting of a run, which its caller chooses: final or provisional (02, W1), and of amounts or of quantities alone
//! (02, W6).

/// "A file with no 06 records shall be refused unless the caller says that the month is provisional."
#[derive(Clone, Copy, Debug, PartialEq, Eq)]
pub enum Stage {
    /// The month is closed: it must have been refixed.
    Final,
    /// The caller says that the month is provisional: without a refixed series it is settled on its fixed figures.
    Provisional,
}

/// "Prices reach us days after the volumes."
#[derive(Clone, Copy, Debug, PartialEq, Eq)]
pub enum Prices {
    /// Amounts are asked for: "the statement program goes on refusing such a file with 3".
    Needed,
    /// Quantities alone are asked for: "A file for the first alone may have no 05 records".
    Optional,
}

/// What the caller says of a run.
#[derive(Clone, Copy, Debug, PartialEq, Eq)]
pub struct Setting {
    pub stage: Stage,
    pub prices: Prices,
}

impl Setting {
    /// A final run that gives amounts.
    pub const FINAL: Setting = Setting {
        stage: Stage::Final,
        prices: Prices::Needed,
    };

    /// A provisional run that gives amounts.
    pub const PROVISIONAL: Setting = Setting {
        stage: Stage::Provisional,
        prices: Prices::Needed,
    };

    pub const ALL: [Setting; 4] = [
        Setting::FINAL,
        Setting::PROVISIONAL,
        Setting::FINAL.of_quantities(),
        Setting::PROVISIONAL.of_quantities(),
    ];

    /// The same run of quantities alone.
    pub const fn of_quantities(self) -> Setting {
        Setting {
            prices: Prices::Optional,
            ..self
        }
    }

    /// Its words in a list of counts.
    pub fn words(self) -> &'static str {
        match (self.stage, self.prices) {
            (Stage::Final, Prices::Needed) => "final runs",
            (Stage::Provisional, Prices::Needed) => "provisional runs",
            (Stage::Final, Prices::Optional) => "final runs of quantities",
            (Stage::Provisional, Prices::Optional) => "provisional runs of quantities",
        }
    }
}
