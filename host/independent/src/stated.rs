//! What a caller states beside the texts: "H, the horizon in seconds", and the edition of `constraints.json` (document 02,
//! E4).

use crate::answers::Refusal;

/// The numbers as they are stated.
#[derive(Clone, Copy, Debug, PartialEq, Eq)]
pub struct Stated {
    pub horizon: u32,
    pub edition: u32,
}

/// "The caller now states edition 1 (that key) or 2 (`min_turnaround_time`)."
#[derive(Clone, Copy, Debug, PartialEq, Eq)]
pub enum Edition {
    /// Table 3 of document 000, "where kind 4 has `min_dwell_time`".
    Table = 1,
    /// That document's own example, and 001.
    Example = 2,
}

impl Stated {
    /// "any other edition number is a new refusal 21 (file 0, place 0), tested after 1".
    pub fn judge(self) -> Result<Edition, Refusal> {
        judge_horizon(self.horizon)?;
        match self.edition {
            1 => Ok(Edition::Table),
            2 => Ok(Edition::Example),
            _ => Err(Refusal { number: 21, file: 0, place: 0 }),
        }
    }
}

/// "H 1..176,400"; number 1, file 0, place 0.
fn judge_horizon(h: u32) -> Result<(), Refusal> {
    if (1..=176_400).contains(&h) {
        Ok(())
    } else {
        Err(Refusal { number: 1, file: 0, place: 0 })
    }
}
