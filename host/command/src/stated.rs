//! What a caller states beside the texts.

/// Any numbers are handed on: the library judges them, the horizon first (refusal 1), then the edition (21).
#[derive(Clone, Copy, Debug, PartialEq, Eq)]
pub struct Stated {
    /// H, in seconds.
    pub horizon: u32,
    /// Of constraints.json: one of [`Edition`]'s.
    pub edition: u32,
}

/// The editions of constraints.json that are known. They differ in the key of `terminal_turnaround_constraints`.
#[derive(Clone, Copy, Debug, PartialEq, Eq)]
pub struct Edition;

impl Edition {
    /// `min_dwell_time`, by Table 3 of document 000.
    pub const TABLE: u32 = 1;
    /// `min_turnaround_time`, by that document's example and by 001.
    pub const EXAMPLE: u32 = 2;
}
