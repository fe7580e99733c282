//! What a call states beside its files.

use super::number::Number;

/// The numbers as they were given.
#[derive(Clone, Debug, PartialEq, Eq)]
pub struct Stated {
    pub horizon: Number<u32>,
    pub edition: Number<u32>,
}

impl Stated {
    /// As they are handed to the library, which judges them.
    pub fn values(&self) -> wagontulip::Stated {
        wagontulip::Stated { horizon: self.horizon.value, edition: self.edition.value }
    }
}
