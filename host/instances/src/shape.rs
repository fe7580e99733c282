//! Which instance is made.

use crate::dice::Dice;

/// The two families of EETTlib.
#[derive(Clone, Copy, Debug, PartialEq, Eq)]
pub enum Style {
    /// Document 000: departures within 15 s in steps of 5, three or four travel times a leg, four subnets, turnarounds.
    Underground,
    /// Document 001, section 5.1: departures within 180 s in steps of 60, one travel time, one subnet, dwell times as they are.
    Railway,
}

impl Style {
    /// The seconds between two offered departures, and the greatest distance from the nominal.
    pub const fn step(self) -> u32 {
        match self {
            Style::Underground => 5,
            Style::Railway => 60,
        }
    }

    pub const fn reach(self) -> u32 {
        3 * self.step()
    }

    /// H: a day from 4 a.m., to 2 a.m. or to 10 p.m.; the underground counts its seconds from midnight.
    pub fn horizon(self) -> u32 {
        match self {
            Style::Underground => 26 * 3_600,
            Style::Railway => 18 * 3_600,
        }
    }
}

/// Whether ids rise with the rows, or are the same ids in any order.
#[derive(Clone, Copy, Debug, PartialEq, Eq)]
pub enum Ids {
    InOrder,
    Shuffled,
}

impl Ids {
    /// Rising ids, in this order.
    pub(crate) fn laid(self, mut rising: Vec<u32>, dice: &mut Dice) -> Vec<u32> {
        if self == Ids::Shuffled {
            dice.shuffle(&mut rising);
        }
        rising
    }
}

/// The edition of constraints.json, which decides the key of a turnaround.
#[derive(Clone, Copy, Debug, PartialEq, Eq)]
pub enum Edition {
    /// By Table 3 of document 000.
    Table = 1,
    /// By that document's example, and by 001.
    Example = 2,
}

impl Edition {
    pub fn number(self) -> u32 {
        self as u32
    }

    pub fn turnaround_key(self) -> &'static str {
        match self {
            Edition::Table => "min_dwell_time",
            Edition::Example => "min_turnaround_time",
        }
    }
}

/// How much of everything; a record of each dwell there can be comes by itself.
#[derive(Clone, Copy, Debug, PartialEq, Eq)]
pub struct Shape {
    pub style: Style,
    pub trains: usize,
    pub legs: usize,
    pub headways: usize,
    pub single_tracks: usize,
    pub turnarounds: usize,
    pub connections: usize,
    pub ids: Ids,
    pub edition: Edition,
    pub seed: u64,
}

impl Shape {
    /// The largest underground instance (000, Table 4: school, all lines), which counts its single tracks among the headways.
    pub fn largest_underground() -> Shape {
        Shape {
            style: Style::Underground,
            trains: 1_505,
            legs: 24_543,
            headways: 24_579,
            single_tracks: 0,
            turnarounds: 1_442,
            connections: 152,
            ids: Ids::InOrder,
            edition: Edition::Example,
            seed: 1,
        }
    }

    /// The largest railway instance that fits the sizes (001, Table 4: Regio Südwest).
    pub fn largest_railway() -> Shape {
        Shape {
            style: Style::Railway,
            trains: 1_863,
            legs: 24_191,
            headways: 22_724,
            single_tracks: 0,
            turnarounds: 0,
            connections: 13_136,
            ids: Ids::InOrder,
            edition: Edition::Example,
            seed: 1,
        }
    }

    /// The largest of a style made smaller in proportion, with some records of every kind.
    pub fn of(style: Style, legs: usize) -> Shape {
        let largest = match style {
            Style::Underground => Shape::largest_underground(),
            Style::Railway => Shape::largest_railway(),
        };
        let share = |count: usize| (count * legs + largest.legs - 1) / largest.legs;
        Shape {
            trains: share(largest.trains).max(2).min(legs),
            legs,
            headways: share(largest.headways),
            single_tracks: 1 + legs / 100,
            turnarounds: share(largest.turnarounds).max(1 + legs / 100),
            connections: share(largest.connections).max(1 + legs / 100),
            ..largest
        }
    }

    pub fn seeded(self, seed: u64) -> Shape {
        Shape { seed, ..self }
    }

    pub fn with_ids(self, ids: Ids) -> Shape {
        Shape { ids, ..self }
    }

    pub fn in_edition(self, edition: Edition) -> Shape {
        Shape { edition, ..self }
    }
}
