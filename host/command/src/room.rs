//! The room that is lent to the library.

use crate::exports;
use std::alloc::{alloc_zeroed, Layout};
use std::fmt;
use std::ops::{Index, IndexMut};

/// The tables, the merged text, and the two tables of the duties, in the order in which the library counts them.
#[derive(Clone, Copy, Debug, PartialEq, Eq)]
pub enum Table {
    Legs,
    Configurations,
    Profiles,
    Samples,
    Constraints,
    Tracks,
    Choices,
    SecondChoices,
    Curves,
    Text,
    Nodes,
    Balance,
}

impl Table {
    pub const ALL: [Table; 12] = [
        Table::Legs,
        Table::Configurations,
        Table::Profiles,
        Table::Samples,
        Table::Constraints,
        Table::Tracks,
        Table::Choices,
        Table::SecondChoices,
        Table::Curves,
        Table::Text,
        Table::Nodes,
        Table::Balance,
    ];

    pub fn name(self) -> &'static str {
        match self {
            Table::Legs => "legs",
            Table::Configurations => "configurations",
            Table::Profiles => "profiles",
            Table::Samples => "samples",
            Table::Constraints => "constraints",
            Table::Tracks => "tracks",
            Table::Choices => "choices",
            Table::SecondChoices => "second_choices",
            Table::Curves => "curves",
            Table::Text => "text",
            Table::Nodes => "nodes",
            Table::Balance => "balance",
        }
    }

    pub fn named(name: &str) -> Option<Table> {
        Table::ALL.into_iter().find(|table| table.name() == name)
    }
}

/// How much room each table has: numbers, and bytes for the text.
#[derive(Clone, Copy, Debug, PartialEq, Eq)]
pub struct Rooms([usize; Table::ALL.len()]);

impl Rooms {
    /// No room at all.
    pub fn none() -> Rooms {
        Rooms([0; Table::ALL.len()])
    }

    /// The room of each table at document 01's sizes, as the library says it.
    pub fn at_the_limits() -> Rooms {
        let numbers = exports::rooms();
        let mut rooms = Rooms::none();
        for table in Table::ALL {
            rooms[table] = numbers[table as usize] as usize;
        }
        rooms
    }
}

impl Index<Table> for Rooms {
    type Output = usize;

    fn index(&self, table: Table) -> &usize {
        &self.0[table as usize]
    }
}

impl IndexMut<Table> for Rooms {
    fn index_mut(&mut self, table: Table) -> &mut usize {
        &mut self.0[table as usize]
    }
}

/// The machine has not the memory for a table.
#[derive(Clone, Copy, Debug, PartialEq, Eq)]
pub struct NoRoom(pub Table);

impl fmt::Display for NoRoom {
    fn fmt(&self, f: &mut fmt::Formatter) -> fmt::Result {
        write!(f, "there is no memory for the room of {}", self.0.name())
    }
}

impl std::error::Error for NoRoom {}

/// What no field of an entry can be.
const NO_NUMBER: u32 = u32::MAX;

/// The tables as the last call left them, whole: past the last entry a table keeps what it held before.
#[derive(Clone, Debug, PartialEq, Eq)]
pub struct Room {
    pub legs: Vec<u32>,
    pub configurations: Vec<u32>,
    pub profiles: Vec<u32>,
    pub samples: Vec<i32>,
    pub constraints: Vec<u32>,
    pub tracks: Vec<u32>,
    pub choices: Vec<u32>,
    pub second_choices: Vec<u32>,
    pub curves: Vec<i32>,
    pub text: Vec<u8>,
    pub nodes: Vec<u32>,
    pub balance: Vec<i32>,
}

impl Room {
    /// The tables whose entries are counted hold no entry; the others hold zeros, which cost no memory until they are written over.
    pub fn new(rooms: &Rooms) -> Result<Room, NoRoom> {
        Ok(Room {
            legs: no_entries(rooms, Table::Legs)?,
            configurations: zeros(rooms, Table::Configurations)?,
            profiles: no_entries(rooms, Table::Profiles)?,
            samples: zeros(rooms, Table::Samples)?,
            constraints: no_entries(rooms, Table::Constraints)?,
            tracks: no_entries(rooms, Table::Tracks)?,
            choices: zeros(rooms, Table::Choices)?,
            second_choices: zeros(rooms, Table::SecondChoices)?,
            curves: zeros(rooms, Table::Curves)?,
            text: zeros(rooms, Table::Text)?,
            nodes: zeros(rooms, Table::Nodes)?,
            balance: zeros(rooms, Table::Balance)?,
        })
    }

    /// How much was read by a call that found the room new.
    pub fn counts(&self) -> Counts {
        let legs = entries::<LEG>(&self.legs);
        let profiles = entries::<PROFILE>(&self.profiles);
        Counts {
            legs: legs.clone().count(),
            configurations: legs.last().map_or(0, |leg| (leg[5] + leg[6]) as usize),
            profiles: profiles.clone().count(),
            samples: profiles.last().map_or(0, |profile| (profile[1] + profile[2]) as usize),
            constraints: entries::<CONSTRAINT>(&self.constraints).count(),
            tracks: entries::<TRACK>(&self.tracks).count(),
        }
    }
}

fn no_entries(rooms: &Rooms, table: Table) -> Result<Vec<u32>, NoRoom> {
    let mut numbers = Vec::new();
    numbers.try_reserve_exact(rooms[table]).map_err(|_| NoRoom(table))?;
    numbers.resize(rooms[table], NO_NUMBER);
    Ok(numbers)
}

/// A number whose bits may all be 0.
trait Number {}
impl Number for u8 {}
impl Number for u32 {}
impl Number for i32 {}

/// What `vec![0; room]` gives, which would end the process where there is no memory.
fn zeros<N: Number>(rooms: &Rooms, table: Table) -> Result<Vec<N>, NoRoom> {
    let room = rooms[table];
    if room == 0 {
        return Ok(Vec::new());
    }
    let layout = Layout::array::<N>(room).map_err(|_| NoRoom(table))?;
    // Safe: the layout is not empty, and it is the one of a vector of `room` numbers, each of which is 0.
    unsafe {
        let numbers = alloc_zeroed(layout).cast::<N>();
        if numbers.is_null() {
            return Err(NoRoom(table));
        }
        Ok(Vec::from_raw_parts(numbers, room, room))
    }
}

// How many numbers an entry of each table has ("The tables").
pub const LEG: usize = 8;
pub const CONFIGURATION: usize = 3;
pub const PROFILE: usize = 3;
pub const CONSTRAINT: usize = 6;
pub const TRACK: usize = 2;

/// How many entries were read. Configurations end where the last leg's do, samples where the last profile's do.
#[derive(Clone, Copy, Debug, PartialEq, Eq)]
pub struct Counts {
    pub legs: usize,
    pub configurations: usize,
    pub profiles: usize,
    pub samples: usize,
    pub constraints: usize,
    pub tracks: usize,
}

/// The entries of a table, up to the first that was not written.
fn entries<const WIDTH: usize>(table: &[u32]) -> impl Iterator<Item = &[u32]> + Clone {
    table.chunks_exact(WIDTH).take_while(|entry| entry[0] != NO_NUMBER)
}
