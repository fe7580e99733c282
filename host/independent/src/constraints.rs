//! `constraints.json`: a recursive descent over the tokens. The first token at fault ends it, so
//! each test stands where its token is read, the lowest number first.

use crate::answers::{Refusal, Rooms};
use crate::numbers::{id, Whole};
use crate::rows::judge_length;
use crate::stated::Edition;
use crate::tokens::{Placed, Token, Tokens};
use std::collections::{HashMap, HashSet};

/// The file number of the constraints.
const FILE: u32 = 3;
/// "constraints 65,536".
const MOST_CONSTRAINTS: usize = 65_536;
/// "subnets 8".
const MOST_SUBNETS: usize = 8;
/// "tracks 4,096".
const MOST_TRACKS: usize = 4_096;
/// "Constraint seconds 0..86,400."
const MOST_SECONDS: u32 = 86_400;

/// A constraint: "kind, first row, second row, low, high, type (0; 1 arrival; 2 departure),
/// absent numbers 0".
#[derive(Clone, Copy, Debug, PartialEq, Eq)]
pub struct Constraint {
    pub kind: u32,
    pub first: u32,
    pub second: u32,
    pub low: u32,
    pub high: u32,
    pub anchor: u32,
}

/// A track: "id and place of its subnet".
#[derive(Clone, Copy, Debug, PartialEq, Eq)]
pub struct Track {
    pub id: u32,
    pub subnet: u32,
}

/// What the text says.
#[derive(Clone, Debug, PartialEq, Eq)]
pub struct Constraints {
    /// The lists of kinds 1 to 5, each in file order.
    pub lists: [Vec<Constraint>; 5],
    /// The tracks of all subnets in file order.
    pub tracks: Vec<Track>,
    /// How many subnets there are.
    pub subnets: usize,
}

impl Constraints {
    /// The constraint table: "ordered by kind and then by file".
    pub fn in_order(&self) -> impl Iterator<Item = (usize, &Constraint)> {
        self.lists.iter().flat_map(|list| list.iter().enumerate())
    }

    /// The place of the subnet that has the track, if one has it.
    pub fn subnet_of(&self, track: u32) -> Option<u32> {
        self.tracks.iter().find(|listed| listed.id == track).map(|listed| listed.subnet)
    }
}

/// Reads the constraints. `rows` gives the draft's row for each leg id.
pub fn read(
    text: &[u8],
    edition: Edition,
    rows: &HashMap<u32, u32>,
    rooms: &Rooms,
) -> Result<Constraints, Refusal> {
    judge_length(text, FILE)?;
    let mut reader = Reader {
        tokens: Tokens::of(text),
        edition,
        rows,
        room_constraints: rooms.constraints / 6,
        room_tracks: rooms.tracks / 2,
        lists_seen: [false; 6],
        constraints_seen: 0,
        subnet_ids: HashSet::new(),
        track_ids: HashSet::new(),
        read: Constraints { lists: Default::default(), tracks: Vec::new(), subnets: 0 },
    };
    reader.whole_text()?;
    Ok(reader.read)
}

/// The name of the list of each kind; the sixth is the subnets.
fn list_name(kind: usize) -> &'static str {
    match kind {
        1 => "headway_time_constraints",
        2 => "single_track_headway_constraints",
        3 => "dwell_time_constraints",
        4 => "terminal_turnaround_constraints",
        5 => "connection_constraints",
        _ => "recuperation_subnets",
    }
}

/// The keys that a record of each kind must carry in each edition.
fn keys(kind: usize, edition: Edition) -> &'static [&'static str] {
    match (kind, edition) {
        (1, _) => &["first_leg_id", "second_leg_id", "min_headway_time"],
        (2, _) => &["first_leg_id", "second_leg_id"],
        (3, _) => &["first_leg_id", "second_leg_id", "min_dwell_time"],
        (4, Edition::Table) => &["first_leg_id", "second_leg_id", "min_dwell_time"],
        (4, Edition::Example) => &["first_leg_id", "second_leg_id", "min_turnaround_time"],
        (5, _) => &[
            "first_leg_id",
            "second_leg_id",
            "min_connection_time",
            "max_connection_time",
            "connection_type",
        ],
        _ => &["subnet_id", "track_ids"],
    }
}

/// A refusal of this file.
fn refuse<T>(number: u32, place: usize) -> Result<T, Refusal> {
    Err(Refusal { number, file: FILE, place })
}

/// Reads on after the name of a member, which is given with its place.
type ReadMember<'m, 'a> = dyn FnMut(&mut Reader<'a>, &'a [u8], usize) -> Result<(), Refusal> + 'm;

/// The reader: the tokens still to come, and what was read so far.
struct Reader<'a> {
    tokens: Tokens<'a>,
    edition: Edition,
    rows: &'a HashMap<u32, u32>,
    room_constraints: usize,
    room_tracks: usize,
    lists_seen: [bool; 6],
    constraints_seen: usize,
    subnet_ids: HashSet<u32>,
    track_ids: HashSet<u32>,
    read: Constraints,
}

impl<'a> Reader<'a> {
    /// "an object"; "All six lists must be present, once each, in any order".
    fn whole_text(&mut self) -> Result<(), Refusal> {
        self.sign(b'{')?;
        let closing = self.members(&mut |reader, name, place| reader.list(name, place))?;
        if self.lists_seen.contains(&false) {
            return refuse(11, closing);
        }
        let after = self.tokens.take();
        match after.token {
            Token::End => Ok(()),
            _ => refuse(9, after.place),
        }
    }

    /// One of the six lists, from its name on.
    fn list(&mut self, name: &[u8], place: usize) -> Result<(), Refusal> {
        let kind = match (1..=6).find(|kind| list_name(*kind).as_bytes() == name) {
            Some(kind) => kind,
            None => return refuse(10, place),
        };
        if self.lists_seen[kind - 1] {
            return refuse(11, place);
        }
        self.lists_seen[kind - 1] = true;
        self.sign(b':')?;
        self.sign(b'[')?;
        if kind == 6 {
            self.elements(&mut |reader, element| reader.subnet(element))
        } else {
            self.elements(&mut |reader, element| reader.constraint(kind, element))
        }
    }

    /// A record of kinds 1 to 5, from its opening brace on.
    fn constraint(&mut self, kind: usize, opening: Placed<'a>) -> Result<(), Refusal> {
        if opening.token != Token::Sign(b'{') {
            return refuse(9, opening.place);
        }
        self.constraints_seen += 1;
        if self.constraints_seen > MOST_CONSTRAINTS {
            return refuse(6, opening.place);
        }
        if self.constraints_seen > self.room_constraints {
            return refuse(16, opening.place);
        }
        let keys = keys(kind, self.edition);
        let mut values: [Option<u32>; 5] = [None; 5];
        let closing = self.members(&mut |reader, name, place| {
            let key = key_of(keys, name, place)?;
            if values[key].is_some() {
                return refuse(11, place);
            }
            reader.sign(b':')?;
            values[key] = Some(reader.value(keys[key])?);
            Ok(())
        })?;
        if values[..keys.len()].contains(&None) {
            return refuse(11, closing);
        }
        let value = |key: usize| values[key].unwrap_or(0);
        self.read.lists[kind - 1].push(Constraint {
            kind: kind as u32,
            first: value(0),
            second: value(1),
            low: value(2),
            high: value(3),
            anchor: value(4),
        });
        Ok(())
    }

    /// The value of a constraint's key.
    fn value(&mut self, key: &str) -> Result<u32, Refusal> {
        match key {
            "first_leg_id" | "second_leg_id" => self.leg(),
            "connection_type" => self.connection_type(),
            _ => self.seconds(),
        }
    }

    /// A leg id, as the draft's row: 9, then 5, then 12.
    fn leg(&mut self) -> Result<u32, Refusal> {
        let placed = self.tokens.take();
        let number = self.whole(placed)?;
        let leg = match id(number) {
            Some(leg) => leg,
            None => return refuse(5, placed.place),
        };
        match self.rows.get(&leg) {
            Some(row) => Ok(*row),
            None => refuse(12, placed.place),
        }
    }

    /// A number of seconds: 9, then 5.
    fn seconds(&mut self) -> Result<u32, Refusal> {
        let placed = self.tokens.take();
        match self.whole(placed)?.at_most(MOST_SECONDS) {
            Some(seconds) => Ok(seconds),
            None => refuse(5, placed.place),
        }
    }

    /// "type (0; 1 arrival; 2 departure)"; an unknown connection type is 10.
    fn connection_type(&mut self) -> Result<u32, Refusal> {
        let placed = self.tokens.take();
        match self.string(placed)? {
            b"arrival_to_departure" => Ok(1),
            b"departure_to_departure" => Ok(2),
            _ => refuse(10, placed.place),
        }
    }

    /// A record of the sixth list, from its opening brace on.
    fn subnet(&mut self, opening: Placed<'a>) -> Result<(), Refusal> {
        if opening.token != Token::Sign(b'{') {
            return refuse(9, opening.place);
        }
        if self.read.subnets + 1 > MOST_SUBNETS {
            return refuse(6, opening.place);
        }
        let keys = keys(6, self.edition);
        let mut seen = [false; 2];
        let closing = self.members(&mut |reader, name, place| {
            let key = key_of(keys, name, place)?;
            if seen[key] {
                return refuse(11, place);
            }
            seen[key] = true;
            reader.sign(b':')?;
            match keys[key] {
                "subnet_id" => reader.subnet_id(),
                _ => reader.track_ids(),
            }
        })?;
        if seen.contains(&false) {
            return refuse(11, closing);
        }
        self.read.subnets += 1;
        Ok(())
    }

    /// A subnet's id: 9, then 5, then 7 for an id already seen.
    fn subnet_id(&mut self) -> Result<(), Refusal> {
        let placed = self.tokens.take();
        match id(self.whole(placed)?) {
            None => refuse(5, placed.place),
            Some(subnet) if !self.subnet_ids.insert(subnet) => refuse(7, placed.place),
            Some(_) => Ok(()),
        }
    }

    /// A subnet's tracks; "`[]` is legal, as `track_ids` too".
    fn track_ids(&mut self) -> Result<(), Refusal> {
        self.sign(b'[')?;
        self.elements(&mut |reader, element| reader.track(element))
    }

    /// A track number: 9, 5, 6, then 7 for "a track listed twice in any subnets", then 16.
    fn track(&mut self, placed: Placed<'a>) -> Result<(), Refusal> {
        let track = match id(self.whole(placed)?) {
            Some(track) => track,
            None => return refuse(5, placed.place),
        };
        let tracks = self.read.tracks.len() + 1;
        if tracks > MOST_TRACKS {
            return refuse(6, placed.place);
        }
        if !self.track_ids.insert(track) {
            return refuse(7, placed.place);
        }
        if tracks > self.room_tracks {
            return refuse(16, placed.place);
        }
        let subnet = self.read.subnets as u32;
        self.read.tracks.push(Track { id: track, subnet });
        Ok(())
    }

    /// The members of an object whose opening brace was read, up to and with its closing brace,
    /// whose place is given back. `member` reads on after each name.
    fn members(
        &mut self,
        member: &mut ReadMember<'_, 'a>,
    ) -> Result<usize, Refusal> {
        let mut placed = self.tokens.take();
        if placed.token == Token::Sign(b'}') {
            return Ok(placed.place);
        }
        loop {
            let name = self.string(placed)?;
            member(self, name, placed.place)?;
            let after = self.tokens.take();
            match after.token {
                Token::Sign(b'}') => return Ok(after.place),
                Token::Sign(b',') => placed = self.tokens.take(),
                _ => return refuse(9, after.place),
            }
        }
    }

    /// The elements of an array whose opening bracket was read, up to and with its closing
    /// bracket. `element` is given the first token of each.
    fn elements(
        &mut self,
        element: &mut dyn FnMut(&mut Reader<'a>, Placed<'a>) -> Result<(), Refusal>,
    ) -> Result<(), Refusal> {
        let mut placed = self.tokens.take();
        if placed.token == Token::Sign(b']') {
            return Ok(());
        }
        loop {
            element(self, placed)?;
            let after = self.tokens.take();
            match after.token {
                Token::Sign(b']') => return Ok(()),
                Token::Sign(b',') => placed = self.tokens.take(),
                _ => return refuse(9, after.place),
            }
        }
    }

    /// The next token must be this sign.
    fn sign(&mut self, sign: u8) -> Result<(), Refusal> {
        let placed = self.tokens.take();
        if placed.token == Token::Sign(sign) {
            Ok(())
        } else {
            refuse(9, placed.place)
        }
    }

    /// The token where a string must stand. An unclosed one ends the text early, so its fault is
    /// at the text's length.
    fn string(&self, placed: Placed<'a>) -> Result<&'a [u8], Refusal> {
        match placed.token {
            Token::Text(bytes) => Ok(bytes),
            Token::Unclosed => refuse(9, self.tokens.length()),
            _ => refuse(9, placed.place),
        }
    }

    /// The token where a whole number must stand.
    fn whole(&self, placed: Placed<'a>) -> Result<Whole<'a>, Refusal> {
        let number = match placed.token {
            Token::Run(bytes) => Whole::parse(bytes),
            _ => None,
        };
        match number {
            Some(number) => Ok(number),
            None => refuse(9, placed.place),
        }
    }
}

/// The place of a name among the keys of a record; "A key of another kind is 10", and so is "The other edition's key".
fn key_of(keys: &[&str], name: &[u8], place: usize) -> Result<usize, Refusal> {
    match keys.iter().position(|key| key.as_bytes() == name) {
        Some(key) => Ok(key),
        None => refuse(10, place),
    }
}
