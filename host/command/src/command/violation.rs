//! A violation, in words and as one object, from the tables that the library leaves as read: document 01's numbers alone tell a planner little.

use super::json::{array, Object};
use super::{clock, time};
use std::fmt;
use wagontulip::{File, Kind, Room, Violation, CONFIGURATION, CONSTRAINT, LEG};

/// A leg with the configuration that the solution chose.
struct Leg {
    ids: [u32; 5],
    chosen: [u32; CONFIGURATION],
}

impl Leg {
    fn departure(&self) -> u32 {
        self.chosen[0]
    }

    fn arrival(&self) -> u32 {
        self.chosen[0] + self.chosen[1]
    }

    fn object(&self) -> Object {
        let [leg, train, track, start, end] = self.ids;
        Object::new()
            .value("leg", leg)
            .value("train", train)
            .value("track", track)
            .value("start_station", start)
            .value("end_station", end)
            .object("departure", time_object(self.departure()))
            .object("arrival", time_object(self.arrival()))
    }
}

fn time_object(seconds: u32) -> Object {
    Object::new().value("seconds", seconds).text("clock", &clock(seconds))
}

impl fmt::Display for Leg {
    fn fmt(&self, f: &mut fmt::Formatter) -> fmt::Result {
        let [leg, train, track, start, end] = self.ids;
        write!(f, "leg {leg} (train {train}, station {start} to station {end}, track {track}) ")?;
        writeln!(f, "departs at {} and arrives at {}", time(self.departure()), time(self.arrival()))
    }
}

/// The lines of a violation in the file named `file`; `room` is as the call that gave it left it.
pub fn told(room: &Room, violation: &Violation, file: &str) -> String {
    let kind = violation.kind;
    let head = format!("violated: {} (kind {}), position {}", name(kind), kind.number(), violation.position);
    let said = match list(kind) {
        Some(list) => format!("{head} of {list}, inequality {}: {}", violation.inequality, formula(violation)),
        None => format!("{head}, inequality {}", violation.inequality),
    };
    let told = if kind == Kind::NotOffered { NotOffered::of(room, violation).told() } else { Unkept::of(room, violation).told(violation) };
    format!("{said}\nfile: {file}\n{told}")
}

/// The same as one object: the numbers and the legs, then what they mean.
pub fn object(room: &Room, violation: &Violation, file: Object) -> Object {
    let object = Object::new()
        .value("kind", violation.kind.number())
        .value("position", violation.position)
        .value("inequality", violation.inequality)
        .value("shortfall", violation.shortfall)
        .object("file", file);
    match list(violation.kind) {
        Some(list) => Unkept::of(room, violation).object(object, violation, list),
        None => NotOffered::of(room, violation).object(object, violation.kind),
    }
}

fn legs_object<const N: usize>(object: Object, legs: [&Leg; N], kind: Kind) -> Object {
    object.value("legs", array(legs.iter().map(|leg| leg.object().close()))).text("kind_name", name(kind))
}

pub fn name(kind: Kind) -> &'static str {
    match kind {
        Kind::NotOffered => "choice not offered",
        Kind::Headway => "headway time",
        Kind::SingleTrack => "single-track headway",
        Kind::Dwell => "dwell time",
        Kind::Turnaround => "terminal turnaround",
        Kind::Connection => "connection",
    }
}

fn list(kind: Kind) -> Option<&'static str> {
    match kind {
        Kind::NotOffered => None,
        Kind::Headway => Some("headway_time_constraints"),
        Kind::SingleTrack => Some("single_track_headway_constraints"),
        Kind::Dwell => Some("dwell_time_constraints"),
        Kind::Turnaround => Some("terminal_turnaround_constraints"),
        Kind::Connection => Some("connection_constraints"),
    }
}

fn formula(violation: &Violation) -> &'static str {
    match (violation.kind, violation.inequality) {
        (Kind::NotOffered, _) => "",
        (Kind::Headway, 1) => "d1+h <= d2",
        (Kind::Headway, _) => "d1+t1+h <= d2+t2",
        (Kind::SingleTrack, _) => "d1+t1 <= d2",
        (Kind::Dwell | Kind::Turnaround, _) => "d1+t1+w <= d2",
        (Kind::Connection, 1) => "x+a <= d2",
        (Kind::Connection, _) => "d2 <= x+b",
    }
}

/// A row's leg, as the solution that is violated chose.
fn leg(room: &Room, violation: &Violation, row: usize) -> Leg {
    let choices = if violation.file == File::SecondSolution { &room.second_choices } else { &room.choices };
    let mut leg = Leg { ids: [0; 5], chosen: [0; CONFIGURATION] };
    leg.ids.copy_from_slice(&room.legs[row * LEG..][..5]);
    leg.chosen.copy_from_slice(&choices[row * CONFIGURATION..][..CONFIGURATION]);
    leg
}

/// First leg, second leg, low, high and type of a record. The table is ordered by kind, so a list starts at the first record of its kind.
fn record(table: &[u32], violation: &Violation) -> [u32; CONSTRAINT - 1] {
    let kind = u32::from(violation.kind.number());
    let before = table.chunks_exact(CONSTRAINT).take_while(|record| record[0] != kind).count();
    let mut record = [0; CONSTRAINT - 1];
    record.copy_from_slice(&table[(before + violation.position as usize) * CONSTRAINT + 1..][..CONSTRAINT - 1]);
    record
}

/// A record's inequality that does not hold.
struct Unkept {
    first: Leg,
    second: Leg,
    /// None where the record has none.
    seconds: Option<u32>,
    asked: String,
    needed: Needed,
}

impl Unkept {
    fn of(room: &Room, violation: &Violation) -> Unkept {
        let [first, second, low, high, by] = record(&room.constraints, violation);
        let first = leg(room, violation, first as usize);
        let second = leg(room, violation, second as usize);
        let seconds = match (violation.kind, violation.inequality) {
            (Kind::SingleTrack, _) => None,
            (Kind::Connection, 2) => Some(high),
            _ => Some(low),
        };
        let (asked, needed) = (asked(violation, low, high, by), Needed::of(violation, &second));
        Unkept { first, second, seconds, asked, needed }
    }

    fn told(&self, violation: &Violation) -> String {
        let Unkept { first, second, asked, needed, .. } = self;
        format!("{first}{second}asked: {asked}\nneeded: {needed}; it falls short by {} s\n", violation.shortfall)
    }

    fn object(&self, object: Object, violation: &Violation, list: &str) -> Object {
        let object = legs_object(object, [&self.first, &self.second], violation.kind).text("list", list);
        let asked = Object::new().optional("seconds", self.seconds).text("words", &self.asked);
        object.text("formula", formula(violation)).object("asked", asked).object("needed", self.needed.object())
    }
}

/// What the record asks for, with its own seconds.
fn asked(violation: &Violation, low: u32, high: u32, by: u32) -> String {
    const BY_ARRIVAL: u32 = 1;
    let from = if by == BY_ARRIVAL { "arrival" } else { "departure" };
    match (violation.kind, violation.inequality) {
        (Kind::NotOffered, _) => String::new(),
        (Kind::Headway, 1) => format!("{low} s or more from departure to departure"),
        (Kind::Headway, _) => format!("{low} s or more from arrival to arrival"),
        (Kind::SingleTrack, _) => String::from("the first leg arrives before the second departs, or with it"),
        (Kind::Dwell | Kind::Turnaround, _) => format!("{low} s or more from arrival to departure"),
        (Kind::Connection, 1) => format!("{low} s or more from {from} to departure"),
        (Kind::Connection, _) => format!("{high} s or less from {from} to departure"),
    }
}

/// What would have been enough of the second leg, by as many seconds as are short.
struct Needed {
    leg: u32,
    does: &'static str,
    at: u32,
    or: &'static str,
}

impl Needed {
    fn of(violation: &Violation, second: &Leg) -> Needed {
        let leg = second.ids[0];
        let short = violation.shortfall;
        match (violation.kind, violation.inequality) {
            (Kind::Headway, 2) => Needed { leg, does: "arrives", at: second.arrival() + short, or: "later" },
            (Kind::Connection, 2) => Needed { leg, does: "departs", at: second.departure() - short, or: "earlier" },
            _ => Needed { leg, does: "departs", at: second.departure() + short, or: "later" },
        }
    }

    fn object(&self) -> Object {
        let object = Object::new().value("leg", self.leg).text("does", self.does);
        object.object("at", time_object(self.at)).text("or", self.or)
    }
}

impl fmt::Display for Needed {
    fn fmt(&self, f: &mut fmt::Formatter) -> fmt::Result {
        write!(f, "leg {} {} at {} or {}", self.leg, self.does, time(self.at), self.or)
    }
}

/// A choice that the draft does not list.
struct NotOffered {
    leg: Leg,
    offered: Vec<String>,
}

impl NotOffered {
    fn of(room: &Room, violation: &Violation) -> NotOffered {
        let row = violation.position as usize;
        let entry = &room.legs[row * LEG..][..LEG];
        let (first, count) = (entry[5] as usize, entry[6] as usize);
        let offered = room.configurations[first * CONFIGURATION..].chunks_exact(CONFIGURATION).take(count);
        NotOffered { leg: leg(room, violation, row), offered: offered.map(spelled).collect() }
    }

    fn told(&self) -> String {
        let (leg, chosen, offered) = (&self.leg, spelled(&self.leg.chosen), self.offered.join(" "));
        format!("{leg}chosen: {chosen}\nneeded: a configuration that the draft lists for this leg: {offered}\n")
    }

    fn object(&self, object: Object, kind: Kind) -> Object {
        let object = legs_object(object, [&self.leg], kind).text("chosen", &spelled(&self.leg.chosen));
        object.texts("offered", self.offered.iter().map(String::as_str))
    }
}

/// As the files spell it.
fn spelled(configuration: &[u32]) -> String {
    configuration.iter().map(u32::to_string).collect::<Vec<String>>().join("_")
}
