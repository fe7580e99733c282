//! A library that writes one number past a table's last entry: the comparison finds it, in every room.

mod common;

use common::{accepted, duties, expected, line, DUTIES, STAND_IN};
use independent::{Call, Case, Entry, Rooms};
use replay::exports::Numbers;
use replay::Exports;

const ROOMS: usize = 10;

/// How many numbers of each room the example fills: two legs, four configurations, two profiles, seven samples, a constraint, two tracks, two choices of
/// each solution, a curve, and the merged text.
const FILLED: [usize; ROOMS] = [2 * 8, 4 * 3, 2 * 3, 7, 6, 2 * 2, 2 * 3, 2 * 3, common::H as usize, 176];

/// How much more than that is lent.
const MORE: usize = 5;

/// The stand-in's function, which after the true answer writes one number past the last entry of the room whose place is `ROOM`.
macro_rules! overrun {
    ($name:ident over $export:ident($($text:ident $length:ident),*) filling $($place:literal $table:ident $room:ident $number:ty),*) => {
        #[allow(clippy::too_many_arguments)]
        unsafe extern "C" fn $name<const ROOM: usize>(
            h: u32,
            edition: u32,
            $($text: *const u8, $length: usize,)*
            $($table: *mut $number, $room: usize,)*
            answer: *mut Numbers,
        ) {
            stand_in::$export(h, edition, $($text, $length,)* $($table, $room,)* answer);
            $(if ROOM == $place {
                assert!(FILLED[$place] < $room);
                *$table.add(FILLED[$place]) = 8;
            })*
        }
    };
}

overrun!(check over wagontulip_check(timetable t, profiles p, constraints c, solution s)
    filling 0 legs l0 u32, 1 configurations l1 u32, 2 profile_table l2 u32, 3 samples l3 i32, 4 constraint_table l4 u32, 5 tracks l5 u32, 6 choices l6 u32);

overrun!(energy over wagontulip_energy(timetable t, profiles p, constraints c, solution s)
    filling 0 legs l0 u32, 1 configurations l1 u32, 2 profile_table l2 u32, 3 samples l3 i32, 4 constraint_table l4 u32, 5 tracks l5 u32, 6 choices l6 u32,
    8 curves l8 i32);

overrun!(merge_earlier over wagontulip_merge_earlier(timetable t, profiles p, constraints c, first f, second s)
    filling 0 legs l0 u32, 1 configurations l1 u32, 2 profile_table l2 u32, 3 samples l3 i32, 4 constraint_table l4 u32, 5 tracks l5 u32, 6 choices l6 u32,
    7 second_choices l7 u32, 9 text l9 u8);

overrun!(merge_later over wagontulip_merge_later(timetable t, profiles p, constraints c, first f, second s)
    filling 0 legs l0 u32, 1 configurations l1 u32, 2 profile_table l2 u32, 3 samples l3 i32, 4 constraint_table l4 u32, 5 tracks l5 u32, 6 choices l6 u32,
    7 second_choices l7 u32, 9 text l9 u8);

/// The places of nodes and balances among the rooms, and how many of their numbers the example of duties fills.
const DUTY_ROOMS: [(usize, usize); 2] = [(0, 3 * 2), (8, 3)];

/// The same of duties.
unsafe extern "C" fn duties_overrun<const ROOM: usize>(
    text: *const u8,
    length: usize,
    nodes: *mut u32,
    nodes_room: usize,
    balance: *mut i32,
    balance_room: usize,
    answer: *mut Numbers,
) {
    stand_in::wagontulip_duties(text, length, nodes, nodes_room, balance, balance_room, answer);
    let [(of_nodes, nodes_filled), (of_balance, balance_filled)] = DUTY_ROOMS;
    assert!(nodes_filled < nodes_room && balance_filled < balance_room);
    if ROOM == of_nodes {
        *nodes.add(nodes_filled) = 8;
    }
    if ROOM == of_balance {
        *balance.add(balance_filled) = 8;
    }
}

const fn overrunning<const ROOM: usize>() -> Exports {
    Exports {
        check: check::<ROOM>,
        energy: energy::<ROOM>,
        merge_earlier: merge_earlier::<ROOM>,
        merge_later: merge_later::<ROOM>,
        row: stand_in::wagontulip_row,
        duties: duties_overrun::<ROOM>,
    }
}

/// A library for each room.
const LIBRARIES: [Exports; ROOMS] = [
    overrunning::<0>(),
    overrunning::<1>(),
    overrunning::<2>(),
    overrunning::<3>(),
    overrunning::<4>(),
    overrunning::<5>(),
    overrunning::<6>(),
    overrunning::<7>(),
    overrunning::<8>(),
    overrunning::<9>(),
];

/// The entries that know of a solution; duties have two rooms of their own.
const SOLVING: [Entry; 5] = [Entry::Check, Entry::Energy, Entry::MergeEarlier, Entry::MergeLater, Entry::Row];

/// The rooms that an entry takes, by their places.
fn taken(entry: Entry) -> &'static [usize] {
    match entry {
        Entry::Check => &[0, 1, 2, 3, 4, 5, 6],
        Entry::Energy => &[0, 1, 2, 3, 4, 5, 6, 8],
        Entry::MergeEarlier | Entry::MergeLater => &[0, 1, 2, 3, 4, 5, 6, 7, 9],
        Entry::Row | Entry::Duties => &[],
    }
}

fn call(entry: Entry) -> Call {
    let mut rooms = Rooms::all(0);
    for (room, filled) in FILLED.iter().enumerate() {
        *rooms.number_mut(room) = filled + MORE;
    }
    Call::of(entry, Case { rooms, ..accepted() })
}

/// The places of the digests that differ; the words before them must be the same.
fn differing(given: &str, expected: &str) -> Vec<usize> {
    let halves = |line: &str| line.split_once(" | ").map(|(words, digests)| (words.to_string(), digests.to_string())).unwrap();
    let ((given_words, given), (words, expected)) = (halves(given), halves(expected));
    assert_eq!(given_words, words);
    assert_eq!((given.split(' ').count(), expected.split(' ').count()), (ROOMS, ROOMS));
    let pairs = given.split(' ').zip(expected.split(' '));
    pairs.enumerate().filter(|(_, (given, expected))| given != expected).map(|(room, _)| room).collect()
}

#[test]
fn one_number_past_the_last_entry_is_found_in_every_room() {
    let mut found = [0; ROOMS];
    for entry in SOLVING {
        let call = call(entry);
        for (room, library) in LIBRARIES.iter().enumerate() {
            let differing = differing(&line(library, &call), &expected(&call));
            let overrun: Vec<usize> = taken(entry).iter().copied().filter(|taken| *taken == room).collect();
            assert_eq!(differing, overrun, "{} and room {room}", entry.name());
            found[room] += differing.len();
        }
    }
    assert_eq!(found, [4, 4, 4, 4, 4, 4, 4, 2, 1, 2]);
}

/// The line has two digests: the one of the room that was written past its last entry is another.
#[test]
fn one_number_past_the_last_node_is_found() {
    let call = duties(DUTIES, 6 + MORE, 3 + MORE);
    let digests = |line: &str| line.split_once(" | ").unwrap().1.split(' ').map(String::from).collect::<Vec<_>>();
    let right = line(&STAND_IN, &call);
    assert_eq!(right, expected(&call));
    for (place, (room, _)) in DUTY_ROOMS.iter().enumerate() {
        let wrong = digests(&line(&LIBRARIES[*room], &call));
        let same: Vec<bool> = wrong.iter().zip(digests(&right)).map(|(wrong, right)| *wrong == right).collect();
        assert_eq!(same, [place != 0, place != 1]);
    }
}

/// The place past the last entry is where the stand-in leaves the first 7.
#[test]
fn the_example_fills_so_much() {
    for entry in SOLVING {
        assert_eq!(differing(&line(&STAND_IN, &call(entry)), &expected(&call(entry))), [0; 0]);
    }
    let (report, merged) = (accepted().energy(), accepted().merge(independent::Direction::Later));
    let tables = merged.tables.unwrap();
    let filled = [
        tables.legs.len(),
        tables.configurations.len(),
        tables.profiles.len(),
        tables.samples.len(),
        tables.constraints.len(),
        tables.tracks.len(),
        tables.choices.len(),
        tables.second_choices.len(),
        report.curves.unwrap().len(),
        merged.text.unwrap().len(),
    ];
    assert_eq!(filled, FILLED);
}
