//! The C exports of include/wagontulip.h, answered by the independent program. Nothing here is proved: it stands in for the archive when the wrapper
//! and the command are tested, and is no part of what a user runs.

#![allow(non_upper_case_globals)]

use independent::{check, check_duties, energy, merge, row_at, Answer, Direction, Lent, Rooms, Stated, Tally};

/// By this name an archive of the stand-in is known, and not linked to what a user runs.
#[no_mangle]
pub static wagontulip_is_a_stand_in: u8 = 1;

/// A code, then the values, then from `TESTED` on how much was tested; unused ones 0.
type Numbers = [u64; NUMBERS];

const NUMBERS: usize = 24;
const TESTED: usize = 16;

const ROW: u64 = 3;

/// "Leg 8 numbers, configuration 3, profile 3, sample 1, constraint 6, track 2, choice 3", a curve for each of 8 subnets, a text; two numbers for each of 1,024
/// nodes, and a balance.
const ROOMS: [u64; 12] = [
    32_768 * 8,
    1_048_576 * 3,
    16_384 * 3,
    1_048_576,
    65_536 * 6,
    4_096 * 2,
    32_768 * 3,
    32_768 * 3,
    8 * 176_400,
    67_108_864,
    1_024 * 2,
    1_024,
];

/// A lent slice. Null only with length 0.
unsafe fn bytes<'a>(pointer: *const u8, length: usize) -> &'a [u8] {
    if length == 0 {
        return &[];
    }
    std::slice::from_raw_parts(pointer, length)
}

unsafe fn table<'a, T>(pointer: *mut T, room: usize) -> &'a mut [T] {
    if room == 0 {
        return &mut [];
    }
    std::slice::from_raw_parts_mut(pointer, room)
}

fn rooms(lent: &Lent) -> Rooms {
    Rooms {
        legs: lent.legs.len(),
        configurations: lent.configurations.len(),
        profiles: lent.profiles.len(),
        samples: lent.samples.len(),
        constraints: lent.constraints.len(),
        tracks: lent.tracks.len(),
        choices: lent.choices.len(),
        second_choices: lent.second_choices.len(),
        curves: lent.curves.len(),
        text: lent.text.len(),
    }
}

/// The numbers, and 0s behind them.
fn padded(first: &[u64]) -> Numbers {
    let mut numbers = [0; NUMBERS];
    numbers[..first.len()].copy_from_slice(first);
    numbers
}

/// What an accepted answer gives stands behind its code.
fn numbers(answer: &Answer, tally: Option<Tally>, accepted: &[u64]) -> Numbers {
    let mut said: Vec<u64> = answer.numbers().into_iter().map(|number| number as u64).collect();
    if *answer == Answer::Accepted {
        said.extend(accepted);
    }
    let mut numbers = padded(&said);
    for (number, count) in numbers[TESTED..].iter_mut().zip(tally.unwrap_or_default().numbers()) {
        *number = count as u64;
    }
    numbers
}

/// An export of what is stated, its texts (each with its length), its tables (each with its room) and what it answers.
macro_rules! entry {
    ($export:ident, $work:expr; $($text:ident $length:ident),*; $($table:ident $room:ident $number:ty),*) => {
        /// As include/wagontulip.h says.
        ///
        /// # Safety
        ///
        /// Each pointer is to as many elements as the length after it says, and no lent table overlaps another or a text.
        #[no_mangle]
        #[allow(clippy::too_many_arguments)]
        pub unsafe extern "C" fn $export(
            h: u32,
            edition: u32,
            $($text: *const u8, $length: usize,)*
            $($table: *mut $number, $room: usize,)*
            answer: *mut Numbers,
        ) {
            // A copy of the tables, with those that the entry does not have empty.
            let mut lent = Lent { $($table: table($table, $room).to_vec(),)* ..Lent::full_of(0, &Rooms::all(0)) };
            *answer = $work(Stated { horizon: h, edition }, [$(bytes($text, $length)),*], &mut lent);
            $(table($table, $room).copy_from_slice(&lent.$table);)*
        }
    };
}

fn checked(stated: Stated, [timetable, profiles, constraints, solution]: [&[u8]; 4], lent: &mut Lent) -> Numbers {
    let checked = check(stated, timetable, profiles, constraints, solution, &rooms(lent));
    lent.leave_checked(&checked);
    numbers(&checked.answer, checked.tally, &[])
}

fn reported(stated: Stated, [timetable, profiles, constraints, solution]: [&[u8]; 4], lent: &mut Lent) -> Numbers {
    let report = energy(stated, timetable, profiles, constraints, solution, &rooms(lent));
    lent.leave_reported(&report);
    let figures = report.figures;
    let kj = [figures.before, figures.drawn, figures.lost, figures.fluctuation, figures.peak_before, figures.peak_drawn];
    let doubles = [report.desk.before, report.desk.drawn, report.desk.lost, report.desk.peak];
    let quarters = report.quarters.map(|quarter| quarter as u64);
    let given: Vec<u64> = kj.into_iter().map(|kj| kj as u64).chain(doubles.into_iter().map(f64::to_bits)).chain(quarters).collect();
    numbers(&report.answer, report.tally, &given)
}

fn merged(direction: Direction, stated: Stated, [timetable, profiles, constraints, first, second]: [&[u8]; 5], lent: &mut Lent) -> Numbers {
    let merged = merge(direction, stated, timetable, profiles, constraints, first, second, &rooms(lent));
    lent.leave_merged(&merged);
    numbers(&merged.answer, merged.tally, &[merged.text.map_or(0, |text| text.len() as u64)])
}

fn merged_earlier(stated: Stated, texts: [&[u8]; 5], lent: &mut Lent) -> Numbers {
    merged(Direction::Earlier, stated, texts, lent)
}

fn merged_later(stated: Stated, texts: [&[u8]; 5], lent: &mut Lent) -> Numbers {
    merged(Direction::Later, stated, texts, lent)
}

entry!(wagontulip_check, checked;
    timetable timetable_length, profiles_csv profiles_length, constraints_json constraints_length, solution solution_length;
    legs legs_room u32, configurations configurations_room u32, profiles profiles_room u32, samples samples_room i32,
    constraints constraints_room u32, tracks tracks_room u32, choices choices_room u32);

entry!(wagontulip_energy, reported;
    timetable timetable_length, profiles_csv profiles_length, constraints_json constraints_length, solution solution_length;
    legs legs_room u32, configurations configurations_room u32, profiles profiles_room u32, samples samples_room i32,
    constraints constraints_room u32, tracks tracks_room u32, choices choices_room u32, curves curves_room i32);

entry!(wagontulip_merge_earlier, merged_earlier;
    timetable timetable_length, profiles_csv profiles_length, constraints_json constraints_length, first first_length, second second_length;
    legs legs_room u32, configurations configurations_room u32, profiles profiles_room u32, samples samples_room i32,
    constraints constraints_room u32, tracks tracks_room u32, choices choices_room u32, second_choices second_choices_room u32,
    text text_room u8);

entry!(wagontulip_merge_later, merged_later;
    timetable timetable_length, profiles_csv profiles_length, constraints_json constraints_length, first first_length, second second_length;
    legs legs_room u32, configurations configurations_room u32, profiles profiles_room u32, samples samples_room i32,
    constraints constraints_room u32, tracks tracks_room u32, choices choices_room u32, second_choices second_choices_room u32,
    text text_room u8);

/// As include/wagontulip.h says.
///
/// # Safety
///
/// Each pointer is to as many bytes as the length after it says.
#[no_mangle]
pub unsafe extern "C" fn wagontulip_row(
    draft: *const u8,
    draft_length: usize,
    solution: *const u8,
    solution_length: usize,
    file: u8,
    place: u32,
    answer: *mut Numbers,
) {
    let (start, length) = row_at(bytes(draft, draft_length), bytes(solution, solution_length), u32::from(file), place as usize);
    *answer = padded(&[ROW, start as u64, length as u64]);
}

/// As include/wagontulip.h says.
///
/// # Safety
///
/// Each pointer is to as many elements as the length after it says, and no lent table overlaps another or the text.
#[no_mangle]
pub unsafe extern "C" fn wagontulip_duties(
    text: *const u8,
    text_length: usize,
    nodes: *mut u32,
    nodes_room: usize,
    balance: *mut i32,
    balance_room: usize,
    answer: *mut Numbers,
) {
    // Duties have the rooms of legs and curves for their nodes and balances.
    let (nodes, balance) = (table(nodes, nodes_room), table(balance, balance_room));
    let mut lent = Lent { legs: nodes.to_vec(), curves: balance.to_vec(), ..Lent::full_of(0, &Rooms::all(0)) };
    let duties = check_duties(bytes(text, text_length), &rooms(&lent));
    lent.leave_duties(&duties);
    nodes.copy_from_slice(&lent.legs);
    balance.copy_from_slice(&lent.curves);
    *answer = numbers(&duties.answer, None, &[duties.balance.map_or(0, |balance| balance.len() as u64)]);
}

/// As include/wagontulip.h says.
///
/// # Safety
///
/// The pointer is to as many numbers as an answer has.
#[no_mangle]
pub unsafe extern "C" fn wagontulip_rooms(rooms: *mut Numbers) {
    *rooms = padded(&ROOMS);
}
