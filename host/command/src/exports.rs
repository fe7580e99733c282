//! The C exports, as include/wagontulip.h says them, each as a safe function. No text is looked at here, nor what is stated: every export judges its own input.
//! They are only declared: the program that uses the wrapper links the library.

use crate::answers::{Numbers, NUMBERS};
use crate::room::Room;
use crate::stated::Stated;

/// No code, so that an export that writes nothing answers nothing.
const UNWRITTEN: Numbers = [u64::MAX; NUMBERS];

/// An entry takes what is stated, its texts, the tables it fills, and room for its answer; a slice goes as its pointer and its length.
macro_rules! entry {
    ($name:ident is $export:ident($($text:ident),*) filling $($table:ident: $number:ty),*) => {
        pub fn $name(stated: Stated, $($text: &[u8],)* room: &mut Room) -> Numbers {
            extern "C" {
                fn $export(h: u32, edition: u32, $($text: *const u8, _: usize,)* $($table: *mut $number, _: usize,)* answer: *mut Numbers);
            }
            let mut answer = UNWRITTEN;
            // Safe: each pointer goes with the length of its slice. The tables are vectors of their own, lent for this call alone (`&mut Room`), so
            // none overlaps another or a text.
            unsafe { $export(stated.horizon, stated.edition, $($text.as_ptr(), $text.len(),)* $(room.$table.as_mut_ptr(), room.$table.len(),)* &mut answer) };
            answer
        }
    };
}

entry!(check is wagontulip_check(timetable, profiles, constraints, solution)
    filling legs: u32, configurations: u32, profiles: u32, samples: i32, constraints: u32, tracks: u32, choices: u32);

entry!(energy is wagontulip_energy(timetable, profiles, constraints, solution)
    filling legs: u32, configurations: u32, profiles: u32, samples: i32, constraints: u32, tracks: u32, choices: u32, curves: i32);

entry!(merge_earlier is wagontulip_merge_earlier(timetable, profiles, constraints, first, second)
    filling legs: u32, configurations: u32, profiles: u32, samples: i32, constraints: u32, tracks: u32, choices: u32, second_choices: u32, text: u8);

entry!(merge_later is wagontulip_merge_later(timetable, profiles, constraints, first, second)
    filling legs: u32, configurations: u32, profiles: u32, samples: i32, constraints: u32, tracks: u32, choices: u32, second_choices: u32, text: u8);

/// Rolling stock duties, of which nothing is stated.
pub fn duties(text: &[u8], room: &mut Room) -> Numbers {
    extern "C" {
        fn wagontulip_duties(text: *const u8, _: usize, nodes: *mut u32, _: usize, balance: *mut i32, _: usize, answer: *mut Numbers);
    }
    let (nodes, balance) = (&mut room.nodes, &mut room.balance);
    let mut answer = UNWRITTEN;
    // Safe: as for an entry above.
    unsafe {
        wagontulip_duties(text.as_ptr(), text.len(), nodes.as_mut_ptr(), nodes.len(), balance.as_mut_ptr(), balance.len(), &mut answer)
    };
    answer
}

/// Start and length of the row at a refusal's file and place.
pub fn row(draft: &[u8], solution: &[u8], file: u8, place: u32) -> Numbers {
    extern "C" {
        fn wagontulip_row(draft: *const u8, _: usize, solution: *const u8, _: usize, file: u8, place: u32, answer: *mut Numbers);
    }
    let mut answer = UNWRITTEN;
    // Safe: each pointer goes with the length of its slice.
    unsafe { wagontulip_row(draft.as_ptr(), draft.len(), solution.as_ptr(), solution.len(), file, place, &mut answer) };
    answer
}

/// The room of each table at the limits.
pub fn rooms() -> Numbers {
    extern "C" {
        fn wagontulip_rooms(rooms: *mut Numbers);
    }
    let mut rooms = UNWRITTEN;
    // Safe: the pointer is to as many numbers as are written.
    unsafe { wagontulip_rooms(&mut rooms) };
    rooms
}
