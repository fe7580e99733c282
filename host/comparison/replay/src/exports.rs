//! The C functions of include/wagontulip.h, each said once: as a declaration for the program, which links the archive, and as a pointer for whoever calls
//! one.

/// How many numbers a function writes.
pub const NUMBERS: usize = 24;

/// Where the code and its values end, and how much was tested begins.
pub const TESTED: usize = 16;

/// What a function answers: a code, then the values, then how much was tested; unused ones are 0.
pub type Numbers = [u64; NUMBERS];

/// A function takes H, the edition, its texts, the tables that it fills, and room for its answer; a text and a table are a pointer and a length each. Those
/// of a row and of duties take no H and no edition.
macro_rules! exports {
    ($($name:ident is $export:ident($($text:ident),*) filling $($table:ident: $number:ty),*;)*) => {
        extern "C" {
            $(pub fn $export(h: u32, edition: u32, $($text: *const u8, _: usize,)* $($table: *mut $number, _: usize,)* answer: *mut Numbers);)*
            pub fn wagontulip_row(draft: *const u8, _: usize, solution: *const u8, _: usize, file: u8, place: u32, answer: *mut Numbers);
            pub fn wagontulip_duties(text: *const u8, _: usize, nodes: *mut u32, _: usize, balance: *mut i32, _: usize, answer: *mut Numbers);
        }

        /// The functions of one library.
        #[derive(Clone, Copy)]
        pub struct Exports {
            $(pub $name: unsafe extern "C" fn(h: u32, edition: u32, $($text: *const u8, _: usize,)* $($table: *mut $number, _: usize,)* *mut Numbers),)*
            pub row: unsafe extern "C" fn(draft: *const u8, _: usize, solution: *const u8, _: usize, u8, u32, *mut Numbers),
            pub duties: unsafe extern "C" fn(text: *const u8, _: usize, nodes: *mut u32, _: usize, balance: *mut i32, _: usize, *mut Numbers),
        }
    };
}

exports! {
    check is wagontulip_check(timetable, profiles_csv, constraints_json, solution) filling legs: u32, configurations: u32, profiles: u32, samples: i32,
        constraints: u32, tracks: u32, choices: u32;
    energy is wagontulip_energy(timetable, profiles_csv, constraints_json, solution) filling legs: u32, configurations: u32, profiles: u32, samples: i32,
        constraints: u32, tracks: u32, choices: u32, curves: i32;
    merge_earlier is wagontulip_merge_earlier(timetable, profiles_csv, constraints_json, first, second) filling legs: u32, configurations: u32,
        profiles: u32, samples: i32, constraints: u32, tracks: u32, choices: u32, second_choices: u32, text: u8;
    merge_later is wagontulip_merge_later(timetable, profiles_csv, constraints_json, first, second) filling legs: u32, configurations: u32,
        profiles: u32, samples: i32, constraints: u32, tracks: u32, choices: u32, second_choices: u32, text: u8;
}
