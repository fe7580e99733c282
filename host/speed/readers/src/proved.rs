//! The proved readers, from the static library that `run` makes.

use yardstick::Said;

#[link(name = "exports", kind = "static")]
extern "C" {
    fn proved_timetable(
        text: *const u8,
        length: usize,
        h: u32,
        legs: *mut u32,
        legs_room: usize,
        configurations: *mut u32,
        configurations_room: usize,
    ) -> u64;
    fn proved_profiles(
        text: *const u8,
        length: usize,
        profiles: *mut u32,
        profiles_room: usize,
        samples: *mut i32,
        samples_room: usize,
    ) -> u64;
}

/// Two counts as one number; a refusal has the highest bit, its number and its place.
fn said(answer: u64) -> Said {
    let (high, low) = ((answer >> 32) as u32, answer as u32);
    if high >> 31 == 0 {
        Said::Read(high, low)
    } else {
        Said::Refused(high as u8, low)
    }
}

pub fn timetable(text: &[u8], h: u32, legs: &mut [u32], configurations: &mut [u32]) -> Said {
    // Safe: each pointer goes with its slice's length, and no two of the slices overlap.
    said(unsafe {
        proved_timetable(text.as_ptr(), text.len(), h, legs.as_mut_ptr(), legs.len(), configurations.as_mut_ptr(), configurations.len())
    })
}

pub fn profiles(text: &[u8], profiles: &mut [u32], samples: &mut [i32]) -> Said {
    // Safe: as above.
    said(unsafe { proved_profiles(text.as_ptr(), text.len(), profiles.as_mut_ptr(), profiles.len(), samples.as_mut_ptr(), samples.len()) })
}
