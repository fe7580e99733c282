//! "For display, the row at a refusal's file and place is handed back".

use crate::rows::row_from;

/// The start and the length of "the row at a refusal's file and place [...] without its LF", in
/// the draft for file 1 and in the solution for file 4. "If the file is neither 1 nor 4, or no row
/// below the header starts there", both are 0; "a row without LF runs to the text's end". "one CR
/// just before LF is dropped, from a displayed row too" (document 02, E1); its quotes stay.
pub fn row_at(draft: &[u8], solution: &[u8], file: u32, place: usize) -> (usize, usize) {
    let text = match file {
        1 => draft,
        4 => solution,
        _ => return (0, 0),
    };
    let starts_there = place >= 1 && place < text.len() && text[place - 1] == b'\n';
    if !starts_there {
        return (0, 0);
    }
    (place, row_from(text, place).0.bytes.len())
}
