//! Changes of the texts, the room, H or the edition: of one of a case's texts, or of a text by itself.

use crate::editions::EDITIONS;
use crate::random::Random;
use crate::spelling::CSV;
use independent::Case;

/// One of the five texts.
fn some_text<'a>(case: &'a mut Case, random: &mut Random) -> &'a mut Vec<u8> {
    let place = *random.pick(&[0, 1, 2, 2, 3, 4]);
    &mut case.texts[place]
}

fn some_csv<'a>(case: &'a mut Case, random: &mut Random) -> &'a mut Vec<u8> {
    &mut case.texts[*random.pick(&CSV)]
}

/// A place in a text, mostly below its header.
fn some_place(text: &[u8], random: &mut Random) -> usize {
    let header = match text.iter().position(|byte| *byte == b'\n') {
        Some(end) if text[0] != b'{' && end + 1 < text.len() => end + 1,
        _ => 0,
    };
    if random.one_in(12) {
        random.below(text.len())
    } else {
        header + random.below(text.len() - header)
    }
}

/// A byte that has a meaning somewhere, or any byte.
pub fn some_byte(random: &mut Random) -> u8 {
    if random.one_in(6) {
        return random.below(256) as u8;
    }
    *random.pick(b"0123456789,,__ ..--\n\r\t\"\"{}[]::,,\\a~")
}

pub fn byte_deleted(case: &mut Case, random: &mut Random) {
    without_a_byte(some_text(case, random), random);
}

pub fn without_a_byte(text: &mut Vec<u8>, random: &mut Random) {
    if !text.is_empty() {
        let place = some_place(text, random);
        text.remove(place);
    }
}

pub fn byte_inserted(case: &mut Case, random: &mut Random) {
    with_a_byte(some_text(case, random), random);
}

pub fn with_a_byte(text: &mut Vec<u8>, random: &mut Random) {
    let place = if text.is_empty() { 0 } else { some_place(text, random) + random.below(2) };
    text.insert(place, some_byte(random));
}

pub fn byte_replaced(case: &mut Case, random: &mut Random) {
    with_another_byte(some_text(case, random), random);
}

pub fn with_another_byte(text: &mut [u8], random: &mut Random) {
    if !text.is_empty() {
        let place = some_place(text, random);
        text[place] = some_byte(random);
    }
}

pub fn bytes_swapped(case: &mut Case, random: &mut Random) {
    with_two_bytes_swapped(some_text(case, random), random);
}

pub fn with_two_bytes_swapped(text: &mut [u8], random: &mut Random) {
    if text.len() > 1 {
        let place = some_place(text, random).min(text.len() - 2);
        text.swap(place, place + 1);
    }
}

pub fn truncated(case: &mut Case, random: &mut Random) {
    cut_off(some_text(case, random), random);
}

pub fn cut_off(text: &mut Vec<u8>, random: &mut Random) {
    let length = match random.below(4) {
        0 => random.below(text.len() + 1),
        1 => text.len().saturating_sub(1),
        _ if text.is_empty() => 0,
        _ => some_place(text, random),
    };
    text.truncate(length);
}

pub fn emptied(case: &mut Case, random: &mut Random) {
    some_text(case, random).clear();
}

pub fn line_duplicated(case: &mut Case, random: &mut Random) {
    with_a_line_twice(some_text(case, random), random);
}

pub fn with_a_line_twice(text: &mut Vec<u8>, random: &mut Random) {
    let lines: Vec<Vec<u8>> = text.split_inclusive(|byte| *byte == b'\n').map(<[u8]>::to_vec).collect();
    if lines.is_empty() {
        return;
    }
    let place = random.below(lines.len());
    let at = random.below(lines.len() + 1);
    let mut copies = lines.clone();
    copies.insert(at, lines[place].clone());
    *text = copies.concat();
}

pub fn line_end_changed(case: &mut Case, random: &mut Random) {
    with_another_line_end(some_text(case, random), random);
}

pub fn with_another_line_end(text: &mut Vec<u8>, random: &mut Random) {
    let ends: Vec<usize> = (0..text.len()).filter(|place| text[*place] == b'\n').collect();
    if ends.is_empty() {
        return;
    }
    let end = *random.pick(&ends);
    match random.below(4) {
        0 => text.insert(end, b'\r'),
        1 => text.insert(end, b'\n'),
        2 => text.push(b'\n'),
        _ => {
            text.remove(end);
        }
    }
}

pub fn header_changed(case: &mut Case, random: &mut Random) {
    with_another_header(some_csv(case, random), random);
}

pub fn with_another_header(text: &mut Vec<u8>, random: &mut Random) {
    if text.is_empty() {
        return;
    }
    let end = text.iter().position(|byte| *byte == b'\n').unwrap_or(text.len() - 1);
    let place = random.below(end + 1);
    match random.below(5) {
        0 => text[place] = some_byte(random),
        1 => {
            text.remove(place);
        }
        2 => text.insert(place, some_byte(random)),
        3 => text.splice(0..0, *b"\xef\xbb\xbf").for_each(drop),
        _ => text.truncate(random.below(end + 1)),
    }
}

/// A quote or a CR moved, doubled or dropped; in a text that has none, one put anywhere.
pub fn mark_damaged(case: &mut Case, random: &mut Random) {
    with_a_mark_damaged(some_csv(case, random), random);
}

pub fn with_a_mark_damaged(text: &mut Vec<u8>, random: &mut Random) {
    let marks: Vec<usize> = (0..text.len()).filter(|place| matches!(text[*place], b'"' | b'\r')).collect();
    if marks.is_empty() {
        text.insert(random.below(text.len() + 1), *random.pick(b"\"\r"));
        return;
    }
    let place = *random.pick(&marks);
    let mark = text[place];
    match random.below(4) {
        0 => text.insert(place, mark),
        1 => {
            text.remove(place);
        }
        2 if place + 1 < text.len() => text.swap(place, place + 1),
        _ => {
            text.remove(place);
            text.insert(random.below(text.len() + 1), mark);
        }
    }
}

/// A comma or an LF between two quotes.
pub fn put_within_quotes(case: &mut Case, random: &mut Random) {
    with_a_byte_within_quotes(some_csv(case, random), random);
}

pub fn with_a_byte_within_quotes(text: &mut Vec<u8>, random: &mut Random) {
    let quotes: Vec<usize> = (0..text.len()).filter(|place| text[*place] == b'"').collect();
    let pairs: Vec<&[usize]> = quotes.chunks_exact(2).collect();
    if pairs.is_empty() {
        return;
    }
    let pair = *random.pick(&pairs);
    text.insert(random.between(pair[0] + 1, pair[1]), *random.pick(b",\n"));
}

pub fn white_space_changed(case: &mut Case, random: &mut Random) {
    let text = &mut case.texts[2];
    for _ in 0..random.between(1, 4) {
        let places: Vec<usize> = (0..text.len()).filter(|place| b"{}[]:,".contains(&text[*place])).collect();
        let place =
            if places.is_empty() || random.one_in(6) { random.below(text.len() + 1) } else { *random.pick(&places) + random.below(2) };
        text.insert(place, *random.pick(b"  \t\n\r\x0b\x0c"));
    }
}

pub fn string_spoiled(case: &mut Case, random: &mut Random) {
    let text = &mut case.texts[2];
    let quotes: Vec<usize> = (0..text.len()).filter(|place| text[*place] == b'"').collect();
    if quotes.is_empty() {
        return;
    }
    let quote = *random.pick(&quotes);
    match random.below(4) {
        0 => text.insert(quote + 1, *random.pick(b"\\\x1f\x7f\x80\n\t")),
        1 => text.truncate((quote + 1 + random.below(6)).min(text.len())),
        2 => {
            text.truncate((quote + 1 + random.below(6)).min(text.len()));
            text.push(*random.pick(b"\\\x00\xff\n"));
        }
        _ => {
            text.remove(quote);
        }
    }
}

pub fn digits_changed(case: &mut Case, random: &mut Random) {
    with_other_digits(some_text(case, random), random);
}

pub fn with_other_digits(text: &mut Vec<u8>, random: &mut Random) {
    let starts: Vec<usize> = (0..text.len()).filter(|p| text[*p].is_ascii_digit() && (*p == 0 || !text[*p - 1].is_ascii_digit())).collect();
    if starts.is_empty() {
        return;
    }
    let start = *random.pick(&starts);
    let mut end = start;
    while end < text.len() && text[end].is_ascii_digit() {
        end += 1;
    }
    match random.below(5) {
        0 => text.insert(start, b'0'),
        1 => text.splice(end..end, b"0".repeat(random.between(1, 24))).for_each(drop),
        2 => text.splice(start..end, b"4294967296".to_vec()).for_each(drop),
        3 => text.splice(start..end, b"18446744073709551617".to_vec()).for_each(drop),
        _ => text[start] = b'0' + random.below(10) as u8,
    }
}

pub fn room_smaller(case: &mut Case, random: &mut Random) {
    let rooms = &mut case.rooms;
    let less = random.between(1, 9);
    let room = match random.below(12) {
        0 => &mut rooms.legs,
        1 => &mut rooms.configurations,
        2 => &mut rooms.profiles,
        3 => &mut rooms.samples,
        4 => &mut rooms.constraints,
        5 => &mut rooms.tracks,
        6 => &mut rooms.choices,
        7 | 8 => &mut rooms.second_choices,
        9 => &mut rooms.curves,
        _ => {
            rooms.text = rooms.text.saturating_sub(random.below(4));
            return;
        }
    };
    *room = if random.one_in(8) { 0 } else { room.saturating_sub(less) };
}

pub fn curve_room_smaller(case: &mut Case, random: &mut Random) {
    let room = &mut case.rooms.curves;
    *room = if random.one_in(8) { 0 } else { room.saturating_sub(random.between(1, 3)) };
}

pub fn text_room_smaller(case: &mut Case, random: &mut Random) {
    let room = &mut case.rooms.text;
    *room = if random.one_in(8) { 0 } else { room.saturating_sub(random.between(1, 3)) };
}

pub fn horizon_changed(case: &mut Case, random: &mut Random) {
    let shorter = case.h.saturating_sub(random.below(90) as u32);
    case.h = *random.pick(&[0, 176_401, 4_294_967_295, 0, 200_000, shorter, shorter, 176_400, 1]);
}

/// The files stay those of the edition that they had.
pub fn edition_changed(case: &mut Case, random: &mut Random) {
    case.edition = *random.pick(&EDITIONS);
}
