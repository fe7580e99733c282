//! Profiles by hand: 3 numbers a profile, a signed kW a sample.

use super::*;
use crate::ids::Seen;

const NAMES: &str = "profile_id,power_consumptions";
const MOST_ROWS: u32 = 16_384;
const MOST_LIST: u32 = 3_600;
const MOST_SAMPLES: u32 = 1_048_576;
const MOST_KW: u32 = 20_000;
const MOST_MW: u32 = 20;

impl Bytes<'_> {
    /// A sample in kW and the byte behind it; more than the limit is the limit and one.
    #[inline(always)]
    fn sample(&mut self) -> Option<(bool, u32, u8)> {
        let negative = self.text.get(self.at) == Some(&b'-');
        self.at += usize::from(negative);
        let whole = self.closed(b'.')?;
        let mut thousandths = self.digit()? * 100;
        self.at += 1;
        if let Some(digit) = self.digit() {
            thousandths += digit * 10;
            self.at += 1;
            if let Some(digit) = self.digit() {
                thousandths += digit;
                self.at += 1;
            }
        }
        let kw = if whole <= MOST_MW { whole * 1_000 + thousandths } else { MOST_KW + 1 };
        Some((negative, kw, self.next()?))
    }
}

pub fn read(text: &[u8], profiles: &mut [u32], samples: &mut [i32]) -> Said {
    let mut bytes = match Bytes::behind(text, NAMES) {
        Ok(bytes) => bytes,
        Err(refused) => return refused,
    };
    let (mut rows, mut filled, mut ids_seen) = (0u32, 0u32, Seen::default());
    while bytes.at < text.len() {
        let place = bytes.at as u32;
        let refused = |number| Said::Refused(number, place);
        let id = match bytes.number_field() {
            Some(id) => id,
            None => return refused(FORM),
        };
        let mut in_range = id <= MOST_ID;
        let mut count = 0;
        let quoted = bytes.quote();
        loop {
            let (negative, kw, byte) = match bytes.sample() {
                Some(sample) => sample,
                None => return refused(FORM),
            };
            if kw <= MOST_KW {
                if let Some(room) = samples.get_mut(filled as usize + count as usize) {
                    *room = if negative { -(kw as i32) } else { kw as i32 };
                }
            } else {
                in_range = false;
            }
            count += 1;
            if byte != b' ' {
                match bytes.behind_quote(byte, quoted) {
                    Some(last) if bytes.ends(last) => break,
                    _ => return refused(FORM),
                }
            }
        }
        if !in_range {
            return refused(RANGE);
        }
        if rows >= MOST_ROWS || count > MOST_LIST || filled + count > MOST_SAMPLES {
            return refused(COUNT);
        }
        if !ids_seen.is_new(profiles, PROFILE, rows as usize, id) {
            return refused(SEEN);
        }
        let at = rows as usize * 3;
        if profiles.len() < at + 3 || samples.len() < (filled + count) as usize {
            return refused(ROOM);
        }
        profiles[at..at + 3].copy_from_slice(&[id, filled, count]);
        rows += 1;
        filled += count;
    }
    Said::Read(rows, filled)
}
