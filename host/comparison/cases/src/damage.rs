//! The damages, and which of them may give a target.

pub mod plans;
pub mod texts;

use crate::plan::Plan;
use crate::random::Random;
use crate::target::Target;
use independent::Case;
use plans::*;
use texts::*;

/// A change of a plan.
pub type OfPlan = fn(&mut Plan, &mut Random);
/// A change of the texts, the room, H or the edition.
pub type OfTexts = fn(&mut Case, &mut Random);

/// One damage.
#[derive(Clone, Copy)]
pub enum Damage {
    OfPlan(OfPlan),
    OfTexts(OfTexts),
    /// A constraint that lies between the two solutions.
    Between {
        kind: u32,
        inequality: u32,
    },
}

use Damage::{OfPlan as P, OfTexts as T};

/// A damage, more often one that may give the target.
pub fn draw(random: &mut Random, target: Target, merging: bool) -> Damage {
    if !random.one_in(4) {
        let likely = likely(target);
        if !likely.is_empty() {
            return *random.pick(&likely);
        }
    }
    if merging && random.one_in(2) {
        return *random.pick(&[P(second_of_other_travel), P(choice_redrawn), T(room_smaller)]);
    }
    *random.pick(&ANY)
}

/// Every damage.
const ANY: [Damage; 48] = [
    P(unknown_profile),
    P(sample_count_changed),
    P(leg_id_repeated),
    P(profile_id_repeated),
    P(track_repeated),
    P(subnet_id_repeated),
    P(nominal_not_listed),
    P(choice_not_offered),
    P(choice_redrawn),
    P(column_changed),
    P(rows_changed),
    P(track_unlisted),
    P(list_dropped),
    P(list_repeated),
    P(list_renamed),
    P(lists_in_another_order),
    P(key_dropped),
    P(key_repeated),
    P(key_renamed),
    P(key_of_the_other_edition),
    P(value_changed),
    P(connection_type_changed),
    P(subnets_added),
    P(leg_id_unknown),
    P(seconds_changed),
    P(csv_number_changed),
    P(second_of_other_travel),
    P(list_lengthened),
    P(one_leg_twice),
    P(bounds_exchanged),
    P(horizon_at_an_arrival),
    T(emptied),
    T(byte_deleted),
    T(byte_inserted),
    T(byte_replaced),
    T(bytes_swapped),
    T(truncated),
    T(line_duplicated),
    T(line_end_changed),
    T(header_changed),
    T(mark_damaged),
    T(put_within_quotes),
    T(white_space_changed),
    T(string_spoiled),
    T(digits_changed),
    T(room_smaller),
    T(horizon_changed),
    T(edition_changed),
];

/// The damages that may give a target.
fn likely(target: Target) -> Vec<Damage> {
    match target {
        Target::Accepted => {
            vec![P(choice_redrawn), P(lists_in_another_order), P(horizon_at_an_arrival), T(white_space_changed), T(byte_replaced)]
        }
        Target::Violated { kind: 0, .. } => vec![P(choice_not_offered)],
        Target::Violated { kind, inequality, .. } => {
            vec![
                P(seconds_changed),
                P(choice_redrawn),
                P(one_leg_twice),
                P(bounds_exchanged),
                Damage::Between { kind, inequality },
                Damage::Between { kind, inequality },
                Damage::Between { kind, inequality },
            ]
        }
        Target::Refused { number, file } => likely_refused(number, file),
        Target::Broken { .. } => Vec::new(),
    }
}

fn likely_refused(number: u32, file: u32) -> Vec<Damage> {
    match number {
        1 => vec![T(horizon_changed)],
        3 => vec![T(header_changed), T(truncated), T(emptied), T(line_end_changed), T(mark_damaged)],
        4 => vec![
            T(byte_deleted),
            T(byte_inserted),
            T(byte_replaced),
            T(bytes_swapped),
            T(truncated),
            T(line_end_changed),
            T(mark_damaged),
            T(put_within_quotes),
            T(digits_changed),
            P(csv_number_changed),
        ],
        5 => vec![
            P(csv_number_changed),
            P(seconds_changed),
            P(horizon_at_an_arrival),
            P(value_changed),
            T(digits_changed),
            T(horizon_changed),
        ],
        6 if file == 2 => vec![P(samples_lengthened)],
        6 if file == 3 => vec![P(subnets_added)],
        6 => vec![P(list_lengthened)],
        7 => vec![P(leg_id_repeated), P(profile_id_repeated), P(track_repeated), P(subnet_id_repeated), T(line_duplicated)],
        8 => vec![P(nominal_not_listed), T(digits_changed)],
        9 => vec![
            T(byte_deleted),
            T(byte_inserted),
            T(byte_replaced),
            T(bytes_swapped),
            T(truncated),
            T(emptied),
            T(white_space_changed),
            T(string_spoiled),
            P(value_changed),
        ],
        10 => vec![
            P(list_renamed),
            P(key_renamed),
            P(key_of_the_other_edition),
            P(connection_type_changed),
            T(edition_changed),
            T(byte_replaced),
        ],
        11 => vec![P(list_dropped), P(list_repeated), P(key_dropped), P(key_repeated)],
        12 => vec![P(unknown_profile), P(leg_id_unknown), P(value_changed)],
        13 => vec![P(sample_count_changed), P(csv_number_changed)],
        14 => vec![P(column_changed), P(rows_changed)],
        15 => vec![P(track_unlisted)],
        16 if file == 0 => vec![T(curve_room_smaller), T(text_room_smaller)],
        16 => vec![T(room_smaller)],
        21 => vec![T(edition_changed)],
        _ => vec![P(second_of_other_travel)],
    }
}
