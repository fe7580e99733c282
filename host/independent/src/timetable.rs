//! The draft `timetable.csv`, and a solution, which "is again a timetable file".

use crate::answers::Refusal;
use crate::numbers::{id, Whole};
use crate::rows::{fields, parts, Row, Rows};
use std::collections::HashSet;

/// The header of a timetable file, without its LF.
pub const HEADER: &str = "leg_id,train_id,track_id,start_station_id,end_station_id,nominal_departure_configuration,departure_configurations";

/// "Legs 32,768".
const MOST_LEGS: usize = 32_768;
/// "configurations 64 a leg".
const MOST_IN_A_LIST: usize = 64;
/// "1,048,576 in all".
const MOST_CONFIGURATIONS: usize = 1_048_576;
/// "Travel time 1..3,600".
const LONGEST_TRAVEL: u32 = 3_600;

/// "A configuration is `d_t_p`: departure, travel time, profile id."
#[derive(Clone, Copy, Debug, PartialEq, Eq)]
pub struct Configuration {
    pub departure: u32,
    pub travel: u32,
    pub profile: u32,
}

impl Configuration {
    /// The second at which the leg arrives.
    pub fn arrival(&self) -> u32 {
        self.departure + self.travel
    }
}

/// One row of a timetable file, and the place of its first byte.
#[derive(Clone, Debug, PartialEq, Eq)]
pub struct Leg {
    pub place: usize,
    /// The first five columns: leg, train, track, start station, end station.
    pub ids: [u32; 5],
    pub nominal: Configuration,
    pub list: Vec<Configuration>,
}

impl Leg {
    /// The leg's own id.
    pub fn id(&self) -> u32 {
        self.ids[0]
    }

    /// The track the leg runs on.
    pub fn track(&self) -> u32 {
        self.ids[2]
    }
}

/// A configuration whose form is good and whose numbers are not yet judged.
type Form<'a> = [Whole<'a>; 3];

/// A row whose form is good and whose numbers are not yet judged.
struct RowForm<'a> {
    ids: Vec<Whole<'a>>,
    nominal: Form<'a>,
    list: Vec<Form<'a>>,
}

/// What was read before a row.
struct Before {
    legs: usize,
    configurations: usize,
    ids: HashSet<u32>,
}

/// Reads a timetable file. `fits` says whether so many legs and so many configurations in all
/// have lent room.
pub fn read(
    text: &[u8],
    h: u32,
    file: u32,
    fits: &dyn Fn(usize, usize) -> bool,
) -> Result<Vec<Leg>, Refusal> {
    let mut before = Before { legs: 0, configurations: 0, ids: HashSet::new() };
    let mut legs = Vec::new();
    for row in Rows::below(HEADER, text, file)? {
        let leg = read_row(&row, h, &before, fits)
            .map_err(|number| Refusal { number, file, place: row.place })?;
        before.legs += 1;
        before.configurations += leg.list.len();
        before.ids.insert(leg.id());
        legs.push(leg);
    }
    Ok(legs)
}

/// "In CSV the place is the row's first byte and the lowest number in that row counts": the
/// numbers are tried in rising order.
fn read_row(
    row: &Row,
    h: u32,
    before: &Before,
    fits: &dyn Fn(usize, usize) -> bool,
) -> Result<Leg, u32> {
    let form = row_form(row).ok_or(4u32)?;
    let leg = row_in_range(&form, row.place, h).ok_or(5u32)?;
    let legs = before.legs + 1;
    let configurations = before.configurations + leg.list.len();
    if legs > MOST_LEGS || leg.list.len() > MOST_IN_A_LIST || configurations > MOST_CONFIGURATIONS {
        return Err(6);
    }
    if before.ids.contains(&leg.id()) {
        return Err(7);
    }
    if !leg.list.contains(&leg.nominal) {
        return Err(8);
    }
    if !fits(legs, configurations) {
        return Err(16);
    }
    Ok(leg)
}

/// The form of a row: seven columns, ended by LF.
fn row_form<'a>(row: &Row<'a>) -> Option<RowForm<'a>> {
    if !row.ended {
        return None;
    }
    let columns = fields(row.bytes)?;
    if columns.len() != 7 {
        return None;
    }
    let ids = columns[..5].iter().map(|column| Whole::parse(column)).collect::<Option<Vec<_>>>()?;
    let nominal = configuration_form(columns[5])?;
    // "A list has one or more entries, one space between."
    let list = parts(columns[6], b' ')
        .into_iter()
        .map(configuration_form)
        .collect::<Option<Vec<_>>>()?;
    Some(RowForm { ids, nominal, list })
}

/// The form of a configuration: three whole numbers with `_` between.
fn configuration_form(bytes: &[u8]) -> Option<Form<'_>> {
    let numbers = parts(bytes, b'_');
    if numbers.len() != 3 {
        return None;
    }
    Some([Whole::parse(numbers[0])?, Whole::parse(numbers[1])?, Whole::parse(numbers[2])?])
}

/// The row with its numbers, if all are in range.
fn row_in_range(form: &RowForm, place: usize, h: u32) -> Option<Leg> {
    let mut ids = [0; 5];
    for (column, number) in form.ids.iter().enumerate() {
        ids[column] = id(*number)?;
    }
    let nominal = configuration_in_range(&form.nominal, h)?;
    let list = form
        .list
        .iter()
        .map(|entry| configuration_in_range(entry, h))
        .collect::<Option<Vec<_>>>()?;
    Some(Leg { place, ids, nominal, list })
}

/// "Travel time 1..3,600, departure plus travel at most H."
fn configuration_in_range(form: &Form, h: u32) -> Option<Configuration> {
    let departure = form[0].at_most(h)?;
    let travel = form[1].between(1, LONGEST_TRAVEL)?;
    let profile = id(form[2])?;
    if departure + travel > h {
        return None;
    }
    Some(Configuration { departure, travel, profile })
}
