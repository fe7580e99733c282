//! An instance before it is text.

use crate::dice::Dice;
use crate::shape::{Edition, Style};

/// A configuration: `d_t_p`.
#[derive(Clone, Copy, Debug, PartialEq, Eq)]
pub struct Offer {
    pub departure: u32,
    pub travel: u32,
    pub profile: u32,
}

impl Offer {
    pub fn arrival(&self) -> u32 {
        self.departure + self.travel
    }
}

#[derive(Clone, Debug)]
pub struct Leg {
    pub id: u32,
    pub train: u32,
    pub track: u32,
    pub start: u32,
    pub end: u32,
    pub nominal: Offer,
    pub offers: Vec<Offer>,
}

/// A record of constraints.json, its legs by row.
#[derive(Clone, Copy, Debug, PartialEq, Eq)]
pub struct Record {
    pub first: usize,
    pub second: usize,
    pub low: u32,
    pub high: u32,
    pub by_arrival: bool,
}

#[derive(Clone, Debug)]
pub struct Plan {
    /// By which departures are offered around the nominal.
    style: Style,
    edition: Edition,
    horizon: u32,
    pub legs: Vec<Leg>,
    /// The records of kinds 1 to 5.
    pub records: [Vec<Record>; 5],
    /// Each profile's id and its samples in kW.
    pub profiles: Vec<(u32, Vec<i32>)>,
    /// The tracks of each subnet.
    pub subnets: Vec<Vec<u32>>,
}

/// How a solution chooses.
#[derive(Clone, Copy, Debug, PartialEq, Eq)]
pub enum Choices {
    Nominal,
    /// Each train moved as a whole, with its nominal travel times: any two of these can be merged.
    Moved(u64),
    /// The same, and some legs run faster where a shorter travel time is offered.
    Faster(u64),
}

impl Plan {
    /// One with nothing in it.
    pub(crate) fn empty(style: Style, edition: Edition, horizon: u32) -> Plan {
        Plan { style, edition, horizon, legs: Vec::new(), records: Default::default(), profiles: Vec::new(), subnets: Vec::new() }
    }

    pub fn edition(&self) -> Edition {
        self.edition
    }

    pub fn horizon(&self) -> u32 {
        self.horizon
    }

    pub fn configurations(&self) -> usize {
        self.legs.iter().map(|leg| leg.offers.len()).sum()
    }

    /// The chosen configuration of each leg. All of them are accepted.
    pub fn choose(&self, choices: Choices) -> Vec<Offer> {
        match choices {
            Choices::Nominal => self.legs.iter().map(|leg| leg.nominal).collect(),
            Choices::Moved(seed) => self.moved(&mut Dice::new(seed), false),
            Choices::Faster(seed) => self.moved(&mut Dice::new(seed), true),
        }
    }

    fn moved(&self, dice: &mut Dice, faster: bool) -> Vec<Offer> {
        let (step, reach) = (self.style.step(), self.style.reach());
        let mut later = 0;
        let mut train = 0;
        let mut chosen = Vec::with_capacity(self.legs.len());
        for leg in &self.legs {
            if leg.train != train {
                train = leg.train;
                later = step * dice.between(0, 2 * reach / step);
            }
            let departure = leg.nominal.departure + later - reach;
            let most = if faster && dice.below(3) == 0 { 0 } else { leg.nominal.travel };
            chosen.push(leg.offer(departure, most));
        }
        chosen
    }
}

impl Leg {
    /// The offer at this departure with the nominal travel time, or with the shortest where that is past `most`.
    fn offer(&self, departure: u32, most: u32) -> Offer {
        let at = self.offers.iter().filter(|offer| offer.departure == departure);
        let wanted = at.clone().find(|offer| offer.travel == self.nominal.travel && offer.travel <= most);
        let shortest = at.min_by_key(|offer| offer.travel);
        *wanted.or(shortest).unwrap_or(&self.nominal)
    }
}
