//! The worst file that document 01 allows, as far as it was found: its tables are full, its ids have nine digits, and its rows, entries and records name each
//! other at random.

use crate::dice::Dice;
use crate::make::split;
use crate::plan::{Leg, Offer, Plan, Record};
use crate::shape::{Edition, Ids, Style};

/// How much of everything.
#[derive(Clone, Copy, Debug, PartialEq, Eq)]
pub struct Worst {
    legs: usize,
    profiles: usize,
    headways: usize,
    tracks: usize,
    ids: Ids,
    seed: u64,
}

impl Worst {
    /// Document 01's sizes.
    pub fn at_the_limits() -> Worst {
        Worst { legs: 32_768, profiles: 16_384, headways: 65_536, tracks: 4_096, ids: Ids::InOrder, seed: 1 }
    }

    /// Of everything so many times less.
    pub fn smaller(self, times: usize) -> Worst {
        let share = |count: usize| (count / times).max(1);
        Worst {
            legs: share(self.legs).max(APART + 1),
            profiles: share(self.profiles),
            headways: share(self.headways),
            tracks: share(self.tracks),
            ..self
        }
    }

    pub fn seeded(self, seed: u64) -> Worst {
        Worst { seed, ..self }
    }

    pub fn with_ids(self, ids: Ids) -> Worst {
        Worst { ids, ..self }
    }
}

/// Document 01's greatest H, most subnets and greatest seconds of a constraint.
const HORIZON: u32 = 176_400;
const SUBNETS: usize = 8;
const MOST_SECONDS: u32 = 86_400;
/// A leg's entries, and a profile's samples, which are its journey's seconds: so many fill the tables of both at the limits.
const ENTRIES: u32 = 32;
const TRAVEL: u32 = 64;
/// The greatest power in kW, and nine digits.
const POWER: u32 = 20_000;
const LEAST_ID: u32 = 100_000_000;
const MOST_ID: u32 = 999_999_999;

/// Departures are offered around the nominal as in this style, but at every second; rows are a step of it apart.
const STYLE: Style = Style::Underground;
/// How far two departures may come nearer to each other, and so many rows apart they stay in order.
const SLACK: u32 = 2 * STYLE.reach();
const APART: usize = (SLACK / STYLE.step()) as usize;

impl Plan {
    pub fn worst(size: Worst) -> Plan {
        let mut maker = Maker { dice: Dice::new(size.seed), size, plan: Plan::empty(STYLE, Edition::Example, HORIZON) };
        maker.profiles();
        maker.legs();
        maker.headways();
        maker.plan
    }
}

struct Maker {
    dice: Dice,
    size: Worst,
    plan: Plan,
}

impl Maker {
    /// So many ids of nine digits, at random distances.
    fn ids(&mut self, count: usize) -> Vec<u32> {
        let stride = (MOST_ID - LEAST_ID) / count as u32;
        let rising = (0..count as u32).map(|place| LEAST_ID + place * stride + self.dice.between(0, stride / 2)).collect();
        self.size.ids.laid(rising, &mut self.dice)
    }

    fn profiles(&mut self) {
        for id in self.ids(self.size.profiles) {
            let samples = (0..TRAVEL).map(|_| self.dice.between(0, 2 * POWER) as i32 - POWER as i32).collect();
            self.plan.profiles.push((id, samples));
        }
    }

    /// Each leg is a train of its own, on any track, and each of its entries has any profile.
    fn legs(&mut self) {
        let tracks = self.ids(self.size.tracks);
        let [ids, trains, starts, ends] = [(); 4].map(|()| self.ids(self.size.legs));
        for row in 0..self.size.legs {
            let offers = self.offers(STYLE.step() * row as u32);
            self.plan.legs.push(Leg {
                id: ids[row],
                train: trains[row],
                track: tracks[self.dice.below(tracks.len())],
                start: starts[row],
                end: ends[row],
                nominal: offers[STYLE.reach() as usize],
                offers,
            });
        }
        self.plan.subnets = split(&tracks, SUBNETS);
    }

    /// One at each second from the first on.
    fn offers(&mut self, first: u32) -> Vec<Offer> {
        let mut offers = Vec::with_capacity(ENTRIES as usize);
        for departure in first..first + ENTRIES {
            let profile = self.plan.profiles[self.dice.below(self.size.profiles)].0;
            offers.push(Offer { departure, travel: TRAVEL, profile });
        }
        offers
    }

    /// Between any two legs that are far enough from each other.
    fn headways(&mut self) {
        for _ in 0..self.size.headways {
            let first = self.dice.below(self.size.legs - APART);
            let second = first + APART + self.dice.below(self.size.legs - APART - first);
            let gap = self.plan.legs[second].nominal.departure - self.plan.legs[first].nominal.departure;
            let low = (gap - SLACK).min(MOST_SECONDS);
            self.plan.records[0].push(Record { first, second, low, high: 0, by_arrival: false });
        }
    }
}
