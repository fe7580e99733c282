//! A shape made into a plan: first the runs of the trains, then what ties them together.

use crate::dice::Dice;
use crate::plan::{Leg, Offer, Plan, Record};
use crate::shape::{Shape, Style};

/// A run of one train over the stations of a line, in one of its two directions.
struct Run {
    line: usize,
    direction: usize,
    /// The rows of its legs.
    first: usize,
    legs: usize,
}

/// One way between two stations of a line, in one direction.
struct Section {
    track: u32,
    start: u32,
    end: u32,
    /// When a train leaves here, counted from its first departure.
    offset: u32,
    /// The travel times of each train type, shortest first, and the profile of each.
    ways: Vec<Vec<(u32, u32)>>,
}

/// What the style sets.
struct Measures {
    /// The least seconds between two trains of a line and direction, and the time in which trains start.
    spacing: u32,
    day: (u32, u32),
    travel: (u32, u32),
    types: usize,
    subnets: usize,
    /// How the greatest power is drawn from, in kW.
    power: (u32, u32),
    headway: u32,
    turnaround: u32,
}

impl Measures {
    fn of(style: Style) -> Measures {
        match style {
            Style::Underground => Measures {
                spacing: 240,
                day: (16_200, 88_000),
                travel: (55, 130),
                types: 8,
                subnets: 4,
                power: (900, 2_400),
                headway: 100,
                turnaround: 420,
            },
            Style::Railway => Measures {
                spacing: 900,
                day: (600, 46_000),
                travel: (200, 840),
                types: 2,
                subnets: 1,
                power: (2_000, 6_000),
                headway: 240,
                turnaround: 600,
            },
        }
    }
}

const DWELL: u32 = 20;
/// How much longer a leg's other travel times are, and the greatest difference between two of them.
const SLOWER: u32 = 4;
const RANGE: u32 = 3 * SLOWER;

impl Plan {
    pub fn new(shape: Shape) -> Plan {
        let mut maker = Maker::new(shape);
        let runs = maker.runs();
        maker.rename_legs();
        maker.dwells(&runs);
        maker.headways(&runs);
        maker.single_tracks(&runs);
        maker.turnarounds(&runs);
        maker.connections();
        maker.plan
    }
}

struct Maker {
    dice: Dice,
    shape: Shape,
    measures: Measures,
    /// For each line and direction, its sections.
    sections: Vec<[Vec<Section>; 2]>,
    plan: Plan,
}

impl Maker {
    fn new(shape: Shape) -> Maker {
        let measures = Measures::of(shape.style);
        let plan = Plan::empty(shape.style, shape.edition, shape.style.horizon());
        let mut maker = Maker { dice: Dice::new(shape.seed), shape, measures, sections: Vec::new(), plan };
        let starts = (maker.measures.day.1 - maker.measures.day.0) / maker.measures.spacing;
        let lines = shape.trains / (2 * starts as usize) + 1;
        let longest = (shape.legs + shape.trains - 1) / shape.trains;
        maker.lay_lines(lines, longest);
        maker
    }

    /// The lines cross at one station, so that there are connections between them.
    fn lay_lines(&mut self, lines: usize, length: usize) {
        let mut ids = self.profile_ids(lines * 2 * length).into_iter();
        let mut tracks = 0;
        for line in 0..lines {
            let stations: Vec<u32> =
                (0..=length).map(|place| if place == length / 2 { 1 } else { (2 + line * (length + 1) + place) as u32 }).collect();
            let there = self.lay_sections(&stations, tracks, &mut ids);
            let back: Vec<u32> = stations.into_iter().rev().collect();
            let mut back = self.lay_sections(&back, tracks + length as u32, &mut ids);
            // The last section is one track for both directions: its own number on the way back is not used.
            if let (Some(last), Some(first)) = (there.last(), back.first_mut()) {
                first.track = last.track;
            }
            self.sections.push([there, back]);
            tracks += 2 * length as u32;
        }
        self.plan.subnets = split(&(1..=tracks).collect::<Vec<u32>>(), self.measures.subnets);
    }

    /// From each station to the next, on tracks numbered on from those before.
    fn lay_sections(&mut self, stations: &[u32], tracks: u32, ids: &mut impl Iterator<Item = u32>) -> Vec<Section> {
        let mut sections = Vec::new();
        let mut offset = 0;
        for (track, ends) in (tracks + 1..).zip(stations.windows(2)) {
            let ways = self.ways(ids);
            let slowest = ways.iter().flatten().map(|way| way.0).max().unwrap_or(0);
            sections.push(Section { track, start: ends[0], end: ends[1], offset, ways });
            offset += slowest + DWELL + self.dice.between(0, 20);
        }
        sections
    }

    fn profile_ids(&mut self, sections: usize) -> Vec<u32> {
        let most = sections * self.measures.types * 4;
        self.shape.ids.laid((1..=most as u32).collect(), &mut self.dice)
    }

    /// A section's travel times for each train type, with a profile for each.
    fn ways(&mut self, ids: &mut impl Iterator<Item = u32>) -> Vec<Vec<(u32, u32)>> {
        let quickest = self.dice.between(self.measures.travel.0, self.measures.travel.1);
        let mut types = Vec::new();
        for kind in 0..self.measures.types {
            let times: Vec<u32> = match self.shape.style {
                Style::Underground => (0..4).map(|slower| quickest + slower * SLOWER).collect(),
                Style::Railway => vec![quickest + kind as u32 * RANGE],
            };
            let mut ways = Vec::new();
            for travel in times {
                let id = ids.next().unwrap_or(0);
                let samples = self.samples(travel);
                self.plan.profiles.push((id, samples));
                ways.push((travel, id));
            }
            types.push(ways);
        }
        types
    }

    /// Power while the train gathers speed, little while it rolls, and power given back while it brakes.
    fn samples(&mut self, travel: u32) -> Vec<i32> {
        let most = self.dice.between(self.measures.power.0, self.measures.power.1) as i32;
        let (rolls, brakes) = (travel / 3, travel - travel / 5);
        let mut samples = Vec::with_capacity(travel as usize);
        for second in 0..travel {
            let power = if second < rolls {
                most * (second as i32 + 1) / (rolls as i32 + 1)
            } else if second < brakes {
                most / 16
            } else {
                -most / 3
            };
            samples.push(power + self.dice.between(0, 40) as i32 - 20);
        }
        samples
    }

    /// The runs of all trains, line by line and direction by direction, and their legs.
    fn runs(&mut self) -> Vec<Run> {
        let shape = self.shape;
        let ways = 2 * self.sections.len();
        let mut runs = Vec::new();
        for way in 0..ways {
            let (line, direction) = (way / 2, way % 2);
            let trains = shape.trains / ways + usize::from(way < shape.trains % ways);
            let (from, to) = self.measures.day;
            let spacing = (to - from) / trains.max(1) as u32;
            for place in 0..trains {
                let start = from + place as u32 * spacing + self.dice.between(0, spacing.min(1_800) / 8);
                let train = runs.len() + 1;
                let legs = shape.legs / shape.trains + usize::from(train <= shape.legs % shape.trains);
                let first = self.plan.legs.len();
                self.run(line, direction, train, start, legs);
                runs.push(Run { line, direction, first, legs });
            }
        }
        runs
    }

    fn run(&mut self, line: usize, direction: usize, train: usize, start: u32, legs: usize) {
        let kind = self.dice.below(self.measures.types);
        for place in 0..legs {
            let section = &self.sections[line][direction][place];
            // Four travel times in some rows, three in the others: some 24.8 configurations a leg in all, as published.
            let count = if section.ways[kind].len() == 4 && self.dice.below(1_000) < 455 { 3 } else { section.ways[kind].len() };
            let ways = &section.ways[kind][..count];
            let departure = start + section.offset;
            let (travel, profile) = ways[self.dice.below(ways.len())];
            self.plan.legs.push(Leg {
                id: 0,
                train: train as u32,
                track: section.track,
                start: section.start,
                end: section.end,
                nominal: Offer { departure, travel, profile },
                offers: offers(self.shape.style, departure, ways),
            });
        }
    }

    fn rename_legs(&mut self) {
        let ids = self.shape.ids.laid((1..=self.plan.legs.len() as u32).collect(), &mut self.dice);
        for (leg, id) in self.plan.legs.iter_mut().zip(ids) {
            leg.id = id;
        }
    }

    /// Between a train's legs: the time there is (001), or less of it (000).
    fn dwells(&mut self, runs: &[Run]) {
        for run in runs {
            for row in run.first + 1..run.first + run.legs {
                let there_is = self.plan.legs[row].nominal.departure - self.plan.legs[row - 1].nominal.arrival();
                let low = match self.shape.style {
                    Style::Underground => self.dice.between(DWELL, there_is),
                    Style::Railway => there_is,
                };
                self.add(3, row - 1, row, low, 0, false);
            }
        }
    }

    /// Between two trains on one section, one after the other; when those are used up, over one or more trains between.
    fn headways(&mut self, runs: &[Run]) {
        let wanted = self.shape.headways;
        let mut between = 1;
        while self.plan.records[0].len() < wanted && between < runs.len() {
            for (place, run) in runs.iter().enumerate() {
                let other = match runs.get(place + between) {
                    Some(other) if (other.line, other.direction) == (run.line, run.direction) => other,
                    _ => continue,
                };
                for section in 0..run.legs.min(other.legs) {
                    if self.plan.records[0].len() < wanted {
                        self.headway(run.first + section, other.first + section);
                    }
                }
            }
            between += 1;
        }
    }

    fn headway(&mut self, first: usize, second: usize) {
        let (one, other) = (self.plan.legs[first].nominal, self.plan.legs[second].nominal);
        let gap = (other.departure - one.departure).min(other.arrival() - one.arrival());
        let low = (gap - self.slack()).min(self.measures.headway);
        self.add(1, first, second, low, 0, false);
    }

    /// How far the two ends of a gap may come nearer to each other.
    fn slack(&self) -> u32 {
        2 * self.shape.style.reach() + RANGE
    }

    /// A train leaves the last section of a line, and one of the other direction enters it.
    fn single_tracks(&mut self, runs: &[Run]) {
        let longest = self.sections[0][0].len();
        for run in runs.iter().filter(|run| run.direction == 0 && run.legs == longest) {
            if self.plan.records[1].len() < self.shape.single_tracks {
                let last = run.first + run.legs - 1;
                let free = self.plan.legs[last].nominal.arrival() + self.slack();
                if let Some(other) = self.next_start(runs, run.line, 1, free) {
                    self.add(2, last, other, 0, 0, false);
                }
            }
        }
    }

    /// The first leg of the next run of a line and direction that starts then or later.
    fn next_start(&self, runs: &[Run], line: usize, direction: usize, then: u32) -> Option<usize> {
        let of_line = runs.iter().filter(|run| (run.line, run.direction) == (line, direction));
        of_line.map(|run| run.first).find(|first| self.plan.legs[*first].nominal.departure >= then)
    }

    /// A train ends and goes back as another one; when those are used up, with a longer wait.
    fn turnarounds(&mut self, runs: &[Run]) {
        let mut wait = 60 + self.slack();
        while self.plan.records[3].len() < self.shape.turnarounds && wait < self.plan.horizon() {
            for run in runs {
                if self.plan.records[3].len() < self.shape.turnarounds {
                    let last = run.first + run.legs - 1;
                    let arrival = self.plan.legs[last].nominal.arrival();
                    if let Some(other) = self.next_start(runs, run.line, 1 - run.direction, arrival + wait) {
                        let there_is = self.plan.legs[other].nominal.departure - arrival;
                        self.add(4, last, other, (there_is - self.slack()).min(self.measures.turnaround), 0, false);
                    }
                }
            }
            wait += 600;
        }
    }

    /// A train arrives where another one leaves some minutes later.
    fn connections(&mut self) {
        let mut leaving: Vec<(u32, u32, usize)> =
            self.plan.legs.iter().enumerate().map(|(row, leg)| (leg.start, leg.nominal.departure, row)).collect();
        leaving.sort_unstable();
        let mut arriving: Vec<usize> = (0..self.plan.legs.len()).collect();
        self.dice.shuffle(&mut arriving);
        let mut wait = self.slack();
        while self.plan.records[4].len() < self.shape.connections && wait < self.plan.horizon() {
            for first in &arriving {
                if self.plan.records[4].len() < self.shape.connections {
                    self.connect(*first, &leaving, wait);
                }
            }
            wait += 300;
        }
    }

    fn connect(&mut self, first: usize, leaving: &[(u32, u32, usize)], wait: u32) {
        let leg = &self.plan.legs[first];
        let place = leaving.partition_point(|other| (other.0, other.1) < (leg.end, leg.nominal.arrival() + wait));
        let second = match leaving.get(place) {
            Some((station, _, second)) if *station == leg.end && self.plan.legs[*second].train != leg.train => *second,
            _ => return,
        };
        let by_arrival = self.dice.below(4) > 0;
        let leg = &self.plan.legs[first];
        let from = if by_arrival { leg.nominal.arrival() } else { leg.nominal.departure };
        let gap = self.plan.legs[second].nominal.departure - from;
        self.add(5, first, second, gap - self.slack(), gap + self.slack(), by_arrival);
    }

    fn add(&mut self, kind: usize, first: usize, second: usize, low: u32, high: u32, by_arrival: bool) {
        self.plan.records[kind - 1].push(Record { first, second, low, high, by_arrival });
    }
}

/// Every departure in reach, each with its travel times.
fn offers(style: Style, departure: u32, ways: &[(u32, u32)]) -> Vec<Offer> {
    let (step, reach) = (style.step(), style.reach());
    let departures = (0..=2 * reach / step).map(|steps| departure + steps * step - reach);
    departures
        .flat_map(|departure| ways.iter().map(move |(travel, profile)| Offer { departure, travel: *travel, profile: *profile }))
        .collect()
}

/// So many parts of about the same size.
pub fn split(tracks: &[u32], parts: usize) -> Vec<Vec<u32>> {
    let size = (tracks.len() + parts - 1) / parts;
    tracks.chunks(size).map(<[u32]>::to_vec).collect()
}
