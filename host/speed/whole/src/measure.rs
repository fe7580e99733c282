//! Times: best of so many runs, of this thread alone, all sides by turns.

use crate::instance::{Instance, Upto};
use crate::sides::{Figures, Outcome, Side};
use yardstick::clock;

/// Milliseconds.
pub type Ms = f64;

/// The times of one side on one instance, each with all stages before it.
#[derive(Clone, Copy, Debug)]
pub struct Times {
    /// A refusal's filling, which is in the next three too, and in no acceptance.
    pub nothing: Ms,
    pub timetable: Ms,
    pub profiles: Ms,
    pub constraints: Ms,
    pub check: Ms,
    pub energy: Ms,
}

impl Times {
    fn none() -> Times {
        let none = f64::INFINITY;
        Times { nothing: none, timetable: none, profiles: none, constraints: none, check: none, energy: none }
    }

    pub fn of_timetable(&self) -> Ms {
        self.timetable - self.nothing
    }

    /// With 12 and 13.
    pub fn of_profiles(&self) -> Ms {
        self.profiles - self.timetable
    }

    /// With 15.
    pub fn of_constraints(&self) -> Ms {
        self.constraints - self.profiles
    }

    /// With 14 and the verdict.
    pub fn of_solution(&self) -> Ms {
        self.check - (self.constraints - self.nothing)
    }

    /// Curves and sums alone.
    pub fn of_curves(&self) -> Ms {
        self.energy - self.check
    }
}

/// The times of every side, after all have given the same answers, and the figures.
pub fn all(sides: &mut [Box<dyn Side>], instance: &Instance, runs: usize) -> (Vec<Times>, Figures) {
    let figures = agreed(sides, instance);
    let mut times = vec![Times::none(); sides.len()];
    for _ in 0..runs {
        for (side, times) in sides.iter_mut().zip(&mut times) {
            once(side.as_mut(), instance, times);
        }
    }
    (times, figures)
}

fn once(side: &mut dyn Side, instance: &Instance, times: &mut Times) {
    let stages = [
        (Upto::Nothing, &mut times.nothing),
        (Upto::Timetable, &mut times.timetable),
        (Upto::Profiles, &mut times.profiles),
        (Upto::Constraints, &mut times.constraints),
    ];
    for (upto, best) in stages {
        let (h, texts) = upto.texts(instance);
        *best = best.min(timed(|| side.check(h, &texts)));
    }
    let texts = instance.texts();
    times.check = times.check.min(timed(|| side.check(instance.h, &texts)));
    times.energy = times.energy.min(timed(|| side.energy(instance.h, &texts)));
}

/// A side is called through a table of functions, so that its work cannot be left out.
fn timed<T>(work: impl FnOnce() -> T) -> Ms {
    let start = clock::now();
    let given = work();
    let took = clock::now() - start;
    drop(given);
    took.as_secs_f64() * 1e3
}

/// Before anything is timed.
fn agreed(sides: &mut [Box<dyn Side>], instance: &Instance) -> Figures {
    let mut figures = Vec::new();
    for side in sides {
        for upto in [Upto::Timetable, Upto::Profiles, Upto::Constraints] {
            let (h, texts) = upto.texts(instance);
            assert_eq!(Some(side.check(h, &texts)), upto.stops_at().map(Outcome::Stopped), "{} {upto:?}", side.name());
        }
        let (outcome, its) = side.energy(instance.h, &instance.texts());
        assert_eq!(outcome, Outcome::Accepted, "{}", side.name());
        figures.push(its);
    }
    assert!(figures.iter().all(|its| *its == figures[0]), "the sides differ: {figures:?}");
    figures[0]
}
