//! What is measured, one after the other: the largest underground instance and the command on it, growth, further spellings, the worst legal file.

use crate::folder::Folder;
use crate::instance::{underground, Instance};
use crate::sides::{self, Side};
use crate::tables::{self, Measured, CHECK, CONSTRAINTS, ENERGY, PARTS, PROVED, SOLUTION};
use crate::{command, measure, memory, pandas};
use instances::{Ids, Plan, Shape, Worst};

/// Of the worst file, which may take seconds.
const FEW_RUNS: usize = 3;
const PANDAS_RUNS: usize = 2;
const GROWTH: [usize; 4] = [1_500, 3_000, 6_000, 12_000];
const ORDERS: [(Ids, &str); 2] = [(Ids::InOrder, "in order"), (Ids::Shuffled, "shuffled")];

pub fn print(runs: usize, smaller: usize) -> Result<(), String> {
    let folder = Folder::new().map_err(|error| error.to_string())?;
    let mut bench = Bench { sides: sides::all(), folder, runs, smaller };
    bench.print_how();
    bench.largest()?;
    bench.growth()?;
    bench.spellings()?;
    bench.worst()
}

/// What is measured with: the sides, a folder for processes of their own, how often, and how many times smaller everything is.
struct Bench {
    sides: Vec<Box<dyn Side>>,
    folder: Folder,
    runs: usize,
    smaller: usize,
}

impl Bench {
    fn few(&self) -> usize {
        self.runs.min(FEW_RUNS)
    }

    fn legs(&self, legs: usize) -> usize {
        (legs / self.smaller).max(2)
    }

    fn largest_legs(&self) -> usize {
        self.legs(Shape::largest_underground().legs)
    }

    fn print_how(&self) {
        println!(
            "Best of {} runs, of the worst file of {}; all sides by turns, time of the thread. In brackets MB/s, or microseconds",
            self.runs,
            self.few()
        );
        println!("a leg, and times the yardstick. A dash: not measured, or a difference of two times that is less than nothing.");
        let runner = std::env::var("WAGONTULIP_RUNNER").map_or(String::new(), |runner| format!(", and run by {runner}"));
        println!("Built for {}{runner}.", std::env::consts::ARCH);
        match std::env::var_os("PANDAS_PYTHON") {
            Some(_) => println!("pandas: best of {PANDAS_RUNS}, never emulated."),
            None => println!("No python3 with pandas: its column is empty."),
        }
    }

    /// By all sides, and by pandas, whose peak of memory comes with it.
    fn measured(&mut self, instance: Instance, runs: usize) -> Result<(Measured, Option<f64>), String> {
        self.folder.hold(&instance).map_err(|error| error.to_string())?;
        let (times, figures) = measure::all(&mut self.sides, &instance, runs);
        let pandas = pandas::run(&self.folder.0, instance.h, PANDAS_RUNS);
        if let Some(pandas) = &pandas {
            assert_eq!(pandas.figures[..], figures[..3], "pandas gives other figures");
        }
        let times = times.into_iter().map(Some).chain([pandas.as_ref().map(|pandas| pandas.times)]).collect();
        Ok((Measured { instance, times }, pandas.map(|pandas| pandas.peak)))
    }

    fn largest(&mut self) -> Result<(), String> {
        let instance = Instance::of(&underground(self.largest_legs(), Ids::InOrder));
        let (measured, pandas_peak) = self.measured(instance, self.runs)?;
        tables::print_parts("The largest underground instance", &measured, &PARTS);
        self.print_memory(&measured.instance, pandas_peak);
        let library = measured.times[PROVED].map_or(f64::NAN, |times| times.check);
        command::print(&self.folder.0, measured.instance.h, self.runs, library)
    }

    /// Of the files that the folder holds.
    fn print_memory(&self, instance: &Instance, pandas_peak: Option<f64>) {
        let room = 4 * sides::ROOMS.iter().sum::<usize>();
        let megabytes = |bytes: f64| format!("{:.1}", bytes / 1e6);
        println!(
            "\nPeak memory of one run of energy; the texts are {} MB, the room at the limits {} MB.\n",
            megabytes(instance.bytes() as f64),
            megabytes(room as f64)
        );
        println!("| side | MB |\n|-|-|");
        let peaks = self.sides.iter().map(|side| (side.name(), memory::peak(side.name(), &self.folder.0, instance.h)));
        for (name, peak) in peaks.chain([("pandas", pandas_peak)]) {
            println!("| {name} | {} |", peak.map_or(String::from("-"), megabytes));
        }
    }

    fn growth(&mut self) -> Result<(), String> {
        let sizes = GROWTH.map(|legs| self.legs(legs)).into_iter().chain([self.largest_legs()]);
        let mut grown = Vec::new();
        for ((ids, name), legs) in ORDERS.into_iter().flat_map(|order| sizes.clone().map(move |legs| (order, legs))) {
            grown.push((name, self.measured(Instance::of(&underground(legs, ids)), self.runs)?.0));
        }
        tables::print_growth(&grown, CHECK);
        tables::print_growth(&grown, ENERGY);
        Ok(())
    }

    fn spellings(&mut self) -> Result<(), String> {
        let plan = underground(self.largest_legs(), Ids::InOrder);
        for (title, instance, stage) in [
            ("A solution whose lists are the choice alone", Instance::of_choices_alone(&plan), SOLUTION),
            ("Constraints with each member on a line of its own", Instance::of_indented_constraints(&plan), CONSTRAINTS),
        ] {
            let (measured, _) = self.measured(instance, self.runs)?;
            tables::print_parts(title, &measured, &[stage, CHECK, ENERGY]);
        }
        Ok(())
    }

    fn worst(&mut self) -> Result<(), String> {
        for (ids, name) in ORDERS {
            let plan = Plan::worst(Worst::at_the_limits().smaller(self.smaller).with_ids(ids));
            let (measured, _) = self.measured(Instance::of(&plan), self.few())?;
            tables::print_parts(&format!("The worst legal file, ids {name}"), &measured, &PARTS);
        }
        Ok(())
    }
}
