//! Files of rolling stock duties through the proved library, beside the independent program: of real sizes, at document 02's limits, and the worst legal one, plain and
//! as a spreadsheet exports them.
//!
//!     duties RUNS

mod proved;

use independent::{check_duties, Answer, Lent, Rooms};
use instances::{exported, DutyPlan, DutyShape};
use proved::Tables;
use std::process::ExitCode;
use std::time::Duration;
use yardstick::clock;

/// What a file at the limits may take.
const AIM: Duration = Duration::from_secs(1);

/// A file by its name and its shape, and whether the aim is its own.
type File = (&'static str, fn() -> DutyShape, bool);

const FILES: [File; 3] = [
    ("real sizes", DutyShape::real, true),
    ("at the limits, names that begin alike", DutyShape::at_the_limits, true),
    ("the worst legal file", DutyShape::worst, false),
];

/// More runs than these do not show anything of a file that takes so long.
const LONG: Duration = Duration::from_millis(200);
const RUNS_OF_LONG: usize = 5;

fn main() -> ExitCode {
    let words: Vec<String> = std::env::args().skip(1).collect();
    let runs = match &words[..] {
        [runs] => runs.parse().map_err(|_| format!("no number of runs: {runs}")),
        _ => Err(String::from("duties RUNS")),
    };
    match runs.and_then(measured) {
        Ok(()) => ExitCode::SUCCESS,
        Err(why) => {
            eprintln!("duties: {why}");
            ExitCode::FAILURE
        }
    }
}

fn measured(runs: usize) -> Result<(), String> {
    println!("Best of {runs}, of files that take long best of {RUNS_OF_LONG}, time of the thread.\n");
    println!("| file | MB | rows | nodes | proved, ms | independent, ms |\n|{}", "-|".repeat(6));
    let mut late = Vec::new();
    for (name, shape, has_aim) in FILES {
        let plan = DutyPlan::new(shape());
        for (spelling, text) in [("", plan.text()), (", in quotes", exported(&plan.text()))] {
            agreed(&text).map_err(|why| format!("{name}{spelling}: {why}"))?;
            let mut tables = Tables::at_the_limits();
            let proved = best(runs, || tables.asked(text.as_bytes()));
            let independent = best(runs, || check_duties(text.as_bytes(), &rooms()));
            let (rows, nodes, megabytes) = (plan.rows(), shape().nodes, text.len() as f64 / 1e6);
            println!("| {name}{spelling} | {megabytes:.2} | {rows} | {nodes} | **{:.2}** | {:.2} |", ms(proved), ms(independent));
            if has_aim && proved > AIM {
                late.push(format!("{name}{spelling}"));
            }
        }
    }
    let aim = if late.is_empty() { String::from("met") } else { format!("missed: {}", late.join("; ")) };
    println!("\nThe aim, {} s for what is not the worst: {aim}.", AIM.as_secs());
    Ok(())
}

fn rooms() -> Rooms {
    let Tables { nodes, balance, .. } = Tables::at_the_limits();
    Rooms { legs: nodes.len(), curves: balance.len(), ..Rooms::all(0) }
}

fn ms(time: Duration) -> f64 {
    time.as_secs_f64() * 1e3
}

/// The least time of some work, whose outcome is kept until it is done.
fn best<T>(runs: usize, mut work: impl FnMut() -> T) -> Duration {
    let mut once = || {
        let start = clock::now();
        let _ = clock::kept(work());
        clock::now() - start
    };
    let first = once();
    let more = if first > LONG { runs.min(RUNS_OF_LONG) } else { runs };
    (1..more).map(|_| once()).fold(first, Duration::min)
}

/// Both sides must accept the file, with the same tables.
fn agreed(text: &str) -> Result<(), String> {
    let duties = check_duties(text.as_bytes(), &rooms());
    let mut lent = Lent::full_of(0, &rooms());
    lent.leave_duties(&duties);
    let mut tables = Tables::at_the_limits();
    let given = tables.asked(text.as_bytes());
    let nodes = duties.balance.as_ref().map_or(0, Vec::len) as u64;
    if duties.answer != Answer::Accepted || given[..2] != [0, nodes] {
        return Err(format!("{} and {given:?}", duties.answer.line()));
    }
    if (&lent.legs, &lent.curves) != (&tables.nodes, &tables.balance) {
        return Err(String::from("the tables differ"));
    }
    Ok(())
}
