//! Calls through an executor, line by line beside the expected ones.

use crate::coverage::Coverage;
use crate::executor::{Executor, NO_LINE};
use crate::expected::line;
use crate::{saved, spread};
use cases::{twin, Named};
use independent::{Call, Entry};
use std::path::PathBuf;
use std::sync::atomic::{AtomicUsize, Ordering};
use std::sync::Mutex;

/// How many differences are told and saved.
const MOST_TOLD: usize = 5;

/// What is compared.
pub struct Plan {
    pub seed: u64,
    pub count: usize,
    pub entries: Vec<Entry>,
    /// Whether the calls that no seed changes come first, and every answer that an input can reach must be met.
    pub whole: bool,
    /// Where calls that differ are saved.
    pub folder: PathBuf,
}

/// What came of it.
#[derive(Default)]
pub struct Outcome {
    pub coverage: Coverage,
    pub calls: usize,
    pub differences: Vec<String>,
}

/// A line that is not as expected.
struct Difference<'a> {
    named: &'a Named,
    expected: String,
    given: String,
}

/// The calls that no seed changes, then the seeded ones. Batches are made on all of the machine's processors, and go through the executor as they are ready.
pub fn compare(executor: &dyn Executor, plan: &Plan) -> Result<Outcome, String> {
    let next = AtomicUsize::new(0);
    let outcome = Mutex::new(Outcome::default());
    let failed = Mutex::new(None);
    let workers = std::thread::available_parallelism().map_or(1, usize::from);
    std::thread::scope(|scope| {
        for _ in 0..workers {
            scope.spawn(|| {
                while let Some(batch) = batch(plan, executor.batch(), next.fetch_add(1, Ordering::Relaxed)) {
                    if let Err(message) = compare_batch(executor, &batch, plan, &outcome) {
                        failed.lock().expect("no worker panics").get_or_insert(message);
                        return;
                    }
                }
            });
        }
    });
    match failed.into_inner().expect("no worker panics") {
        Some(message) => Err(message),
        None => executor.end().map(|()| outcome.into_inner().expect("no worker panics")),
    }
}

/// The batch of a number: the first is the fixed calls.
fn batch(plan: &Plan, size: usize, number: usize) -> Option<Vec<Named>> {
    if number == 0 {
        return Some(if plan.whole { fixed(&plan.entries) } else { Vec::new() });
    }
    let first = (number - 1) * size;
    let last = plan.count.min(first + size);
    (first < last).then(|| cases::calls(plan.seed, first..last, &plan.entries))
}

/// The calls that no seed changes: the worked examples, the edges, those of quotes and CR LF, those of editions, those of counts, one for each answer, those of duties.
pub fn fixed(entries: &[Entry]) -> Vec<Named> {
    let mut calls = cases::examples::worked();
    calls.extend(cases::edges::edges());
    calls.extend(cases::quotes::calls());
    calls.extend(cases::editions::calls());
    calls.extend(cases::tallies::calls());
    calls.extend(spread::calls());
    calls.extend(cases::duties::calls());
    calls.retain(|named| entries.contains(&named.call.entry));
    calls
}

/// The calls, and the twins of those that have one.
fn compare_batch(executor: &dyn Executor, batch: &[Named], plan: &Plan, outcome: &Mutex<Outcome>) -> Result<(), String> {
    let (calls, twins) = twinned(batch);
    let mut coverage = Coverage::default();
    let mut differences = unlike(&calls, &twins, &mut coverage);
    for calls in [batch, &twins] {
        differences.extend(compared(executor, calls, &mut coverage)?);
    }
    let mut outcome = outcome.lock().expect("no worker panics");
    outcome.calls += batch.len() + twins.len();
    outcome.coverage.add(&coverage);
    for difference in differences {
        let number = outcome.differences.len();
        outcome.differences.push(in_words(&difference, plan, number)?);
    }
    Ok(())
}

/// The calls that have a twin, and their twins.
fn twinned(batch: &[Named]) -> (Vec<&Named>, Vec<Named>) {
    batch.iter().filter_map(|named| Some((named, twin::named(named)?))).unzip()
}

/// The twins whose lines are not those of their calls, by the independent program itself. So where no line differs from an expected one, twins are alike.
fn unlike<'a>(calls: &[&Named], twins: &'a [Named], coverage: &mut Coverage) -> Vec<Difference<'a>> {
    let mut differences = Vec::new();
    for (named, twin) in calls.iter().zip(twins) {
        let [expected, given] = [&named.call, &twin.call].map(|call| line(call).1);
        if expected == given {
            coverage.count_twin(&named.call);
        } else {
            differences.push(Difference { named: twin, expected, given });
        }
    }
    differences
}

fn compared<'a>(executor: &dyn Executor, batch: &'a [Named], coverage: &mut Coverage) -> Result<Vec<Difference<'a>>, String> {
    let calls: Vec<&Call> = batch.iter().map(|named| &named.call).collect();
    let mut expected = Vec::new();
    for call in &calls {
        let (said, line) = executor.expected(call);
        coverage.count(call, &said);
        expected.push(line);
    }
    Ok(differences(batch, expected, executor.run(&calls)?))
}

/// The calls whose lines are not the expected ones; a missing line differs too.
fn differences(batch: &[Named], expected: Vec<String>, given: Vec<String>) -> Vec<Difference<'_>> {
    let missing = std::iter::repeat(String::from(NO_LINE));
    batch
        .iter()
        .zip(expected)
        .zip(given.into_iter().chain(missing))
        .filter(|((_, expected), given)| expected != given)
        .map(|((named, expected), given)| Difference { named, expected, given })
        .collect()
}

/// The difference in words; the first ones are saved.
fn in_words(difference: &Difference, plan: &Plan, number: usize) -> Result<String, String> {
    let Difference { named, expected, given } = difference;
    let mut told = format!("{}, {}\n  expected {expected}\n  given    {given}", named.call.entry.name(), named.name);
    if number < MOST_TOLD {
        let folder = plan.folder.join(format!("difference-{}", number + 1));
        saved::save(&folder, &named.call, &told)?;
        told.push_str(&format!("\n  saved in {}", folder.display()));
    }
    Ok(told)
}

/// The comparison in words: how often each answer was met, and that nothing differs and no cell is empty; else what is wrong.
pub fn told(executor: &dyn Executor, plan: &Plan) -> Result<String, String> {
    let outcome = compare(executor, plan)?;
    let told = format!("{}{} calls compared", outcome.coverage, outcome.calls);
    let empty = outcome.coverage.empty_cells(&plan.entries);
    if !outcome.differences.is_empty() {
        let first: Vec<&str> = outcome.differences.iter().take(MOST_TOLD).map(String::as_str).collect();
        return Err(format!("{told}\n{}\n{} lines differ", first.join("\n"), outcome.differences.len()));
    }
    if !plan.whole {
        return Ok(format!("{told}, no difference\n"));
    }
    if !empty.is_empty() {
        return Err(format!("{told}\nno call met: {}", empty.join("; ")));
    }
    Ok(format!("{told}, no difference, no empty cell\n"))
}

#[cfg(test)]
mod tests {
    use super::*;
    use independent::Case;

    /// A twin has the line of its call; what is none, as where a key is not renamed, has another.
    #[test]
    fn a_call_that_is_no_twin_is_found() {
        let calls = cases::editions::calls_of(Entry::Energy);
        let (calls, twins) = twinned(&calls);
        assert_eq!((calls.len(), unlike(&calls, &twins, &mut Coverage::default()).len()), (6, 0));
        let unnamed = |(named, twin): (&&Named, &Named)| {
            let case = Case { edition: twin.call.case.edition, ..named.call.case.clone() };
            Named { name: twin.name.clone(), call: Call::of(Entry::Energy, case) }
        };
        let unnamed: Vec<Named> = calls.iter().zip(&twins).map(unnamed).collect();
        assert_eq!(unlike(&calls, &unnamed, &mut Coverage::default()).len(), 4);
    }
}
