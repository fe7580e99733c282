//! How much stack an entry of the proved library takes. A thread fills its stack down to some depth and then calls the entry; the greatest depth at which
//! it still ends, less that at which a call of nothing ends, is the entry's own. A thread that has too little kills its process, so each trial is one.

use crate::instance::Instance;
use crate::memory::again;
use instances::{Choices, DutyPlan, DutyShape, Plan, Shape, Style};
use std::thread;
use wagontulip::{row_at, Checker, Edition, Files, Stated};

const ENTRIES: [&str; 6] = ["nothing", "check", "energy", "merge", "row", "duties"];

/// The thread's stack, and what each level of the filling takes of it at least.
const STACK: usize = 4 << 20;
const FRAME: usize = 256;
/// More legs, or duties of a row each, take no more stack if nothing recurses over them.
const LEGS: [usize; 2] = [40, 600];

/// Bytes of each entry, for each number of legs.
pub fn print() -> Result<(), String> {
    println!("| entry | {} |\n|-|{}", LEGS.map(|legs| format!("{legs} legs, bytes of stack")).join(" | "), "-|".repeat(LEGS.len()));
    let nothing = LEGS.map(|legs| deepest(ENTRIES[0], legs));
    for entry in &ENTRIES[1..] {
        let cells = LEGS.iter().zip(nothing).map(|(legs, nothing)| nothing.saturating_sub(deepest(entry, *legs)).to_string());
        println!("| {entry} | {} |", cells.collect::<Vec<String>>().join(" | "));
    }
    Ok(())
}

/// The bytes that can be filled before the entry is called, by halving.
fn deepest(entry: &str, legs: usize) -> usize {
    let (mut ends, mut fails, mut bytes) = (0, STACK / FRAME, 0);
    while fails - ends > 1 {
        let middle = (fails + ends) / 2;
        match filled(entry, legs, middle) {
            Some(filled) => (ends, bytes) = (middle, filled),
            None => fails = middle,
        }
    }
    bytes
}

/// The bytes that so many levels fill, if the entry then ends.
fn filled(entry: &str, legs: usize, levels: usize) -> Option<usize> {
    let output = again()?.args(["stack", entry, &legs.to_string(), &levels.to_string()]).output().ok()?;
    output.status.success().then(|| String::from_utf8(output.stdout).ok()?.trim().parse().ok())?
}

/// What the process of its own does.
pub fn run(entry: &str, legs: usize, levels: usize) -> Result<(), String> {
    let plan = Plan::new(Shape::of(Style::Underground, legs));
    let second = plan.solution(&plan.choose(Choices::Moved(1))).into_bytes();
    let instance = Instance::of(&plan);
    let duties = DutyPlan::new(DutyShape { duties: legs, nodes: legs, ..DutyShape::at_the_limits() }).text();
    let mut checker = Checker::new().map_err(|none| none.to_string())?;
    let entry = entry.to_string();
    let work = move || {
        let (stated, draft) = (Stated { horizon: instance.h, edition: Edition::EXAMPLE }, &instance.timetable);
        let files = Files { timetable: draft, profiles: &instance.profiles, constraints: &instance.constraints };
        let top = 0u8;
        let bottom = fill(levels, &mut || match entry.as_str() {
            "check" => drop(checker.check(stated, &files, draft)),
            "energy" => drop(checker.energy(stated, &files, draft)),
            "merge" => drop(checker.merge_later(stated, &files, draft, &second)),
            "row" => drop(row_at(draft, &second, 1, 200)),
            "duties" => drop(checker.duties(duties.as_bytes())),
            _ => {}
        });
        (&top as *const u8 as usize).abs_diff(bottom)
    };
    let thread = thread::Builder::new().stack_size(STACK).spawn(work).map_err(|error| error.to_string())?;
    println!("{}", thread.join().map_err(|_| String::from("the thread failed"))?);
    Ok(())
}

/// Goes down so many levels, does the work there, and gives the address of the last.
#[inline(never)]
fn fill(levels: usize, work: &mut dyn FnMut()) -> usize {
    let mut frame = [0u8; FRAME];
    touch(&mut frame, levels);
    if levels == 0 {
        work();
        return frame.as_ptr() as usize;
    }
    let bottom = fill(levels - 1, work);
    touch(&mut frame, bottom);
    bottom
}

/// So that the frame is there, and stays until what is below it has ended.
fn touch(frame: &mut [u8; FRAME], with: usize) {
    // Safe: the pointer is to the frame.
    unsafe { std::ptr::write_volatile(frame, [with as u8; FRAME]) };
}
