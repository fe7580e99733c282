//! Writes an instance to a folder, with solutions and with one variant for each violation, and prints the answers to expect.

use instances::{exported, indented, Aim, Choices, DutyPlan, DutyShape, Edition, Ids, Plan, Shape, Style, Worst};
use std::fs;
use std::path::Path;
use std::process::ExitCode;

const USAGE: &str = "\
instances FOLDER [--style underground|railway] [--legs N] [--worst] [--seed S] [--edition 1|2] [--shuffled] [--exported] [--indented]
instances FOLDER --duties real|limits|worst [--seed S] [--exported]

Without --legs, the largest instance of the style; without --edition, 2, in which a turnaround has min_turnaround_time. With --worst, the worst file that document
01 allows, of no style, without turnarounds or violations. With --exported, CSV files as a spreadsheet exports them: every field in quotes, CR LF at every line. With
--indented, constraints with each member on a line of its own. With --duties, a file of rolling stock duties and nothing else: of real sizes, as large as document
02 allows, or the worst that it allows; and the same with each rule broken that it can break.
";

fn main() -> ExitCode {
    let words: Vec<String> = std::env::args().skip(1).collect();
    let ended = asked(&words).ok_or_else(|| String::from(USAGE)).and_then(|asked| write(&asked));
    match ended {
        Ok(expected) => {
            print!("{expected}");
            ExitCode::SUCCESS
        }
        Err(why) => {
            eprint!("{why}");
            ExitCode::FAILURE
        }
    }
}

/// What the words ask for.
struct Asked<'a> {
    folder: &'a Path,
    style: Style,
    legs: Option<usize>,
    worst: bool,
    seed: u64,
    ids: Ids,
    edition: Edition,
    exported: bool,
    indented: bool,
    duties: Option<DutyShape>,
}

fn asked(words: &[String]) -> Option<Asked<'_>> {
    let (folder, options) = words.split_first()?;
    let (folder, style, ids) = (Path::new(folder), Style::Underground, Ids::InOrder);
    let edition = Edition::Example;
    let mut asked =
        Asked { folder, style, legs: None, worst: false, seed: 1, ids, edition, exported: false, indented: false, duties: None };
    let mut options = options.iter();
    while let Some(option) = options.next() {
        match option.as_str() {
            "--style" => asked.style = self::style(options.next()?)?,
            "--legs" => asked.legs = Some(options.next()?.parse().ok().filter(|legs| *legs > 1)?),
            "--worst" => asked.worst = true,
            "--seed" => asked.seed = options.next()?.parse().ok()?,
            "--edition" => asked.edition = self::edition(options.next()?)?,
            "--duties" => asked.duties = Some(duties(options.next()?)?),
            "--shuffled" => asked.ids = Ids::Shuffled,
            "--exported" => asked.exported = true,
            "--indented" => asked.indented = true,
            _ => return None,
        }
    }
    Some(asked)
}

impl Asked<'_> {
    fn plan(&self) -> Plan {
        if self.worst {
            return Plan::worst(Worst::at_the_limits().seeded(self.seed).with_ids(self.ids));
        }
        let shape = match (self.legs, self.style) {
            (Some(legs), style) => Shape::of(style, legs),
            (None, Style::Underground) => Shape::largest_underground(),
            (None, Style::Railway) => Shape::largest_railway(),
        };
        Plan::new(shape.seeded(self.seed).with_ids(self.ids).in_edition(self.edition))
    }

    /// A CSV file or constraints, spelled as is asked for.
    fn put(&self, name: &str, text: &str) -> Result<(), String> {
        let csv = name.ends_with(".csv");
        let spelled = if csv { self.exported.then(|| exported(text)) } else { self.indented.then(|| indented(text)) };
        fs::write(self.folder.join(name), spelled.as_deref().unwrap_or(text)).map_err(|error| format!("{name}: {error}\n"))
    }
}

fn style(name: &str) -> Option<Style> {
    match name {
        "underground" => Some(Style::Underground),
        "railway" => Some(Style::Railway),
        _ => None,
    }
}

fn duties(name: &str) -> Option<DutyShape> {
    match name {
        "real" => Some(DutyShape::real()),
        "limits" => Some(DutyShape::at_the_limits()),
        "worst" => Some(DutyShape::worst()),
        _ => None,
    }
}

fn edition(number: &str) -> Option<Edition> {
    [Edition::Table, Edition::Example].into_iter().find(|edition| edition.number().to_string() == number)
}

fn write(asked: &Asked) -> Result<String, String> {
    fs::create_dir_all(asked.folder).map_err(|error| format!("{}: {error}\n", asked.folder.display()))?;
    if let Some(shape) = asked.duties {
        return write_duties(asked, shape);
    }
    let plan = asked.plan();
    asked.put("timetable.csv", &plan.timetable())?;
    asked.put("profiles.csv", &plan.profiles_text())?;
    asked.put("constraints.json", &plan.constraints())?;
    let mut expected = format!("horizon {}\nedition {}\n", plan.horizon(), plan.edition().number());
    let faster = plan.choose(Choices::Faster(asked.seed));
    for (name, solution) in [
        ("moved", plan.solution(&plan.choose(Choices::Moved(asked.seed)))),
        ("also-moved", plan.solution(&plan.choose(Choices::Moved(asked.seed + 1)))),
        ("faster", plan.solution(&faster)),
        ("faster-alone", plan.solution_of_choices(&faster)),
    ] {
        asked.put(&format!("{name}.csv"), &solution)?;
        expected.push_str(&format!("constraints.json {name}.csv: accepted\n"));
    }
    // At the limits there is no room for a choice more in a list, nor for more seconds in a record.
    let aims = if asked.worst { &[][..] } else { &Aim::ALL[..] };
    for aim in aims {
        expected.push_str(&write_violated(asked, &plan, *aim)?);
    }
    Ok(expected)
}

/// The file, and one for each rule.
fn write_duties(asked: &Asked, shape: DutyShape) -> Result<String, String> {
    let plan = DutyPlan::new(shape.seeded(asked.seed));
    asked.put("duties.csv", &plan.text())?;
    let mut expected = format!("duties.csv: accepted, {} nodes\n", shape.nodes);
    for rule in 1..=6 {
        if let Some((broken, row)) = plan.broken(rule) {
            let name = format!("broken-{rule}.csv");
            asked.put(&name, &broken.text())?;
            expected.push_str(&format!("{name}: broken, row {row}, rule {rule}\n"));
        }
    }
    Ok(expected)
}

/// Its line of what to expect; none where the plan has no record that can fail so.
fn write_violated(asked: &Asked, plan: &Plan, aim: Aim) -> Result<String, String> {
    let violated = match plan.violated(aim, asked.seed) {
        Some(violated) => violated,
        None => return Ok(String::new()),
    };
    let (kind, inequality, position, shortfall) = (aim.kind, aim.inequality, violated.position, violated.shortfall);
    let name = format!("violated-{kind}-{inequality}");
    asked.put(&format!("{name}.json"), &violated.constraints)?;
    asked.put(&format!("{name}.csv"), &violated.solution)?;
    let found = format!("kind {kind}, position {position}, inequality {inequality}, shortfall {shortfall}");
    Ok(format!("{name}.json {name}.csv: violated, {found}\n"))
}
