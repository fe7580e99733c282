//! The help of the command, and of each of its works.

use super::Verb;

const CHECK: &str = "wagontulip check  --horizon H [--edition N] TIMETABLE PROFILES CONSTRAINTS SOLUTION\n";
const ENERGY: &str = "wagontulip energy --horizon H [--edition N] TIMETABLE PROFILES CONSTRAINTS SOLUTION [--curves OUT]\n";
const MERGE: &str = "wagontulip merge  --horizon H [--edition N] TIMETABLE PROFILES CONSTRAINTS FIRST SECOND --earlier OUT --later OUT\n";
const DUTIES: &str = "wagontulip duties FILE\n";
const ROW: &str = "\
wagontulip row    --place P FILE
wagontulip row    --file N --place P TIMETABLE SOLUTION
";
const ITSELF: &str = "wagontulip -h | --help | -V | --version\n";

const OF_CHECK: &str = "
Judges the solution: whether every choice is offered in the draft, and every inequality holds.
";
const OF_ENERGY: &str = "
Judges the solution, and tells the energies of an accepted one.
";
const OF_MERGE: &str = "
Judges both solutions, and writes the two merged timetables where both are accepted.
";
const OF_DUTIES: &str = "
Judges rolling stock duties: whether every row keeps the six rules. Of accepted ones it tells, node by node, the duties that
end there less those that start there. A row that breaks a rule is shown with the row before it.

";
const OF_ROW: &str = "
Shows the row that starts at a place, as a refusal tells one: of any CSV file, or by the refusal's file number.

  --place P       bytes before the row
  --file N        1 for the timetable, 4 for the solution
";

const STATED: &str = "
  --horizon H     seconds of the horizon
  --edition N     of CONSTRAINTS: 1 where its turnarounds have min_dwell_time, 2 where they have min_turnaround_time; where no
                  edition is given, 2 is stated
";
const CURVES: &str = "  --curves OUT    write the power of every second: one line a second, the subnets' kW in order
";
const OUTPUTS: &str = "  --earlier OUT   where the earlier choice of each leg is written
  --later OUT     where the later choice of each leg is written
";
const OPTIONS: &str =
    "  --json          the result as one object, for a program and for a signature: docs/schema/answer-3.json describes it
  --room TABLE=N  lend N numbers (bytes, for text) in the place of the room at the limits, which is the most; TABLE is legs,
                  configurations, profiles, samples, constraints, tracks, choices, second_choices, curves, text,
                  or for duties nodes and balance
  --no-install    where the program has to be built first, install no package and name what is missing
  -h, --help      this help; after a command, that command's
  -V, --version   what this program is

A value follows its option as the next word or after `=`. One input may be `-`, which is standard input. After `--` every word is a file.
An output that is there is replaced and keeps its mode; a symbolic link is no output. Outputs get their names when the result was printed.

Exit status: 0 accepted, 1 violated, 2 refused, 3 could not run.
";

/// Of one command, or of all of them.
pub fn help(verb: Option<Verb>) -> String {
    let parts: &[&str] = match verb {
        None => &[CHECK, ENERGY, MERGE, DUTIES, ROW, ITSELF, "\n", OPTIONS],
        Some(Verb::Check) => &[CHECK, OF_CHECK, STATED, OPTIONS],
        Some(Verb::Energy) => &[ENERGY, OF_ENERGY, STATED, CURVES, OPTIONS],
        Some(Verb::Merge) => &[MERGE, OF_MERGE, STATED, OUTPUTS, OPTIONS],
        Some(Verb::Duties) => &[DUTIES, OF_DUTIES, OPTIONS],
        Some(Verb::Row) => &[ROW, OF_ROW, OPTIONS],
    };
    parts.concat()
}
