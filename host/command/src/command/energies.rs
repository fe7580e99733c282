//! The energies of an accepted solution: in words, as keys, and the curves as lines.

use super::clock;
use super::json::Object;
use wagontulip::Figures;

/// The seconds of a quarter hour, which document 01 fixes. The library tells a peak by its quarter's number, and not how long a quarter is.
const QUARTER: u32 = 900;

const KJ_A_MWH: u64 = 3_600_000;

/// The kJ of a quarter hour at one MW.
const KJ_A_MW: u64 = 1_000 * QUARTER as u64;

/// Kilojoules in a unit of so many, with three decimals. Rounded down: no more is shown than there is, and the exact kJ stand beside it.
fn decimals(kj: u64, unit: u64) -> String {
    format!("{}.{:03}", kj / unit, kj % unit * 1_000 / unit)
}

/// From when to when a quarter lasts: a last one that the horizon cuts ends with it.
fn clocks(horizon: u32, quarter: u32) -> [String; 2] {
    [QUARTER * quarter, horizon.min(QUARTER * (quarter + 1))].map(clock)
}

/// As the small program of document 01 words them.
pub fn lines(f: &Figures, horizon: u32) -> String {
    let energy = |kj: u64| format!("{kj} kJ, {} MWh", decimals(kj, KJ_A_MWH));
    let peak = |kj: u64, quarter: u32| format!("{kj} kJ, {} MW, {}", decimals(kj, KJ_A_MW), clocks(horizon, quarter).join(" to "));
    [
        format!("before recuperation: {}\n", energy(f.before_kj)),
        format!("drawn: {}\n", energy(f.drawn_kj)),
        format!("lost: {}\n", energy(f.lost_kj)),
        format!("fluctuation: {} kW\n", f.fluctuation_kw),
        format!("peak quarter before recuperation: {}\n", peak(f.peak_before_kj, f.peak_before_quarter)),
        format!("peak quarter drawn: {}\n", peak(f.peak_drawn_kj, f.peak_drawn_quarter)),
    ]
    .concat()
}

/// The exact figures, the desk tool's doubles, the decimals as the words show them, and when the peaks are.
pub fn values(object: Object, f: &Figures, horizon: u32) -> Object {
    let figures = Object::new()
        .value("before_kj", f.before_kj)
        .value("drawn_kj", f.drawn_kj)
        .value("lost_kj", f.lost_kj)
        .value("fluctuation_kw", f.fluctuation_kw)
        .value("peak_before_kj", f.peak_before_kj)
        .value("peak_drawn_kj", f.peak_drawn_kj)
        .value("before_mwh", f.before_mwh)
        .value("drawn_mwh", f.drawn_mwh)
        .value("lost_mwh", f.lost_mwh)
        .value("peak_drawn_mw", f.peak_drawn_mw)
        .object("peak_before_quarter", quarter(horizon, f.peak_before_quarter))
        .object("peak_drawn_quarter", quarter(horizon, f.peak_drawn_quarter))
        .object("shown", shown(f));
    object.object("energies", figures)
}

/// A peak's quarter, with its times.
fn quarter(horizon: u32, quarter: u32) -> Object {
    let [from, to] = clocks(horizon, quarter);
    Object::new().value("number", quarter).text("from", &from).text("to", &to)
}

fn shown(f: &Figures) -> Object {
    Object::new()
        .text("before_mwh", &decimals(f.before_kj, KJ_A_MWH))
        .text("drawn_mwh", &decimals(f.drawn_kj, KJ_A_MWH))
        .text("lost_mwh", &decimals(f.lost_kj, KJ_A_MWH))
        .text("peak_before_mw", &decimals(f.peak_before_kj, KJ_A_MW))
        .text("peak_drawn_mw", &decimals(f.peak_drawn_kj, KJ_A_MW))
}

/// One line a second, the subnets' kW in order, one space between.
pub fn curve_lines(curves: &[&[i32]], horizon: u32) -> Vec<u8> {
    let mut lines = String::new();
    for second in 0..horizon as usize {
        let powers: Vec<String> = curves.iter().map(|curve| curve[second].to_string()).collect();
        lines.push_str(&powers.join(" "));
        lines.push('\n');
    }
    lines.into_bytes()
}

#[cfg(test)]
mod tests {
    use super::*;

    const FIGURES: Figures = Figures {
        before_kj: 5_400_000,
        drawn_kj: 3_600_000,
        lost_kj: 0,
        fluctuation_kw: 7_000,
        peak_before_kj: 1_234_567,
        peak_drawn_kj: 900_000,
        before_mwh: 1.5,
        drawn_mwh: 1.0,
        lost_mwh: 0.0,
        peak_drawn_mw: 1.0,
        peak_before_quarter: 29,
        peak_drawn_quarter: 96,
    };

    #[test]
    fn a_peak_has_its_time() {
        let said = lines(&FIGURES, 100_000);
        assert!(said.contains("peak quarter before recuperation: 1234567 kJ, 1.371 MW, 07:15:00 to 07:30:00\n"), "{said}");
        assert!(said.ends_with("peak quarter drawn: 900000 kJ, 1.000 MW, 24:00:00 to 24:15:00\n"), "{said}");
        let object = values(Object::new(), &FIGURES, 100_000).close();
        let quarters = r#""peak_before_quarter": {"number": 29, "from": "07:15:00", "to": "07:30:00"}, "peak_drawn_quarter": {"number": 96, "from": "24:00:00", "to": "24:15:00"}, "#;
        assert!(object.contains(quarters), "{object}");
        let shown = r#""shown": {"before_mwh": "1.500", "drawn_mwh": "1.000", "lost_mwh": "0.000", "peak_before_mw": "1.371", "peak_drawn_mw": "1.000"}}}"#;
        assert!(object.ends_with(shown), "{object}");
    }

    #[test]
    fn energies_are_rounded_down() {
        let said: Vec<String> = [0, 2_054, 3_599, 3_600, 3_599_999, 3_600_000, 5_399_999].map(|kj| decimals(kj, KJ_A_MWH)).into();
        assert_eq!(said, ["0.000", "0.000", "0.000", "0.001", "0.999", "1.000", "1.499"]);
        assert_eq!(decimals(u64::MAX, KJ_A_MWH), "5124095576030.431");
    }

    #[test]
    fn a_quarter_that_the_horizon_cuts_ends_with_it() {
        let cut = 96 * QUARTER + 100;
        let said = lines(&FIGURES, cut);
        assert!(said.contains("07:15:00 to 07:30:00\n"), "{said}");
        assert!(said.ends_with("peak quarter drawn: 900000 kJ, 1.000 MW, 24:00:00 to 24:01:40\n"), "{said}");
        let object = values(Object::new(), &FIGURES, cut).close();
        assert!(object.contains(r#""peak_drawn_quarter": {"number": 96, "from": "24:00:00", "to": "24:01:40"}, "#), "{object}");
        let ends = [1, QUARTER - 1, QUARTER, QUARTER + 1].map(|horizon| clocks(horizon, 0)[1].clone());
        assert_eq!(ends, ["00:00:01", "00:14:59", "00:15:00", "00:15:00"]);
    }
}
