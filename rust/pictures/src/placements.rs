//! The nine placements of the placement model, coloured by what each reading
//! says of its three rules.

use crate::answers::{solutions, verdicts};
use crate::svg::{
    Anchor, Area, Drawing, Font, Paint, FALSE, GOOD, INK, REMARK, STRONG, TITLE, UNDEFINED, WORDS,
};
use barfigol::{Reading, Verdict};
use barfigol_format::Table;
use barfigol_tables::placement::placement;

/// The sides of a placement's box, and the distance of two boxes.
const CELL: (i32, i32) = (92, 62);
const STEP: (i32, i32) = (98, 68);
/// The distance of two readings.
const GRID: i32 = 348;
/// Where the boxes of the first reading begin.
const START: (i32, i32) = (64, 116);
const WIDTH: i32 = 2 * GRID + START.0 + 3 * STEP.0 + 14;
const HEIGHT: i32 = START.1 + 3 * STEP.1 + 62;

/// The picture.
pub fn picture() -> String {
    let table = placement();
    let mut drawing = Drawing::new(WIDTH, HEIGHT, "Nine placements under three readings");
    for (place, reading) in Reading::ALL.into_iter().enumerate() {
        grid(&mut drawing, place as i32 * GRID, reading, &table);
    }
    let keys = [
        (GOOD, "every rule is true: a solution"),
        (UNDEFINED, "no rule is false, not all are defined"),
        (FALSE, "a rule is false"),
    ];
    for (place, (paint, text)) in keys.into_iter().enumerate() {
        key(&mut drawing, place as i32 * GRID, paint, text);
    }
    drawing.finish()
}

/// A reading's title, its number of solutions and its nine boxes.
fn grid(drawing: &mut Drawing, left: i32, reading: Reading, table: &Table) {
    let x = left + START.0;
    let count = solutions(reading, table).len();
    let found = match count {
        0 => String::from("nothing fits"),
        1 => String::from("1 placement"),
        _ => format!("{count} placements"),
    };
    drawing.text((x, 34), Anchor::Start, TITLE, name(reading));
    drawing.text((x, 56), Anchor::Start, WORDS, &found);
    drawing.text(
        (x, 82),
        Anchor::Start,
        REMARK,
        "log in bank; below, the verdicts on rules 1, 2, 3",
    );
    let domain = |variable: usize| table.variables[variable].low..=table.variables[variable].high;
    for bank in domain(1) {
        let middle = x + bank * STEP.0 + CELL.0 / 2;
        drawing.text((middle, 104), Anchor::Middle, STRONG, &bank.to_string());
    }
    for bank in domain(0) {
        let middle = START.1 + bank * STEP.1 + CELL.1 / 2;
        drawing.text((left + 14, middle - 6), Anchor::Start, REMARK, "frame");
        drawing.text(
            (left + 24, middle + 13),
            Anchor::Start,
            STRONG,
            &bank.to_string(),
        );
    }
    for values in table.assignments() {
        cell(drawing, left, &values, &verdicts(reading, table, &values));
    }
}

/// A placement's box with the verdict on each rule.
fn cell(drawing: &mut Drawing, left: i32, values: &[i32], verdicts: &[Verdict]) {
    let area = Area {
        x: left + START.0 + values[1] * STEP.0,
        y: START.1 + values[0] * STEP.1,
        width: CELL.0,
        height: CELL.1,
    };
    let lines: Vec<String> = verdicts
        .iter()
        .enumerate()
        .map(|(rule, &verdict)| format!("{}: {}", rule + 1, word(verdict)))
        .collect();
    let font = Font {
        colour: INK,
        ..REMARK
    };
    let lines: Vec<_> = lines.iter().map(|line| (font, line.as_str())).collect();
    drawing.note(area, paint(verdicts), &lines);
}

fn paint(verdicts: &[Verdict]) -> Paint {
    if verdicts.contains(&Verdict::False) {
        FALSE
    } else if verdicts.contains(&Verdict::Undefined) {
        UNDEFINED
    } else {
        GOOD
    }
}

fn key(drawing: &mut Drawing, left: i32, paint: Paint, text: &str) {
    let area = Area {
        x: left + START.0,
        y: HEIGHT - 40,
        width: 18,
        height: 18,
    };
    drawing.area(area, paint);
    drawing.text((area.x + 26, area.y + 14), Anchor::Start, REMARK, text);
}

fn name(reading: Reading) -> &'static str {
    match reading {
        Reading::Strict => "Strict",
        Reading::Kleene => "Kleene",
        Reading::Relational => "Relational",
    }
}

fn word(verdict: Verdict) -> &'static str {
    match verdict {
        Verdict::True => "true",
        Verdict::False => "false",
        Verdict::Undefined => "undefined",
    }
}
