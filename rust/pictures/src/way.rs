//! The way of a table: handed to solvers as it is, and translated first.

use crate::answers::{solutions, translated};
use crate::svg::{
    Anchor, Area, Drawing, Paint, FALSE, GOOD, PLAIN, REMARK, STRONG, TITLE, TOOL, UNDEFINED, WORDS,
};
use barfigol::Reading;
use barfigol_format::Table;
use barfigol_tables::placement::placement;

const WIDTH: i32 = 1000;
const HEIGHT: i32 = 436;
/// The reading that is chosen in the picture.
const CHOSEN: Reading = Reading::Relational;
/// The readings of the solvers, which nobody chose.
const SOLVERS: [Reading; 2] = [Reading::Strict, Reading::Relational];

/// The picture.
pub fn picture() -> String {
    let table = placement();
    let out = translated(CHOSEN, &table);
    let mut drawing = Drawing::new(WIDTH, HEIGHT, "The way of a table to the solvers");
    drawing.text((24, 36), Anchor::Start, TITLE, "The table as it is");
    as_it_is(&mut drawing, 56, &table);
    drawing.text((24, 240), Anchor::Start, TITLE, "The table translated");
    translated_first(&mut drawing, 260, &table, &out);
    drawing.finish()
}

/// Each solver answers by its own reading.
fn as_it_is(drawing: &mut Drawing, y: i32, table: &Table) {
    let from = old_table(drawing, y, table);
    to_solvers(drawing, y, from, table);
}

/// All solvers get the same table, in which there is nothing to read in two ways.
fn translated_first(drawing: &mut Drawing, y: i32, table: &Table, out: &Table) {
    let from = old_table(drawing, y, table);
    let reading = format!("reading: {CHOSEN}");
    let tool = middle_row(y, 232, 180);
    let texts = ["barfigol translate", &reading, "you choose it"];
    drawing.arrow(from.right(), tool.left());
    note(drawing, tool, TOOL, texts);
    let new = middle_row(y, 450, 150);
    let texts = ["new table", &records(out), "nothing undefined"];
    drawing.arrow(tool.right(), new.left());
    note(drawing, new, GOOD, texts);
    to_solvers(drawing, y, new, out);
}

fn old_table(drawing: &mut Drawing, y: i32, table: &Table) -> Area {
    let area = middle_row(y, 24, 160);
    let texts = ["your table", &records(table), "a term is undefined"];
    note(drawing, area, UNDEFINED, texts);
    area
}

/// A box with what it is, more about it, and a remark.
fn note(drawing: &mut Drawing, area: Area, paint: Paint, [what, more, remark]: [&str; 3]) {
    drawing.note(
        area,
        paint,
        &[(STRONG, what), (WORDS, more), (REMARK, remark)],
    );
}

fn records(table: &Table) -> String {
    format!("{} records", table.records())
}

/// A box in the middle of the two solvers' height.
fn middle_row(y: i32, x: i32, width: i32) -> Area {
    Area {
        x,
        y: y + 36,
        width,
        height: 80,
    }
}

/// The solvers, what each reads a table as, and what it answers.
fn to_solvers(drawing: &mut Drawing, y: i32, from: Area, table: &Table) {
    for (place, reading) in SOLVERS.into_iter().enumerate() {
        let solver = Area {
            x: 644,
            y: y + place as i32 * 80,
            width: 162,
            height: 72,
        };
        drawing.arrow(from.right(), solver.left());
        let manner = format!("reads it as {reading}");
        let title = format!("solver {}", place + 1);
        let lines = [(STRONG, title.as_str()), (REMARK, manner.as_str())];
        drawing.note(solver, PLAIN, &lines);
        let answer = Area {
            x: 844,
            y: solver.y + 10,
            width: 132,
            height: 52,
        };
        drawing.arrow(solver.right(), answer.left());
        let (paint, text) = answered(solutions(reading, table).len());
        drawing.note(answer, paint, &[(STRONG, text.as_str())]);
    }
}

fn answered(count: usize) -> (Paint, String) {
    match count {
        0 => (FALSE, String::from("nothing fits")),
        1 => (GOOD, String::from("1 placement")),
        _ => (GOOD, format!("{count} placements")),
    }
}
