//! P4's constraint before and after translation, with what each node is worth
//! where the divisor is 0.

use crate::answers::{steps, translated};
use crate::companions;
use crate::svg::{Anchor, Drawing, REMARK, TITLE};
use crate::tree::Tree;
use barfigol::Reading;
use barfigol_format::Table;
use barfigol_tables::trials;

const READING: Reading = Reading::Relational;
/// The value of y at which the quotient is undefined.
const VALUES: [i32; 1] = [0];
/// The space around each tree, and the height of the titles above it.
const MARGIN: i32 = 20;
const TITLES: i32 = 84;
const HEIGHT: i32 = 694;

/// The picture.
pub fn picture() -> String {
    let before = trials::p4();
    let after = translated(READING, &before);
    let numbers = (0..before.nodes.len()).map(|node| format!("node {node}"));
    let old = Tree {
        table: &before,
        reading: READING,
        values: &VALUES,
        tags: numbers.collect(),
    };
    let new = Tree {
        table: &after,
        reading: READING,
        values: &VALUES,
        tags: tags(&before, &after),
    };
    let column = old.width().max(220) + MARGIN;
    let width = column + new.width() + 3 * MARGIN;
    let mut drawing = Drawing::new(
        width,
        HEIGHT,
        "P4's constraint before and after translation",
    );
    titled(&mut drawing, MARGIN, "Before: ¬(1/y = 1)", &before);
    old.draw(&mut drawing, (MARGIN, TITLES));
    titled(
        &mut drawing,
        column + 2 * MARGIN,
        "After: nothing is undefined",
        &after,
    );
    new.draw(&mut drawing, (column + 2 * MARGIN, TITLES));
    explain_letters(&mut drawing);
    drawing.finish()
}

/// What the letters of companions stand for, below the first tree.
fn explain_letters(drawing: &mut Drawing) {
    let lines = [
        "The translation of a node is two:",
        "V, its number, and D, whether it",
        "has one; or P, that it is true,",
        "and N, that it is false.",
        "Below each sign: what it is worth.",
    ];
    for (place, line) in lines.into_iter().enumerate() {
        let y = HEIGHT - 120 + 20 * place as i32;
        drawing.text((MARGIN, y), Anchor::Start, REMARK, line);
    }
}

fn titled(drawing: &mut Drawing, x: i32, title: &str, table: &Table) {
    drawing.text((x, 30), Anchor::Start, TITLE, title);
    let counts = format!("{} nodes, {} steps", table.nodes.len(), steps(table));
    drawing.text((x, 50), Anchor::Start, REMARK, &counts);
    let asked = format!("{READING}, at y = {}", VALUES[0]);
    drawing.text((x, 66), Anchor::Start, REMARK, &asked);
}

/// What each node of the translation is: its number, and whose companion it is.
/// A node that is N of one and P of another is called P.
fn tags(before: &Table, after: &Table) -> Vec<String> {
    let mut tags: Vec<String> = (0..after.nodes.len())
        .map(|node| node.to_string())
        .collect();
    for which in [1, 0] {
        for node in 0..before.nodes.len() as i32 {
            let found = companions::of(READING, before, node);
            let place = found.places[which];
            tags[place as usize] = format!("{place}: {} of {node}", found.letters[which]);
        }
    }
    tags
}
