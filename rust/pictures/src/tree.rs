//! A constraint as a tree, with a place for each node: leaves side by side, and
//! what stands above its operands over their middle.

use crate::answers::{worth, Worth};
use crate::svg::{Area, Drawing, Font, FALSE, GOOD, INK, PLAIN, REMARK, STRONG, UNDEFINED};
use barfigol::Reading;
use barfigol_format::{Node, Table};

/// The distance of two leaves, and of two levels.
const LEAF_STEP: i32 = 80;
const LEVEL_STEP: i32 = 76;
/// The sides of a node's box.
const WIDTH: i32 = 74;
const HEIGHT: i32 = 54;

/// A node of the tree. Its middle is given in distances of leaves, doubled so
/// that halves are whole.
struct Placed {
    node: i32,
    middle: i32,
    level: i32,
    operands: Vec<Placed>,
}

/// What is drawn: a table's first constraint for an assignment under a reading.
pub struct Tree<'a> {
    /// The table.
    pub table: &'a Table,
    /// The reading.
    pub reading: Reading,
    /// The assignment.
    pub values: &'a [i32],
    /// What is written above each node's sign, by its number.
    pub tags: Vec<String>,
}

impl Tree<'_> {
    fn constraint(&self) -> i32 {
        self.table.constraints[0]
    }

    /// Draws the tree with its left upper corner at a place.
    pub fn draw(&self, drawing: &mut Drawing, corner: (i32, i32)) {
        let mut leaves = 0;
        let root = self.placed(self.constraint(), 0, &mut leaves);
        self.draw_edges(drawing, corner, &root);
        self.draw_boxes(drawing, corner, &root);
    }

    /// The width of the tree.
    pub fn width(&self) -> i32 {
        let mut leaves = 0;
        self.placed(self.constraint(), 0, &mut leaves);
        leaves * LEAF_STEP
    }

    fn placed(&self, node: i32, level: i32, leaves: &mut i32) -> Placed {
        let numbers = self.table.nodes[node as usize].operands();
        let operands: Vec<Placed> = numbers
            .into_iter()
            .map(|operand| self.placed(operand, level + 1, leaves))
            .collect();
        let middle = match (operands.first(), operands.last()) {
            (Some(first), Some(last)) => (first.middle + last.middle) / 2,
            _ => {
                *leaves += 1;
                2 * *leaves - 1
            }
        };
        Placed {
            node,
            middle,
            level,
            operands,
        }
    }

    fn draw_edges(&self, drawing: &mut Drawing, corner: (i32, i32), placed: &Placed) {
        let above = area(corner, placed);
        for operand in &placed.operands {
            let below = area(corner, operand);
            let from = (above.x + WIDTH / 2, above.y + HEIGHT);
            drawing.line(from, (below.x + WIDTH / 2, below.y));
            self.draw_edges(drawing, corner, operand);
        }
    }

    fn draw_boxes(&self, drawing: &mut Drawing, corner: (i32, i32), placed: &Placed) {
        let found = worth(self.reading, self.table, self.values, placed.node);
        let (paint, value) = match found {
            Worth::Number(number) => (PLAIN, number.to_string()),
            Worth::Truth(true) => (GOOD, String::from("true")),
            Worth::Truth(false) => (FALSE, String::from("false")),
            Worth::Undefined => (UNDEFINED, String::from("undefined")),
        };
        let sign = sign(self.table.nodes[placed.node as usize]);
        let tag = &self.tags[placed.node as usize];
        let small = Font { size: 10, ..REMARK };
        let worth = Font {
            size: 11,
            bold: false,
            colour: INK,
        };
        let size = if sign.len() > 6 { 11 } else { STRONG.size };
        let strong = Font { size, ..STRONG };
        let mut lines = vec![(small, tag.as_str()), (strong, sign.as_str())];
        if value != sign {
            lines.push((worth, value.as_str()));
        }
        drawing.note(area(corner, placed), paint, &lines);
        for operand in &placed.operands {
            self.draw_boxes(drawing, corner, operand);
        }
    }
}

fn area(corner: (i32, i32), placed: &Placed) -> Area {
    Area {
        x: corner.0 + placed.middle * LEAF_STEP / 2 - WIDTH / 2,
        y: corner.1 + placed.level * LEVEL_STEP,
        width: WIDTH,
        height: HEIGHT,
    }
}

/// The sign of a node. Its variables are called y, and y1 and so on after it.
fn sign(node: Node) -> String {
    let sign = match node.kind {
        1 => return node.x.to_string(),
        2 => return String::from(if node.x == 1 { "true" } else { "false" }),
        3 | 4 if node.x == 0 => return String::from("y"),
        3 | 4 => return format!("y{}", node.x),
        6 => "+",
        7 | 11 => "−",
        8 => "×",
        9 => "div",
        10 => "mod",
        12 => "min",
        13 => "max",
        14 => "boolToInt",
        20 => "and",
        21 => "or",
        22 => "→",
        23 => "↔",
        24 => "not",
        25 => "=",
        26 => "≠",
        27 => "≤",
        28 => "<",
        _ => return format!("kind {}", node.kind),
    };
    String::from(sign)
}
