//! Where a node's two companions stand in the translation, read off what the
//! library translates.

use crate::answers::translated;
use barfigol::Reading;
use barfigol_format::{Node, Table, Type};

/// The places of a node's companions: V and D of an integer node, P and N of a
/// Boolean one.
pub struct Companions {
    /// The letters of the two.
    pub letters: [char; 2],
    /// The numbers of their nodes.
    pub places: [i32; 2],
}

/// The companions of a node.
pub fn of(reading: Reading, table: &Table, node: i32) -> Companions {
    match table.nodes[node as usize].yields() {
        Type::Bool => Companions {
            letters: ['P', 'N'],
            places: [
                truth_of(reading, table, node),
                truth_of_added(reading, table, Node::not(node)).1,
            ],
        },
        Type::Integer => of_integer(reading, table, node),
    }
}

/// P of a comparison of the node with itself is (D and D) and (V = V).
fn of_integer(reading: Reading, table: &Table, node: i32) -> Companions {
    let (out, truth) = truth_of_added(reading, table, Node::equal(node, node));
    let at = |place: i32| out.nodes[place as usize];
    let both = at(truth);
    Companions {
        letters: ['V', 'D'],
        places: [at(both.y).x, at(both.x).x],
    }
}

/// Where P of a node stands: the translated constraint names it.
fn truth_of(reading: Reading, table: &Table, node: i32) -> i32 {
    let mut table = table.clone();
    table.constraints = vec![node];
    translated(reading, &table).constraints[0]
}

/// The translation with a node more, and where P of that node stands.
fn truth_of_added(reading: Reading, table: &Table, node: Node) -> (Table, i32) {
    let mut table = table.clone();
    let added = table.push(node);
    table.constraints = vec![added];
    let out = translated(reading, &table);
    let truth = out.constraints[0];
    (out, truth)
}
