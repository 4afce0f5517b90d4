//! Makes a failing table smaller.

use barfigol_format::kinds::Field;
use barfigol_format::{Element, Node, Table, Type};

/// The most candidates that are tried.
const MOST_TRIES: usize = 20_000;

/// Finds a smaller table that still fails.
///
/// Not every candidate is sound: `fails` must answer no for those that are
/// not, unless unsound tables count as failures.
///
/// ```
/// use barfigol_tables::{shrink::shrink, trials};
///
/// // Smallest table with a div.
/// let small = shrink(&trials::p4(), &mut |table| {
///     table.nodes.iter().any(|node| node.kind == 9)
/// });
/// assert!(small.constraints.is_empty() && small.variables.is_empty());
/// ```
pub fn shrink(table: &Table, fails: &mut dyn FnMut(&Table) -> bool) -> Table {
    let mut smallest = table.clone();
    let mut tries = 0;
    'again: loop {
        for candidate in candidates(&smallest) {
            if size(&candidate) >= size(&smallest) {
                continue;
            }
            tries += 1;
            if tries > MOST_TRIES {
                return smallest;
            }
            if fails(&candidate) {
                smallest = candidate;
                continue 'again;
            }
        }
        return smallest;
    }
}

/// What shrinking makes less: records, then kinds above constants, then
/// numbers.
fn size(table: &Table) -> (usize, u64, u64) {
    let kinds = table.nodes.iter().map(|node| u64::from(node.kind));
    let rows = table.rows();
    let numbers = rows
        .iter()
        .map(|row| u64::from(row.x.unsigned_abs()) + u64::from(row.y.unsigned_abs()));
    (rows.len(), kinds.sum(), numbers.sum())
}

/// Tables that are like this one, but smaller in one place.
fn candidates(table: &Table) -> Vec<Table> {
    let mut found = Vec::new();
    for place in 0..table.constraints.len() {
        let mut fewer = table.clone();
        fewer.constraints.remove(place);
        found.push(fewer);
    }
    for node in (0..table.nodes.len()).rev() {
        found.extend(without_node(table, node));
    }
    found.extend(without_declarations(table));
    for node in 0..table.nodes.len() {
        found.extend(with_simpler_node(table, node));
    }
    found.extend(with_smaller_declarations(table));
    found
}

/// The table with every number that names something put through a function.
fn renumbered(table: &Table, number: &dyn Fn(Field, i32) -> i32) -> Table {
    let mut result = table.clone();
    for node in &mut result.nodes {
        let (x, y) = node.fields();
        node.x = number(x, node.x);
        node.y = number(y, node.y);
    }
    for array in &mut result.arrays {
        for element in &mut array.elements {
            if let Element::Variable(variable) = element {
                *variable = number(Field::Variable(array.of), *variable);
            }
        }
    }
    for node in &mut result.constraints {
        *node = number(Field::Node(Type::Bool), *node);
    }
    result
}

/// Leaves a node out. Its users take one of its operands, or the first earlier
/// node of its type.
fn without_node(table: &Table, node: usize) -> Vec<Table> {
    let gone = table.nodes[node];
    let earlier = (0..node as i32).find(|&n| table.nodes[n as usize].yields() == gone.yields());
    let mut stand_ins: Vec<i32> = gone
        .operands()
        .into_iter()
        .filter(|&operand| table.nodes[operand as usize].yields() == gone.yields())
        .collect();
    stand_ins.extend(earlier);
    let used = |number: i32| number == node as i32;
    let is_used = table.constraints.iter().any(|&number| used(number))
        || table
            .nodes
            .iter()
            .any(|user| user.operands().into_iter().any(used));
    if !is_used {
        stand_ins = vec![0];
    }
    let without = |stand_in: &i32| {
        let mut result = renumbered(table, &|field, number| match field {
            Field::Node(_) if number == node as i32 => *stand_in,
            Field::Node(_) if number > node as i32 => number - 1,
            _ => number,
        });
        result.nodes.remove(node);
        result
    };
    stand_ins.iter().map(without).collect()
}

/// Leaves out a variable, slot or array that nothing names.
fn without_declarations(table: &Table) -> Vec<Table> {
    let mut found = Vec::new();
    for variable in (0..table.variables.len()).rev() {
        let is_variable = |field: Field| matches!(field, Field::Variable(_));
        if let Some(mut fewer) = unnamed(table, &is_variable, variable as i32) {
            fewer.variables.remove(variable);
            found.push(fewer);
        }
    }
    for slot in (0..table.slots.len()).rev() {
        let is_slot = |field: Field| field == Field::Slot;
        if let Some(mut fewer) = unnamed(table, &is_slot, slot as i32) {
            fewer.slots.remove(slot);
            found.push(fewer);
        }
    }
    for array in (0..table.arrays.len()).rev() {
        let mut fewer = table.clone();
        fewer.arrays[array].elements.clear();
        let is_array = |field: Field| matches!(field, Field::Array(_));
        if let Some(mut fewer) = unnamed(&fewer, &is_array, array as i32) {
            fewer.arrays.remove(array);
            found.push(fewer);
        }
    }
    found
}

/// Closes the gap that a number leaves, if nothing names it.
fn unnamed(table: &Table, of_sort: &dyn Fn(Field) -> bool, gone: i32) -> Option<Table> {
    let named = std::cell::Cell::new(false);
    let result = renumbered(table, &|field, number| {
        if !of_sort(field) || number < gone {
            return number;
        }
        if number == gone {
            named.set(true);
        }
        number - 1
    });
    if named.get() {
        None
    } else {
        Some(result)
    }
}

/// Puts a constant in a node's place, or a constant nearer to 0.
fn with_simpler_node(table: &Table, node: usize) -> Vec<Table> {
    let old = table.nodes[node];
    let constants: Vec<Node> = match (old.kind, old.yields()) {
        (1, _) => smaller(old.x).into_iter().map(Node::constant).collect(),
        (_, Type::Integer) => vec![Node::constant(0), Node::constant(1)],
        (_, Type::Bool) => vec![Node::truth(0), Node::truth(1)],
    };
    let with = |constant: Node| {
        let mut result = table.clone();
        result.nodes[node] = constant;
        result
    };
    constants.into_iter().map(with).collect()
}

/// Numbers that are nearer to 0.
fn smaller(number: i32) -> Vec<i32> {
    vec![0, number / 2, number - number.signum()]
}

/// Takes values from domains and ranges, and elements from arrays.
fn with_smaller_declarations(table: &Table) -> Vec<Table> {
    let mut found = Vec::new();
    for (place, variable) in table.variables.iter().enumerate() {
        if variable.of == Type::Integer && variable.low < variable.high {
            let mut fewer = table.clone();
            fewer.variables[place].high -= 1;
            found.push(fewer.clone());
            fewer.variables[place] = *variable;
            fewer.variables[place].low += 1;
            found.push(fewer);
        }
    }
    for (place, slot) in table.slots.iter().enumerate() {
        if slot.first <= slot.last {
            let mut fewer = table.clone();
            fewer.slots[place].last -= 1;
            found.push(fewer.clone());
            fewer.slots[place] = *slot;
            fewer.slots[place].first += 1;
            found.push(fewer);
        }
    }
    for (place, array) in table.arrays.iter().enumerate() {
        if array.elements.len() > 1 {
            let mut fewer = table.clone();
            fewer.arrays[place].elements.pop();
            found.push(fewer);
        }
        for index in 0..array.elements.len() {
            let mut simpler = table.clone();
            simpler.arrays[place].elements[index] = Element::Constant(0);
            found.push(simpler);
        }
    }
    found
}
