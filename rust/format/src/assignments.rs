//! The assignments of a table's domains.

use crate::Variable;

/// All assignments in order, the last variable fastest. They are made one at a
/// time, so huge domains take no memory.
#[derive(Clone, Debug)]
pub struct Assignments {
    domains: Vec<(i32, i32)>,
    next: Option<Vec<i32>>,
}

impl Assignments {
    /// The assignments of some variables. Without variables there is one, with
    /// no values; with an empty domain there is none.
    pub(crate) fn of(variables: &[Variable]) -> Assignments {
        let domains = variables
            .iter()
            .map(|variable| (variable.low, variable.high));
        let domains: Vec<(i32, i32)> = domains.collect();
        let has_values = domains.iter().all(|(low, high)| low <= high);
        let lowest = domains.iter().map(|(low, _)| *low).collect();
        Assignments {
            next: Some(lowest).filter(|_| has_values),
            domains,
        }
    }

    /// The assignment behind one, if there is one.
    fn behind(&self, mut values: Vec<i32>) -> Option<Vec<i32>> {
        for (value, &(low, high)) in values.iter_mut().zip(&self.domains).rev() {
            if *value < high {
                *value += 1;
                return Some(values);
            }
            *value = low;
        }
        None
    }
}

impl Iterator for Assignments {
    type Item = Vec<i32>;

    fn next(&mut self) -> Option<Vec<i32>> {
        let values = self.next.take()?;
        self.next = self.behind(values.clone());
        Some(values)
    }
}

/// How many assignments some variables have, or nothing where they are too many
/// for 128 bits.
pub(crate) fn count(variables: &[Variable]) -> Option<u128> {
    let mut sizes = variables.iter().map(|variable| {
        let (low, high) = (i64::from(variable.low), i64::from(variable.high));
        (high - low + 1).max(0) as u128
    });
    sizes.try_fold(1, u128::checked_mul)
}

#[cfg(test)]
mod tests {
    use crate::Table;

    fn all(table: &Table) -> Vec<Vec<i32>> {
        table.assignments().collect()
    }

    #[test]
    fn every_assignment_once_in_order() {
        let table = Table::new().variable(-1, 0).bool_variable().variable(7, 7);
        let expected = [[-1, 0, 7], [-1, 1, 7], [0, 0, 7], [0, 1, 7]];
        assert_eq!(all(&table), expected);
        assert_eq!(table.assignment_count(), Some(4));
        assert_eq!(all(&Table::new()), [[0; 0]]);
        assert_eq!(Table::new().assignment_count(), Some(1));
        let empty = Table::new().variable(0, 1).variable(1, 0);
        assert_eq!(all(&empty), [[0; 2]; 0]);
        assert_eq!(empty.assignment_count(), Some(0));
    }

    #[test]
    fn the_greatest_domains() {
        let whole = |count| {
            (0..count).fold(Table::new(), |table: Table, _| {
                table.variable(i32::MIN, i32::MAX)
            })
        };
        let last = Table::new().variable(i32::MAX - 1, i32::MAX);
        assert_eq!(all(&last), [[i32::MAX - 1], [i32::MAX]]);
        assert_eq!(whole(256).assignments().next(), Some(vec![i32::MIN; 256]));
        assert_eq!(whole(1).assignment_count(), Some(1 << 32));
        assert_eq!(whole(256).assignment_count(), None);
    }
}
