//! A look at the assignments of a table, under all readings.

use barfigol::{Reading, Refusal, Verdict};
use barfigol_format::{cost, Table};

/// What a reading says at an assignment: the verdicts, or a refusal. In a sound
/// table, within the domains and with any number of steps, it is refused with 8
/// or not at all.
pub type Said = Result<Vec<Verdict>, Refusal>;

/// What a reading says of one constraint: a verdict, or the number of the
/// refusal.
pub type Word = Result<Verdict, u32>;

/// How far a look went, and what it found.
pub struct Look {
    /// The most steps.
    pub budget: u32,
    /// The steps of one assignment, under all readings.
    pub each: u128,
    /// How many assignments were looked at.
    pub looked: u128,
    /// At how many of them the readings part in some constraint.
    pub parting: u128,
    /// The same for each constraint.
    pub by_constraint: Vec<u128>,
    /// At how many of them each reading is refused.
    pub refused: [u128; 3],
    /// Whether all assignments were looked at.
    pub is_complete: bool,
}

impl Look {
    /// A look that is to begin, at a sound table.
    pub fn at(model: &Table, budget: u32) -> Look {
        let readings = Reading::ALL.len() as u128;
        Look {
            budget,
            each: cost::steps(model).saturating_mul(readings),
            looked: 0,
            parting: 0,
            by_constraint: vec![0; model.constraints.len()],
            refused: [0; 3],
            is_complete: false,
        }
    }

    /// Whether the budget allows one more assignment.
    pub fn has_room(&self) -> bool {
        let spent = (self.looked + 1).saturating_mul(self.each);
        spent <= u128::from(self.budget)
    }

    /// Takes in what the readings say at an assignment, and gives the
    /// constraints in which they part. Where all are refused they part in none.
    pub fn take(&mut self, said: &[Said; 3]) -> Vec<usize> {
        self.looked += 1;
        for (count, said) in self.refused.iter_mut().zip(said) {
            *count += u128::from(said.is_err());
        }
        let mut parting = Vec::new();
        for (constraint, count) in self.by_constraint.iter_mut().enumerate() {
            let [strict, kleene, relational] = words(said, constraint);
            if strict != kleene || kleene != relational {
                *count += 1;
                parting.push(constraint);
            }
        }
        self.parting += u128::from(!parting.is_empty());
        parting
    }
}

/// What each reading says of a constraint.
pub fn words(said: &[Said; 3], constraint: usize) -> [Word; 3] {
    let word = |said: &Said| match said {
        Ok(verdicts) => Ok(verdicts[constraint]),
        Err(refusal) => Err(refusal.number()),
    };
    [word(&said[0]), word(&said[1]), word(&said[2])]
}
