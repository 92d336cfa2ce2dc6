//! The store: what the commands read and change.

use crate::clauses::{find_other, Body, Clauses, Disjunctions, Given, Requires};
use crate::literals::{literal, negative, positive, Literal, Variable, NONE};
use crate::packages::Packages;
use crate::queue::{Answer, Asked, DecideQueue};
use crate::saturating::saturate;
use crate::scores::Scores;
use crate::tracking::Trackers;
use crate::trail::{Entry, Trail, FALSE, TRUE};

pub struct Store {
    pub packages: Packages,
    pub variables: u32,
    pub trail: Trail,
    pub clauses: Clauses,
    pub disjunctions: Disjunctions,
    pub trackers: Trackers,
    pub scores: Scores,
    queue: DecideQueue,
}

/// What became of an assignment.
pub enum Assigned {
    New,
    Already,
    Clash,
}

impl Store {
    /// The store over packages, with the root's variable.
    pub fn new(packages: Packages) -> Self {
        let mut store = Store {
            packages,
            variables: 0,
            trail: Trail::default(),
            clauses: Clauses::default(),
            disjunctions: Disjunctions::default(),
            trackers: Trackers::default(),
            scores: Scores::default(),
            queue: DecideQueue::default(),
        };
        store.new_variable();
        store
    }

    pub fn new_variable(&mut self) -> Variable {
        let variable = self.variables;
        self.variables += 1;
        self.trail.make_room(self.variables as usize);
        variable
    }

    /// The variable of a solvable, which gets one if it has none.
    pub fn variable_of(&mut self, solvable: u32) -> Variable {
        let variable = *self.packages.variable_of(solvable);
        if variable != NONE {
            return variable;
        }
        let variable = self.new_variable();
        *self.packages.variable_of(solvable) = variable;
        variable
    }

    /// Gives the candidates of a requirement variables.
    pub fn load(&mut self, requirement: u32) {
        if !self.packages.is_loaded(requirement) {
            self.packages.load(requirement, &mut self.variables);
            self.trail.make_room(self.variables as usize);
        }
    }

    /// Adds a clause of two literals, which watches them in this order, or of one that is given twice.
    pub fn add(&mut self, first: Literal, second: Literal) -> u32 {
        let clause = self.clauses.add([first, second], Body::Watched);
        self.trail.forget_unmet([first, second]);
        clause
    }

    /// Adds a learnt clause.
    pub fn add_learnt(&mut self, literals: &[Literal]) -> u32 {
        let clause = self.clauses.add_learnt(literals);
        self.trail.forget_unmet(self.clauses.watched(clause));
        clause
    }

    /// Adds a clause that not both are true; whether it is a conflict.
    pub fn constrain(&mut self, parent: Variable, forbidden: Variable) -> (u32, bool) {
        let clause = self.add(negative(parent), negative(forbidden));
        (clause, self.trail.is_true(forbidden) && !self.trail.is_false(positive(parent)))
    }

    /// Adds a requires clause; whether it is a conflict.
    pub fn require(&mut self, parent: Variable, requirement: u32, disjunction: u32) -> (u32, bool) {
        let requires = Requires { parent, requirement, disjunction, clause: 0 };
        let given = Given { packages: &self.packages, disjunctions: &self.disjunctions };
        let first = find_other(requires, given, |_| true);
        let left = find_other(requires, given, |literal| !self.trail.is_false(literal));
        let clause = self.clauses.add_requires(requires, left.or(first));
        self.trail.forget_unmet(self.clauses.watched(clause));
        (clause, first.is_some() && left.is_none() && !self.trail.is_false(positive(parent)))
    }

    /// Lets a clause watch another literal in the place of one that it watches; whether it may.
    pub fn rewatch(&mut self, clause: u32, old: Literal, new: Literal) -> bool {
        let given = Given { packages: &self.packages, disjunctions: &self.disjunctions };
        let is_moved = self.clauses.rewatch(clause, old, new, given);
        if is_moved {
            self.trail.forget_unmet(self.clauses.watched(clause));
        }
        is_moved
    }

    /// Tracks a variable under a name; whether it is new there, and the number of new clauses.
    pub fn track(&mut self, name: u32, variable: Variable) -> (bool, u32) {
        if !self.trackers.note(name, variable) {
            return (false, 0);
        }
        let before = self.clauses.len();
        let tracker = self.trackers.of_name(name);
        let number = tracker.variables.length;
        if tracker.is_full() {
            let helper = self.new_variable();
            self.trackers.add_helper(name, helper);
            for (number, earlier) in self.trackers.of_chain(tracker.variables).enumerate() {
                let literal = literal(helper, number >> tracker.helpers.length & 1 == 1);
                forbid(&mut self.clauses, &mut self.trail, earlier, literal);
            }
        }
        for (bit, helper) in self.trackers.of_chain(self.trackers.of_name(name).helpers).enumerate() {
            forbid(&mut self.clauses, &mut self.trail, variable, literal(helper, number >> bit & 1 == 1));
        }
        self.trackers.add_variable(name, variable);
        (true, (self.clauses.len() - before) as u32)
    }

    /// Gives a variable a value.
    #[inline]
    pub fn assign(&mut self, variable: Variable, value: bool, clause: u32, level: u32) -> Assigned {
        let literal = literal(variable, value);
        match self.trail.value(literal) {
            TRUE => Assigned::Already,
            FALSE => Assigned::Clash,
            _ => {
                self.trail.push(Entry { literal, clause, level });
                Assigned::New
            }
        }
    }

    /// Assigns what clauses force; the clause that is false, if there is one.
    pub fn saturate(&mut self, level: u32) -> Option<u32> {
        let given = Given { packages: &self.packages, disjunctions: &self.disjunctions };
        saturate(&mut self.clauses, &mut self.trail, given, level)
    }

    pub fn bump(&mut self, name: u32, amount: u64) {
        if self.scores.bump(name, amount) {
            self.queue.heat(name);
        }
    }

    /// What to decide next.
    pub fn decide(&mut self) -> Answer {
        let asked = Asked {
            packages: &self.packages,
            disjunctions: &self.disjunctions,
            requires: self.clauses.requires(),
            scores: &self.scores,
        };
        self.queue.decide(&mut self.trail, asked)
    }
}

/// Adds the clause that the literal is true where the variable is.
fn forbid(clauses: &mut Clauses, trail: &mut Trail, variable: Variable, literal: Literal) {
    clauses.add([negative(variable), literal], Body::Watched);
    trail.forget_unmet([negative(variable), literal]);
}
