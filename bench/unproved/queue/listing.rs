//! Clauses that came: they are found from then on by their parent, by the variables of their condition, and by the
//! candidates that they ask for.

use super::{Asked, Asking, DecideQueue, Node};
use crate::clauses::Requires;
use crate::hashing::QuickMap;
use crate::literals::{number_of, variable_of, NONE};
use crate::trail::{FALSE, TRUE, UNDECIDED};
use std::mem::replace;

impl DecideQueue {
    /// Takes in a clause that came.
    pub(super) fn register(&mut self, requires: &Requires, asked: Asked) {
        let number = number_of(self.clauses.len());
        let Requires { parent, requirement, disjunction, .. } = *requires;
        let known = &mut self.known[parent as usize];
        if known.group == NONE {
            known.group = number_of(self.groups.len());
            self.groups.push(NONE);
        }
        let next_of_group = replace(&mut self.groups[known.group as usize], number);
        if self.requirements[requirement as usize].parts.1 == 0 {
            self.list_requirement(requirement, asked);
        }
        let mut next_of_disjunction = NONE;
        if disjunction != NONE {
            self.list_disjunction(disjunction, asked);
            next_of_disjunction = replace(&mut self.disjunctions[disjunction as usize].newest, number);
        }
        self.clauses.push(Asking {
            parent,
            requirement,
            disjunction,
            next_of_group,
            next_of_requirement: NONE,
            next_of_disjunction,
            queued: 0,
        });
        self.wake(number);
    }

    /// Lets the variables of a disjunction find it.
    fn list_disjunction(&mut self, disjunction: u32, asked: Asked) {
        let state = &mut self.disjunctions[disjunction as usize];
        if replace(&mut state.is_listed, true) {
            return;
        }
        for literal in asked.disjunctions.literals(disjunction) {
            let known = &mut self.known[variable_of(*literal) as usize];
            let falsifying = if literal & 1 == 0 { FALSE } else { TRUE };
            state.not_false += (known.seen != falsifying) as u32;
            link(&mut self.nodes, &mut known.conditions, disjunction, *literal);
        }
    }

    /// Lets the version sets of a requirement find it, and their candidates find them.
    fn list_requirement(&mut self, requirement: u32, asked: Asked) {
        let first = self.parts.len();
        self.add_parts(requirement, asked);
        for place in first..self.parts.len() {
            let set = self.parts[place].0;
            self.list_set(set, asked);
            let (trues, undecided) = self.sets[set as usize].shares();
            let state = &mut self.requirements[requirement as usize];
            state.true_sets += trues;
            state.undecided_sets += undecided;
            state.is_hot |= asked.scores.is_bumped(asked.packages.name_of(set));
            link(&mut self.nodes, &mut self.sets[set as usize].requirements, requirement, 0);
        }
        self.requirements[requirement as usize].parts = (number_of(first), number_of(self.parts.len()));
    }

    /// Adds the different version sets of a requirement, each with how often it is one of it.
    fn add_parts(&mut self, requirement: u32, asked: Asked) {
        if (requirement as usize) < self.sets.len() {
            self.parts.push((requirement, 1));
            return;
        }
        let mut places = QuickMap::default();
        for set in asked.packages.sets_of(requirement) {
            let place = *places.entry(set).or_insert(self.parts.len());
            if place == self.parts.len() {
                self.parts.push((set, 0));
            }
            self.parts[place].1 += 1;
        }
    }

    /// Lets the candidates of a version set find it.
    fn list_set(&mut self, set: u32, asked: Asked) {
        let state = &mut self.sets[set as usize];
        if replace(&mut state.is_listed, true) {
            return;
        }
        let newest = &mut self.names[asked.packages.name_of(set) as usize];
        state.next_of_name = replace(newest, set);
        for (place, variable) in asked.packages.rows_of(set).iter().enumerate() {
            let known = &mut self.known[*variable as usize];
            state.trues += (known.seen == TRUE) as u32;
            state.undecided += (known.seen == UNDECIDED) as u32;
            link(&mut self.nodes, &mut known.sets, set, place as u32);
        }
    }
}

/// Puts a node to the front of a list.
fn link(nodes: &mut Vec<Node>, newest: &mut u32, of: u32, detail: u32) {
    let node = number_of(nodes.len());
    nodes.push(Node { of, detail, next: replace(newest, node) });
}
