//! At most one of a name's variables: each has a number, and helper variables spell the number of the one that is true.

use crate::hashing::QuickSet;
use crate::literals::{number_of, Variable, NONE};

/// What stands for a name where a variable is a helper.
const HELPER: u32 = NONE - 1;

/// A list of variables, linked through the nodes of all lists.
#[derive(Clone, Copy)]
pub struct Chain {
    first: u32,
    last: u32,
    pub length: u32,
}

const EMPTY: Chain = Chain { first: NONE, last: NONE, length: 0 };

struct Node {
    variable: Variable,
    next: u32,
}

/// The variables that are tracked under a name, and its helpers.
#[derive(Clone, Copy)]
pub struct Tracker {
    pub variables: Chain,
    pub helpers: Chain,
}

impl Tracker {
    /// Whether one more variable needs one more helper.
    pub fn is_full(&self) -> bool {
        let count = self.variables.length as u64;
        count > 0 && count >= 1 << self.helpers.length
    }
}

#[derive(Default)]
pub struct Trackers {
    by_name: Vec<Tracker>,
    nodes: Vec<Node>,
    /// Of each variable, the first name that it was tracked under; few have others.
    first_names: Vec<u32>,
    others: QuickSet<(u32, Variable)>,
}

impl Trackers {
    pub fn of_name(&self, name: u32) -> Tracker {
        self.by_name[name as usize]
    }

    /// The variables of a list, in order.
    pub fn of_chain(&self, chain: Chain) -> impl Iterator<Item = Variable> + '_ {
        let node = |number: u32| self.nodes.get(number as usize);
        std::iter::successors(node(chain.first), move |before| node(before.next)).map(|node| node.variable)
    }

    fn first_name(&self, variable: Variable) -> u32 {
        self.first_names.get(variable as usize).copied().unwrap_or(NONE)
    }

    fn set_first_name(&mut self, variable: Variable, name: u32) {
        if self.first_names.len() <= variable as usize {
            self.first_names.resize(variable as usize + 1, NONE);
        }
        self.first_names[variable as usize] = name;
    }

    pub fn is_helper(&self, variable: Variable) -> bool {
        self.first_name(variable) == HELPER
    }

    /// Makes room for a name, and notes that a variable, which is no helper, is tracked under it. Whether that is new.
    pub fn note(&mut self, name: u32, variable: Variable) -> bool {
        if self.by_name.len() <= name as usize {
            self.by_name.resize(name as usize + 1, Tracker { variables: EMPTY, helpers: EMPTY });
        }
        match self.first_name(variable) {
            NONE => {
                self.set_first_name(variable, name);
                true
            }
            first => first != name && self.others.insert((name, variable)),
        }
    }

    /// Adds a variable behind those of a name.
    pub fn add_variable(&mut self, name: u32, variable: Variable) {
        add(&mut self.nodes, &mut self.by_name[name as usize].variables, variable);
    }

    /// Adds a helper behind those of a name.
    pub fn add_helper(&mut self, name: u32, helper: Variable) {
        self.set_first_name(helper, HELPER);
        add(&mut self.nodes, &mut self.by_name[name as usize].helpers, helper);
    }
}

/// Adds a variable at the end of a list.
fn add(nodes: &mut Vec<Node>, chain: &mut Chain, variable: Variable) {
    let node = number_of(nodes.len());
    nodes.push(Node { variable, next: NONE });
    match nodes.get_mut(chain.last as usize) {
        Some(last) => last.next = node,
        None => chain.first = node,
    }
    chain.last = node;
    chain.length += 1;
}
