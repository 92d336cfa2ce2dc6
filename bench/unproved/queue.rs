//! What to decide next: which requires clause can't be met any more, or which candidate to try.
//!
//! A question looks at what changed since the last one. For each requirement it is counted how many of its version sets
//! have a true candidate, and how many an undecided one; for each disjunction, how many of its literals aren't false.
//! So it is known at once what a clause is, and a clause is woken only where one of these numbers becomes 0, or isn't 0
//! any more, or its parent becomes true (`waking`). Woken clauses are queued by their place in the scan. One that turns
//! out not to be what it was queued for leaves the queue when it comes first. A clause that is new is made known to the
//! variables that may change it (`listing`).

mod listing;
mod waking;

use crate::clauses::{Disjunctions, Requires};
use crate::literals::{Literal, Variable, NONE};
use crate::packages::Packages;
use crate::scores::Scores;
use crate::trail::{Trail, TRUE, UNDECIDED};
use std::collections::BTreeSet;
use std::ops::Bound::{Excluded, Unbounded};

/// What is asked about.
#[derive(Clone, Copy)]
pub struct Asked<'a> {
    pub packages: &'a Packages,
    pub disjunctions: &'a Disjunctions,
    pub requires: &'a [Requires],
    pub scores: &'a Scores,
}

/// What the queue knows of a variable, as of the last question.
#[derive(Clone, Copy)]
struct Known {
    /// Its value.
    seen: u8,
    /// The number of the group of clauses that have it as their parent.
    group: u32,
    /// The disjunctions that have a literal of it.
    conditions: u32,
    /// The version sets that have it as a candidate.
    sets: u32,
}

/// A part of a list that is linked through such parts: a disjunction, with the variable's literal in it; a version set,
/// with the variable's place among its candidates; or a requirement.
struct Node {
    of: u32,
    detail: u32,
    next: u32,
}

/// A requires clause. Each list of such clauses is linked through them.
#[derive(Clone, Copy)]
struct Asking {
    parent: Variable,
    requirement: u32,
    disjunction: u32,
    next_of_group: u32,
    next_of_requirement: u32,
    next_of_disjunction: u32,
    /// Flags: what it is in.
    queued: u8,
}

/// The flags of the queues, and of the list of those that ask for a requirement.
const ELIGIBLE: u8 = 1;
const HOT: u8 = 2;
const FALSIFIED: u8 = 4;
const LISTED: u8 = 8;

/// What is known of a version set.
#[derive(Clone, Copy)]
struct SetState {
    is_listed: bool,
    /// How many candidates are true, and how many are undecided.
    trues: u32,
    undecided: u32,
    /// No candidate before this one is undecided.
    first: u32,
    /// The requirements that have it.
    requirements: u32,
    next_of_name: u32,
}

/// What is known of a requirement.
#[derive(Clone, Copy)]
struct RequirementState {
    /// How many of its different version sets have a true candidate, and how many have an undecided one.
    true_sets: u32,
    undecided_sets: u32,
    /// The newest of the clauses that asked for it when its sets last changed, and of those that came to ask since.
    asking: u32,
    /// Where its parts begin and end.
    parts: (u32, u32),
    /// Whether the name of one of them got a score.
    is_hot: bool,
}

/// What is known of a disjunction.
#[derive(Clone, Copy)]
struct DisjunctionState {
    is_listed: bool,
    /// How many of its literals aren't false.
    not_false: u32,
    /// The newest of the clauses under it.
    newest: u32,
}

/// What a requires clause is.
#[derive(Clone, Copy, PartialEq)]
enum State {
    Closed,
    Eligible,
    Falsified,
}

/// What an eligible clause offers.
pub struct Offer {
    pub candidate: Variable,
    /// The clause's number among the requires clauses.
    pub number: u32,
    pub score: u64,
    /// How many candidates of the same version set are undecided.
    pub count: u64,
}

/// What a question is answered.
pub enum Answer {
    Decided(Offer),
    NoDecision,
    /// The requires clause of this number is falsified.
    Falsified(u32),
}

#[derive(Default)]
pub struct DecideQueue {
    /// The literals of the trail's entries, as of the last question.
    trail: Vec<Literal>,
    known: Vec<Known>,
    nodes: Vec<Node>,
    clauses: Vec<Asking>,
    /// Of each group the newest clause.
    groups: Vec<u32>,
    sets: Vec<SetState>,
    requirements: Vec<RequirementState>,
    /// The different version sets of each requirement, with how often each is one of it.
    parts: Vec<(u32, u32)>,
    disjunctions: Vec<DisjunctionState>,
    /// Of each name, the newest of its version sets that are listed.
    names: Vec<u32>,
    /// The places in the scan of clauses that may be falsified.
    falsified: BTreeSet<u64>,
    /// Those of clauses that may be eligible: of others' than the root's, and of the root's.
    eligible: [BTreeSet<u64>; 2],
    /// The same of clauses whose requirement is hot.
    hot: [BTreeSet<u64>; 2],
}

impl DecideQueue {
    /// Answers what to decide next.
    pub fn decide(&mut self, trail: &mut Trail, asked: Asked) -> Answer {
        self.sync(trail, asked);
        if let Some(number) = self.first_falsified() {
            return Answer::Falsified(number);
        }
        for is_root in [true, false] {
            if let Some(number) = self.first_eligible(is_root) {
                return Answer::Decided(self.best(number, is_root, asked));
            }
        }
        Answer::NoDecision
    }

    /// The place of a clause in the scan: by groups, and by numbers in each.
    fn position(&self, number: u32) -> u64 {
        let parent = self.clauses[number as usize].parent;
        (self.known[parent as usize].group as u64) << 32 | number as u64
    }

    /// Whether a clause asks for its requirement: its parent is true, and its condition is met.
    fn is_asking(&self, number: u32) -> bool {
        let clause = &self.clauses[number as usize];
        self.known[clause.parent as usize].seen == TRUE
            && (clause.disjunction == NONE || self.disjunctions[clause.disjunction as usize].not_false == 0)
    }

    fn state(&self, number: u32) -> State {
        let requirement = &self.requirements[self.clauses[number as usize].requirement as usize];
        if requirement.true_sets > 0 || !self.is_asking(number) {
            State::Closed
        } else if requirement.undecided_sets > 0 {
            State::Eligible
        } else {
            State::Falsified
        }
    }

    /// The number of the first falsified clause.
    fn first_falsified(&mut self) -> Option<u32> {
        while let Some(position) = self.falsified.first() {
            let number = *position as u32;
            if self.state(number) == State::Falsified {
                return Some(number);
            }
            self.falsified.pop_first();
            self.clauses[number as usize].queued &= !FALSIFIED;
        }
        None
    }

    /// The number of the first eligible clause, of the root or of all others.
    fn first_eligible(&mut self, is_root: bool) -> Option<u32> {
        while let Some(position) = self.eligible[is_root as usize].first() {
            let number = *position as u32;
            if self.state(number) == State::Eligible {
                return Some(number);
            }
            self.eligible[is_root as usize].pop_first();
            self.clauses[number as usize].queued &= !ELIGIBLE;
        }
        None
    }

    /// The best offer, where this eligible clause is the first. Only those beat it whose package has a score.
    fn best(&mut self, first: u32, is_root: bool, asked: Asked) -> Offer {
        let mut best = self.offer(first, asked);
        let mut place = self.position(first);
        while best.count > 1 && best.score < asked.scores.largest() {
            let Some(position) = self.hot[is_root as usize].range((Excluded(place), Unbounded)).next() else {
                break;
            };
            place = *position;
            let number = place as u32;
            if self.state(number) != State::Eligible {
                self.hot[is_root as usize].remove(&place);
                self.clauses[number as usize].queued &= !HOT;
                continue;
            }
            let offer = self.offer(number, asked);
            if offer.score > best.score && offer.count < best.count {
                best = offer;
            }
        }
        best
    }

    /// What an eligible clause offers: the first undecided candidate.
    fn offer(&mut self, number: u32, asked: Asked) -> Offer {
        let (first, end) = self.requirements[self.clauses[number as usize].requirement as usize].parts;
        let mut place = first;
        while place + 1 < end && self.sets[self.parts[place as usize].0 as usize].undecided == 0 {
            place += 1;
        }
        let (set, times) = self.parts[place as usize];
        let state = &mut self.sets[set as usize];
        let rows = asked.packages.rows_of(set);
        while self.known[rows[state.first as usize] as usize].seen != UNDECIDED {
            state.first += 1;
        }
        Offer {
            candidate: rows[state.first as usize],
            number,
            score: asked.scores.of_name(asked.packages.name_of(set)),
            count: state.undecided as u64 * times as u64,
        }
    }
}
