//! What the queue makes of what changed: of variables that got or lost a value, of clauses that came, and of names that
//! got a score.

use crate::literals::{positive, variable_of, Variable, NONE};
use crate::queue::{Asked, Asking, DecideQueue, DisjunctionState, Known, Node, RequirementState, SetState};
use crate::queue::{ELIGIBLE, FALSIFIED, HOT, LISTED};
use crate::trail::{Trail, FALSE, TRUE, UNDECIDED};
use std::mem::replace;

impl DecideQueue {
    /// Brings the queue up to date.
    pub(super) fn sync(&mut self, trail: &mut Trail, asked: Asked) {
        self.make_room(trail, asked);
        let floor = trail.take_floor();
        for place in floor..self.trail.len() {
            self.note(variable_of(self.trail[place]), trail);
        }
        self.trail.truncate(floor);
        for entry in &trail.entries()[floor..] {
            self.note(variable_of(entry.literal), trail);
            self.trail.push(entry.literal);
        }
        for requires in &asked.requires[self.clauses.len()..] {
            self.register(requires, asked);
        }
    }

    /// Makes room for what is new.
    fn make_room(&mut self, trail: &Trail, asked: Asked) {
        let known = Known { seen: UNDECIDED, group: NONE, conditions: NONE, sets: NONE };
        self.known.resize(trail.variables(), known);
        let disjunction = DisjunctionState { is_listed: false, not_false: 0, newest: NONE };
        self.disjunctions.resize(asked.disjunctions.len(), disjunction);
        if self.requirements.len() < asked.packages.requirements() {
            let set =
                SetState { is_listed: false, trues: 0, undecided: 0, first: 0, requirements: NONE, next_of_name: NONE };
            self.sets.resize(asked.packages.sets(), set);
            let requirement =
                RequirementState { true_sets: 0, undecided_sets: 0, asking: NONE, parts: (0, 0), is_hot: false };
            self.requirements.resize(asked.packages.requirements(), requirement);
            self.names.resize(asked.packages.names(), NONE);
        }
    }

    /// Notes the value that a variable has now.
    fn note(&mut self, variable: Variable, trail: &Trail) {
        let now = trail.value(positive(variable));
        let known = &mut self.known[variable as usize];
        let before = replace(&mut known.seen, now);
        if before == now {
            return;
        }
        let Known { group, conditions, sets, .. } = *known;
        if now == TRUE && group != NONE {
            self.wake_all(self.groups[group as usize], |clause| clause.next_of_group);
        }
        self.note_conditions(conditions, before, now);
        self.note_sets(sets, before, now);
    }

    /// Counts in these disjunctions that a variable of theirs has another value.
    fn note_conditions(&mut self, mut node: u32, before: u8, now: u8) {
        while node != NONE {
            let Node { of, detail: literal, next } = self.nodes[node as usize];
            node = next;
            let falsifying = if literal & 1 == 0 { FALSE } else { TRUE };
            let state = &mut self.disjunctions[of as usize];
            if before == falsifying {
                state.not_false += 1;
            } else if now == falsifying {
                state.not_false -= 1;
                if state.not_false == 0 {
                    let newest = state.newest;
                    self.wake_all(newest, |clause| clause.next_of_disjunction);
                }
            }
        }
    }

    /// Counts in these version sets that a candidate of theirs has another value.
    fn note_sets(&mut self, mut node: u32, before: u8, now: u8) {
        while node != NONE {
            let Node { of, detail: place, next } = self.nodes[node as usize];
            node = next;
            let set = &mut self.sets[of as usize];
            let was = set.shares();
            match before {
                TRUE => set.trues -= 1,
                UNDECIDED => set.undecided -= 1,
                _ => {}
            }
            match now {
                TRUE => set.trues += 1,
                UNDECIDED => {
                    set.undecided += 1;
                    set.first = set.first.min(place);
                }
                _ => {}
            }
            let is = set.shares();
            if was != is {
                let requirements = set.requirements;
                self.note_requirements(requirements, was, is);
            }
        }
    }

    /// Counts in these requirements that one of their version sets has other shares.
    fn note_requirements(&mut self, mut node: u32, was: (u32, u32), is: (u32, u32)) {
        while node != NONE {
            let Node { of, next, .. } = self.nodes[node as usize];
            node = next;
            let state = &mut self.requirements[of as usize];
            let before = state.kind();
            state.true_sets = state.true_sets + is.0 - was.0;
            state.undecided_sets = state.undecided_sets + is.1 - was.1;
            if state.true_sets == 0 && state.kind() != before {
                self.wake_asking(of);
            }
        }
    }

    /// Queues the clauses that ask for a requirement. Those that don't any more leave its list.
    fn wake_asking(&mut self, requirement: u32) {
        let mut number = replace(&mut self.requirements[requirement as usize].asking, NONE);
        while number != NONE {
            let clause = &mut self.clauses[number as usize];
            let next = clause.next_of_requirement;
            clause.queued &= !LISTED;
            self.wake(number);
            number = next;
        }
    }

    /// Wakes the clauses of a list.
    fn wake_all(&mut self, mut number: u32, next: impl Fn(&Asking) -> u32) {
        while number != NONE {
            self.wake(number);
            number = next(&self.clauses[number as usize]);
        }
    }

    /// Lists a clause with its requirement, if it asks for it, and queues it for what it is.
    pub(super) fn wake(&mut self, number: u32) {
        if !self.is_asking(number) {
            return;
        }
        let position = self.position(number);
        let clause = &mut self.clauses[number as usize];
        let requirement = &mut self.requirements[clause.requirement as usize];
        if clause.queued & LISTED == 0 {
            clause.queued |= LISTED;
            clause.next_of_requirement = replace(&mut requirement.asking, number);
        }
        if requirement.true_sets > 0 {
            return;
        }
        if requirement.undecided_sets == 0 {
            if clause.queued & FALSIFIED == 0 {
                clause.queued |= FALSIFIED;
                self.falsified.insert(position);
            }
            return;
        }
        let is_root = (clause.parent == 0) as usize;
        if clause.queued & ELIGIBLE == 0 {
            clause.queued |= ELIGIBLE;
            self.eligible[is_root].insert(position);
        }
        if clause.queued & HOT == 0 && requirement.is_hot {
            clause.queued |= HOT;
            self.hot[is_root].insert(position);
        }
    }

    /// Notes that a name gets its first score. Its clauses that are queued are hot from then on.
    pub fn heat(&mut self, name: u32) {
        let mut set = self.names.get(name as usize).copied().unwrap_or(NONE);
        while set != NONE {
            let state = self.sets[set as usize];
            set = state.next_of_name;
            let mut node = state.requirements;
            while node != NONE {
                let Node { of, next, .. } = self.nodes[node as usize];
                node = next;
                self.requirements[of as usize].is_hot = true;
                self.wake_asking(of);
            }
        }
    }
}

impl SetState {
    /// Whether it has a true candidate, and whether it has an undecided one, as numbers that can be added.
    pub(super) fn shares(&self) -> (u32, u32) {
        ((self.trues > 0) as u32, (self.undecided > 0) as u32)
    }
}

impl RequirementState {
    /// Whether a candidate is true, and whether one is undecided.
    fn kind(&self) -> (bool, bool) {
        (self.true_sets > 0, self.undecided_sets > 0)
    }
}
