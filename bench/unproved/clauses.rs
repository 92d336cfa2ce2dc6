//! The clauses, and for each literal the list of the clauses that watch it.
//!
//! A list is linked through the records of its clauses: each has the next one of either of its two lists.

use crate::literals::{negative, number_of, positive, Literal, Variable, NONE};
use crate::packages::Packages;
use crate::trail::Trail;
use std::mem::replace;

/// Where the literals of a clause are beside those that it watches.
#[derive(Clone, Copy)]
pub enum Body {
    /// There are no others.
    Watched,
    /// All of them are in the list of learnt literals, from here on.
    Learnt(u32),
    /// They are those of the requires clause of this number.
    Requires(u32),
}

#[derive(Clone, Copy)]
struct Record {
    /// Two different literals; or twice the same one, and then it watches nothing, and has no other literal.
    watched: [Literal; 2],
    next: [u32; 2],
    body: Body,
}

/// The clause that the parent, if it is true and all literals of the disjunction are false, requires a candidate.
#[derive(Clone, Copy)]
pub struct Requires {
    pub parent: Variable,
    pub requirement: u32,
    /// Its number, or none.
    pub disjunction: u32,
    /// The clause's own number.
    pub clause: u32,
}

/// Lists of literals, by number.
#[derive(Default)]
pub struct Disjunctions {
    literals: Vec<Literal>,
    ends: Vec<u32>,
}

impl Disjunctions {
    pub fn len(&self) -> usize {
        self.ends.len()
    }

    /// Adds one, and answers its number.
    pub fn add(&mut self, literals: &[Literal]) -> u32 {
        self.literals.extend_from_slice(literals);
        self.ends.push(number_of(self.literals.len()));
        number_of(self.ends.len() - 1)
    }

    /// The literals of a disjunction, none without one.
    #[inline]
    pub fn literals(&self, disjunction: u32) -> &[Literal] {
        match disjunction {
            NONE => &[],
            0 => &self.literals[..self.ends[0] as usize],
            _ => {
                let disjunction = disjunction as usize;
                &self.literals[self.ends[disjunction - 1] as usize..self.ends[disjunction] as usize]
            }
        }
    }
}

/// What a clause's literals are found in.
#[derive(Clone, Copy)]
pub struct Given<'a> {
    pub packages: &'a Packages,
    pub disjunctions: &'a Disjunctions,
}

#[derive(Default)]
pub struct Clauses {
    records: Vec<Record>,
    /// Of each literal, the first clause that watches it; none behind the last literal that was ever watched.
    firsts: Vec<u32>,
    /// The clauses of one literal, which watch nothing.
    units: Vec<u32>,
    /// Of each learnt clause of three literals or more their number, and behind it the literals.
    learnt: Vec<u32>,
    /// In order, as they are registered for decisions.
    requires: Vec<Requires>,
}

impl Clauses {
    pub fn len(&self) -> usize {
        self.records.len()
    }

    pub fn units(&self) -> &[u32] {
        &self.units
    }

    pub fn requires(&self) -> &[Requires] {
        &self.requires
    }

    /// What a clause watches: two different literals, or twice the only one that it has.
    #[inline]
    pub fn watched(&self, clause: u32) -> [Literal; 2] {
        self.records[clause as usize].watched
    }

    /// Adds a clause that watches these, if they are different, and answers its number.
    #[inline]
    pub fn add(&mut self, watched: [Literal; 2], body: Body) -> u32 {
        let clause = number_of(self.records.len());
        let next = if watched[0] == watched[1] {
            self.units.push(clause);
            [NONE; 2]
        } else {
            watched.map(|literal| self.put_first(literal, clause))
        };
        self.records.push(Record { watched, next, body });
        clause
    }

    /// Puts a clause to the front of a literal's list. Answers the one that was there.
    #[inline]
    fn put_first(&mut self, literal: Literal, clause: u32) -> u32 {
        if self.firsts.len() <= literal as usize {
            self.firsts.resize(literal as usize + 1, NONE);
        }
        replace(&mut self.firsts[literal as usize], clause)
    }

    /// Adds a learnt clause of one literal or more, which watches the first and the last.
    pub fn add_learnt(&mut self, literals: &[Literal]) -> u32 {
        let watched = [literals[0], literals[literals.len() - 1]];
        if literals.len() < 3 {
            return self.add(watched, Body::Watched);
        }
        let start = number_of(self.learnt.len());
        self.learnt.push(number_of(literals.len()));
        self.learnt.extend_from_slice(literals);
        self.add(watched, Body::Learnt(start))
    }

    /// Adds a requires clause, which watches its parent's negation and this literal, or nothing where there is none.
    pub fn add_requires(&mut self, mut requires: Requires, watched: Option<Literal>) -> u32 {
        let parent = negative(requires.parent);
        let number = number_of(self.requires.len());
        let clause = self.add([parent, watched.unwrap_or(parent)], Body::Requires(number));
        requires.clause = clause;
        self.requires.push(requires);
        clause
    }

    /// The first literal of a clause, in the order of the clause, of which something is true.
    #[inline]
    fn find(&self, clause: u32, given: Given, mut test: impl FnMut(Literal) -> bool) -> Option<Literal> {
        let record = &self.records[clause as usize];
        match record.body {
            Body::Watched => record.watched.into_iter().find(|literal| test(*literal)),
            Body::Learnt(start) => {
                let (start, count) = (start as usize + 1, self.learnt[start as usize] as usize);
                self.learnt[start..start + count].iter().copied().find(|literal| test(*literal))
            }
            Body::Requires(number) => {
                let requires = self.requires[number as usize];
                let parent = negative(requires.parent);
                if test(parent) {
                    return Some(parent);
                }
                find_other(requires, given, test)
            }
        }
    }

    /// What a clause may watch beside its other watch: its first literal that isn't that one, and isn't false.
    #[inline]
    pub fn unwatched(&self, clause: u32, other: Literal, given: Given, trail: &Trail) -> Option<Literal> {
        if let Body::Watched = self.records[clause as usize].body {
            return None;
        }
        self.find(clause, given, |literal| literal != other && !trail.is_false(literal))
    }

    /// The place at the front of a literal's list.
    pub fn front(&self, literal: Literal) -> Place {
        let clause = self.firsts.get(literal as usize).copied().unwrap_or(NONE);
        Place { literal, previous: None, clause }
    }

    /// Lets a clause watch another literal in the place of one that it watches; whether it may.
    pub fn rewatch(&mut self, clause: u32, old: Literal, new: Literal, given: Given) -> bool {
        let watched = self.watched(clause);
        let is_watched = watched[0] != watched[1] && watched.contains(&old) && !watched.contains(&new);
        if !is_watched || self.find(clause, given, |literal| literal == new).is_none() {
            return false;
        }
        let mut place = self.front(old);
        while let Some(step) = place.step(self) {
            if step.clause == clause {
                place.take_to(self, step, new);
                return true;
            }
            place.pass(step);
        }
        false
    }
}

/// The first literal of a requires clause but for its parent's of which something is true.
pub fn find_other(requires: Requires, given: Given, mut test: impl FnMut(Literal) -> bool) -> Option<Literal> {
    let disjunction = given.disjunctions.literals(requires.disjunction);
    if let Some(literal) = disjunction.iter().find(|literal| test(**literal)) {
        return Some(*literal);
    }
    given.packages.find_row(requires.requirement, |row| test(positive(row))).map(positive)
}

/// A place in the list of the clauses that watch a literal.
pub struct Place {
    literal: Literal,
    /// The clause before it, and which of its two lists this is.
    previous: Option<(u32, usize)>,
    /// The clause that stands there, none at the list's end.
    clause: u32,
}

/// What the clause at a place watches.
#[derive(Clone, Copy)]
pub struct Step {
    pub clause: u32,
    /// Which of its watches is the literal of the list.
    side: usize,
    /// The other one.
    pub other: Literal,
    next: u32,
}

impl Place {
    /// The clause that stands there, if there is one.
    #[inline]
    pub fn step(&self, clauses: &Clauses) -> Option<Step> {
        let record = clauses.records.get(self.clause as usize)?;
        let side = (record.watched[1] == self.literal) as usize;
        Some(Step { clause: self.clause, side, other: record.watched[1 - side], next: record.next[side] })
    }

    /// Goes on behind this clause, which stands there.
    #[inline]
    pub fn pass(&mut self, step: Step) {
        self.previous = Some((step.clause, step.side));
        self.clause = step.next;
    }

    /// Lets this clause, which stands there, watch another literal in the place of that of the list, and go to the
    /// front of that one's list. Goes on behind it.
    #[inline]
    pub fn take_to(&mut self, clauses: &mut Clauses, step: Step, new: Literal) {
        let first = clauses.put_first(new, step.clause);
        let record = &mut clauses.records[step.clause as usize];
        record.watched[step.side] = new;
        record.next[step.side] = first;
        self.clause = step.next;
        match self.previous {
            Some((previous, side)) => clauses.records[previous as usize].next[side] = step.next,
            None => clauses.firsts[self.literal as usize] = step.next,
        }
    }
}
