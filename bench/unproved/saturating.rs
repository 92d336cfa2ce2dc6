//! Unit propagation: assigns what clauses force, until none forces anything or one is false.

use crate::clauses::{Clauses, Given};
use crate::literals::Literal;
use crate::trail::{Entry, Mark, Trail, FALSE, TRUE, UNDECIDED};

/// Assigns at the level what clauses force. Answers a clause that is false, if there is one; else it marks the trail's
/// end, from where the next call goes on.
pub fn saturate(clauses: &mut Clauses, trail: &mut Trail, given: Given, level: u32) -> Option<u32> {
    let from = trail.newest_mark();
    let mut place = from.length;
    loop {
        while let Some(entry) = trail.entries().get(place) {
            let conflict = walk(clauses, trail, given, entry.literal ^ 1, level);
            if conflict.is_some() {
                return conflict;
            }
            place += 1;
        }
        let conflict = visit_units(clauses, trail, from.units, level);
        if conflict.is_some() {
            return conflict;
        }
        if trail.entries().len() == place {
            break;
        }
    }
    trail.add_mark(Mark { length: place, units: clauses.units().len() });
    None
}

/// Goes through the clauses that watch a literal, which is false. Each watches another literal from then on, or its
/// other watch is true or becomes so; or it is false, and ends it.
#[inline]
fn walk(clauses: &mut Clauses, trail: &mut Trail, given: Given, literal: Literal, level: u32) -> Option<u32> {
    let mut place = clauses.front(literal);
    while let Some(step) = place.step(clauses) {
        let value = trail.value(step.other);
        if value != TRUE {
            if let Some(new) = clauses.unwatched(step.clause, step.other, given, trail) {
                place.take_to(clauses, step, new);
                continue;
            }
            if value == FALSE {
                return Some(step.clause);
            }
            trail.push(Entry { literal: step.other, clause: step.clause, level });
        }
        place.pass(step);
    }
    None
}

/// Visits the clauses of one literal, but for the first so many, which are true.
fn visit_units(clauses: &Clauses, trail: &mut Trail, first: usize, level: u32) -> Option<u32> {
    for clause in &clauses.units()[first..] {
        let literal = clauses.watched(*clause)[0];
        match trail.value(literal) {
            UNDECIDED => trail.push(Entry { literal, clause: *clause, level }),
            FALSE => return Some(*clause),
            _ => {}
        }
    }
    None
}
