//! The lines behind `begin`: each is a command, which is answered by a line.

use crate::literals::{negative, positive, variable_of, Literal, NONE};
use crate::packages::Packages;
use crate::queue::Answer;
use crate::reading::{Cursor, Read, Unreadable, IDS, VARIABLES, WORD};
use crate::replies::Replies;
use crate::store::{Assigned, Store};
use crate::trail::Entry;

const UNKNOWN_ID: u8 = 3;
const LEVEL_OUT_OF_RANGE: u8 = 4;
const NOT_LOADED: u8 = 5;
const NEGATES_PARENT: u8 = 6;
const BAD_WATCH: u8 = 7;
const BAD_LEARNT: u8 = 8;
const EMPTY_TRAIL: u8 = 9;
const BAD_FRACTION: u8 = 10;

/// Why a command isn't obeyed.
enum Stop {
    Unreadable,
    /// The store refuses it for the reason of this number.
    Refused(u8),
}

impl From<Unreadable> for Stop {
    fn from(_: Unreadable) -> Self {
        Stop::Unreadable
    }
}

type Obeyed = Result<(), Stop>;

/// A store that obeys lines, and its replies.
pub struct Commands<'r> {
    store: Store,
    /// The literals of a line.
    literals: Vec<Literal>,
    pub replies: &'r mut Replies,
}

impl<'r> Commands<'r> {
    pub fn new(packages: Packages, replies: &'r mut Replies) -> Self {
        Commands { store: Store::new(packages), literals: Vec::new(), replies }
    }

    /// Obeys a line, and says what it is answered.
    pub fn obey_line(&mut self, cursor: &mut Cursor) -> Read<()> {
        if !cursor.has_word()? {
            return Ok(());
        }
        if cursor.passes(b'#') {
            return cursor.skip_line();
        }
        match self.obey(cursor) {
            Ok(()) => {}
            Err(Stop::Refused(number)) => self.replies.line(b"refused ", number as u32),
            Err(Stop::Unreadable) => return Err(Unreadable),
        }
        Ok(())
    }

    /// Obeys a command. Its line is read to the end before anything else is done.
    fn obey(&mut self, cursor: &mut Cursor) -> Obeyed {
        match cursor.rest_of_word() {
            b"assign" => self.assign(cursor),
            b"requires" => self.requires(cursor),
            b"load" => self.load(cursor),
            b"decide" => self.decide(cursor),
            b"undo-until" => self.undo_until(cursor),
            b"unpropagated" => self.unpropagated(cursor),
            b"undo-last" => self.undo_last(cursor),
            b"learnt" => self.learnt(cursor),
            b"saturate" => self.saturate(cursor),
            b"at-most-once" => self.at_most_once(cursor),
            b"rewatch" => self.rewatch(cursor),
            b"watchers" => self.watchers(cursor),
            b"disjunction" => self.disjunction(cursor),
            b"bump" => self.bump(cursor),
            b"decay" => self.decay(cursor),
            b"standard" => self.standard(cursor),
            b"variable" => self.variable(cursor),
            b"helper" => self.helper(cursor),
            b"root" => self.root(cursor),
            b"constrains" | b"constrains-parent" => self.constrains(cursor),
            b"constrains-excluded" => self.constrains_excluded(cursor),
            b"lock" => self.lock(cursor),
            b"any-of" => self.any_of(cursor),
            b"exclude" => self.exclude(cursor),
            _ => Err(Stop::Unreadable),
        }
    }

    // What a line's words are.

    /// The next word, which is a requirement; none where it isn't known.
    fn requirement(&self, cursor: &mut Cursor) -> Read<Option<u32>> {
        if !cursor.has_word()? {
            return Err(Unreadable);
        }
        let is_set = cursor.passes(b's');
        if !is_set && !cursor.passes(b'u') {
            return Err(Unreadable);
        }
        let number = cursor.digits_below(WORD)?;
        cursor.word_ends()?;
        let packages = &self.store.packages;
        if is_set {
            return Ok(((number as usize) < packages.sets()).then_some(number));
        }
        Ok(packages.union(number))
    }

    /// The literals up to the line's end.
    fn read_literals(&mut self, cursor: &mut Cursor) -> Read<()> {
        self.literals.clear();
        while cursor.has_word()? {
            self.literals.push(cursor.literal()?);
        }
        Ok(())
    }

    // What is known.

    fn knows(&self, variable: u32) -> Obeyed {
        known(variable, self.store.variables as usize)
    }

    fn knows_literals(&self) -> Obeyed {
        self.literals.iter().try_for_each(|literal| self.knows(variable_of(*literal)))
    }

    // Variables.

    fn variable(&mut self, cursor: &mut Cursor) -> Obeyed {
        let solvable = cursor.number(WORD)?;
        cursor.end()?;
        known(solvable, self.store.packages.solvables())?;
        let variable = self.store.variable_of(solvable);
        self.replies.line(b"variable ", variable);
        Ok(())
    }

    fn helper(&mut self, cursor: &mut Cursor) -> Obeyed {
        let is_known = match cursor.word()? {
            b"any-of" => (cursor.number(WORD)? as usize) < self.store.packages.names(),
            b"violation" => (cursor.number(WORD)? as usize) < self.store.packages.sets(),
            b"gate" => self.requirement(cursor)?.is_some(),
            _ => return Err(Stop::Unreadable),
        };
        cursor.end()?;
        if !is_known {
            return Err(Stop::Refused(UNKNOWN_ID));
        }
        let variable = self.store.new_variable();
        self.replies.line(b"variable ", variable);
        Ok(())
    }

    fn load(&mut self, cursor: &mut Cursor) -> Obeyed {
        let requirement = self.requirement(cursor)?;
        cursor.end()?;
        let requirement = requirement.ok_or(Stop::Refused(UNKNOWN_ID))?;
        self.store.load(requirement);
        self.replies.text(b"loaded");
        for set in self.store.packages.sets_of(requirement) {
            self.replies.list(self.store.packages.rows_of(set));
        }
        self.replies.text(b"\n");
        Ok(())
    }

    fn disjunction(&mut self, cursor: &mut Cursor) -> Obeyed {
        let condition = cursor.number(IDS)?;
        self.read_literals(cursor)?;
        known(condition, self.store.packages.conditions as usize)?;
        self.knows_literals()?;
        let disjunction = self.store.disjunctions.add(&self.literals);
        self.replies.line(b"disjunction ", disjunction);
        Ok(())
    }

    // Clauses.

    fn clause(&mut self, clause: u32) -> Obeyed {
        self.replies.clause(clause, false);
        Ok(())
    }

    fn requires(&mut self, cursor: &mut Cursor) -> Obeyed {
        let parent = cursor.variable()?;
        let requirement = self.requirement(cursor)?;
        let is_conditional = cursor.has_word()?;
        let disjunction = if is_conditional { cursor.number(IDS)? } else { NONE };
        cursor.end()?;
        self.knows(parent)?;
        if is_conditional {
            known(disjunction, self.store.disjunctions.len())?;
        }
        let requirement = requirement.ok_or(Stop::Refused(UNKNOWN_ID))?;
        if !self.store.packages.is_loaded(requirement) {
            return Err(Stop::Refused(NOT_LOADED));
        }
        if self.store.disjunctions.literals(disjunction).contains(&negative(parent)) {
            return Err(Stop::Refused(NEGATES_PARENT));
        }
        let (clause, is_conflict) = self.store.require(parent, requirement, disjunction);
        self.replies.clause(clause, is_conflict);
        Ok(())
    }

    fn root(&mut self, cursor: &mut Cursor) -> Obeyed {
        cursor.end()?;
        let clause = self.store.add(positive(0), positive(0));
        self.clause(clause)
    }

    /// `V V`
    fn pair(&mut self, cursor: &mut Cursor) -> Result<(u32, u32), Stop> {
        let (first, second) = (cursor.variable()?, cursor.variable()?);
        cursor.end()?;
        self.knows(first.max(second))?;
        Ok((first, second))
    }

    /// `V V SET`
    fn pair_and_set(&mut self, cursor: &mut Cursor) -> Result<(u32, u32), Stop> {
        let (first, second) = (cursor.variable()?, cursor.variable()?);
        let set = cursor.number(WORD)?;
        cursor.end()?;
        self.knows(first.max(second))?;
        known(set, self.store.packages.sets())?;
        Ok((first, second))
    }

    fn constrains(&mut self, cursor: &mut Cursor) -> Obeyed {
        let (parent, forbidden) = self.pair_and_set(cursor)?;
        let (clause, is_conflict) = self.store.constrain(parent, forbidden);
        self.replies.clause(clause, is_conflict);
        Ok(())
    }

    fn constrains_excluded(&mut self, cursor: &mut Cursor) -> Obeyed {
        let (candidate, helper) = self.pair_and_set(cursor)?;
        let clause = self.store.add(negative(candidate), positive(helper));
        self.clause(clause)
    }

    fn lock(&mut self, cursor: &mut Cursor) -> Obeyed {
        let (_, other) = self.pair(cursor)?;
        let clause = self.store.add(negative(0), negative(other));
        self.clause(clause)
    }

    fn any_of(&mut self, cursor: &mut Cursor) -> Obeyed {
        let (selected, other) = self.pair(cursor)?;
        let clause = self.store.add(positive(selected), negative(other));
        self.clause(clause)
    }

    fn exclude(&mut self, cursor: &mut Cursor) -> Obeyed {
        let (variable, string) = (cursor.variable()?, cursor.number(WORD)?);
        cursor.end()?;
        self.knows(variable)?;
        known(string, self.store.packages.strings as usize)?;
        let clause = self.store.add(negative(variable), negative(variable));
        self.clause(clause)
    }

    fn learnt(&mut self, cursor: &mut Cursor) -> Obeyed {
        self.read_literals(cursor)?;
        self.knows_literals()?;
        if let [] | [_, _, ..] = self.literals[..] {
            if self.literals.first() == self.literals.last() {
                return Err(Stop::Refused(BAD_LEARNT));
            }
        }
        let clause = self.store.add_learnt(&self.literals);
        self.clause(clause)
    }

    fn at_most_once(&mut self, cursor: &mut Cursor) -> Obeyed {
        let (name, variable) = (cursor.number(WORD)?, cursor.variable()?);
        cursor.end()?;
        known(name, self.store.packages.names())?;
        self.knows(variable)?;
        if self.store.trackers.is_helper(variable) {
            return Err(Stop::Refused(UNKNOWN_ID));
        }
        let (is_new, clauses) = self.store.track(name, variable);
        self.replies.line(if is_new { b"tracked yes " } else { b"tracked no " }, clauses);
        Ok(())
    }

    fn rewatch(&mut self, cursor: &mut Cursor) -> Obeyed {
        let clause = cursor.number(IDS)?;
        let (old, new) = (cursor.literal()?, cursor.literal()?);
        cursor.end()?;
        known(clause, self.store.clauses.len())?;
        self.knows(variable_of(old).max(variable_of(new)))?;
        if !self.store.rewatch(clause, old, new) {
            return Err(Stop::Refused(BAD_WATCH));
        }
        self.done()
    }

    fn watchers(&mut self, cursor: &mut Cursor) -> Obeyed {
        let literal = cursor.literal()?;
        cursor.end()?;
        self.knows(variable_of(literal))?;
        let mut place = self.store.clauses.front(literal);
        self.replies.text(b"watchers");
        let mut is_empty = true;
        while let Some(step) = place.step(&self.store.clauses) {
            self.replies.field(b" ", step.clause);
            place.pass(step);
            is_empty = false;
        }
        self.replies.text(if is_empty { b" -\n" } else { b"\n" });
        Ok(())
    }

    // The trail.

    fn assign(&mut self, cursor: &mut Cursor) -> Obeyed {
        let (variable, value) = (cursor.number(VARIABLES)?, cursor.truth()?);
        let (clause, level) = (cursor.number(IDS)?, cursor.number(WORD)?);
        cursor.end()?;
        self.knows(variable)?;
        known(clause, self.store.clauses.len())?;
        is_level(level)?;
        match self.store.assign(variable, value, clause, level) {
            Assigned::New => self.replies.text(b"assigned\n"),
            Assigned::Already => self.replies.text(b"already\n"),
            Assigned::Clash => self.replies.text(b"clash\n"),
        }
        Ok(())
    }

    fn undo_last(&mut self, cursor: &mut Cursor) -> Obeyed {
        cursor.end()?;
        let entry = self.store.trail.undo_last().ok_or(Stop::Refused(EMPTY_TRAIL))?;
        let level = self.store.trail.entries().last().map_or(0, |entry| entry.level);
        self.entry(b"undone ", entry);
        self.replies.line(b" ", level);
        Ok(())
    }

    fn undo_until(&mut self, cursor: &mut Cursor) -> Obeyed {
        let level = cursor.number(WORD)?;
        cursor.end()?;
        self.store.trail.undo_until(level);
        self.replies.text(b"undone\n");
        Ok(())
    }

    fn unpropagated(&mut self, cursor: &mut Cursor) -> Obeyed {
        cursor.end()?;
        match self.store.trail.hand_out() {
            Some(entry) => {
                self.entry(b"next ", entry);
                self.replies.text(b"\n");
            }
            None => self.replies.text(b"next none\n"),
        }
        Ok(())
    }

    /// A text, and an entry's variable, value and clause.
    fn entry(&mut self, text: &[u8], entry: Entry) {
        self.replies.field(text, variable_of(entry.literal));
        let is_true = entry.literal & 1 == 0;
        self.replies.field(if is_true { b" true " } else { b" false " }, entry.clause);
    }

    fn saturate(&mut self, cursor: &mut Cursor) -> Obeyed {
        let level = cursor.number(WORD)?;
        cursor.end()?;
        is_level(level)?;
        match self.store.saturate(level) {
            None => self.done(),
            Some(clause) => {
                self.replies.line(b"conflict ", clause);
                Ok(())
            }
        }
    }

    // Scores and decisions.

    fn done(&mut self) -> Obeyed {
        self.replies.text(b"done\n");
        Ok(())
    }

    fn bump(&mut self, cursor: &mut Cursor) -> Obeyed {
        let (name, amount) = (cursor.number(WORD)?, cursor.long_number()?);
        cursor.end()?;
        known(name, self.store.packages.names())?;
        self.store.bump(name, amount);
        self.done()
    }

    fn decay(&mut self, cursor: &mut Cursor) -> Obeyed {
        let (numerator, denominator) = (cursor.long_number()?, cursor.long_number()?);
        cursor.end()?;
        if denominator == 0 || numerator > denominator {
            return Err(Stop::Refused(BAD_FRACTION));
        }
        self.store.scores.decay(numerator, denominator);
        self.done()
    }

    /// No answer depends on it.
    fn standard(&mut self, cursor: &mut Cursor) -> Obeyed {
        cursor.truth()?;
        cursor.end()?;
        self.done()
    }

    fn decide(&mut self, cursor: &mut Cursor) -> Obeyed {
        cursor.end()?;
        let answer = self.store.decide();
        let requires = self.store.clauses.requires();
        match answer {
            Answer::NoDecision => self.replies.text(b"no decision\n"),
            Answer::Falsified(number) => self.replies.line(b"falsified ", requires[number as usize].clause),
            Answer::Decided(offer) => {
                let requires = requires[offer.number as usize];
                self.replies.field(b"decided ", offer.candidate);
                self.replies.field(b" by ", requires.parent);
                self.replies.field(b" clause ", requires.clause);
                self.replies.text(b" score ");
                self.replies.number(offer.score);
                self.replies.text(b" count ");
                self.replies.number(offer.count);
                self.replies.text(b"\n");
            }
        }
        Ok(())
    }
}

/// That a number is that of one of so many.
fn known(number: u32, count: usize) -> Obeyed {
    if (number as usize) < count {
        Ok(())
    } else {
        Err(Stop::Refused(UNKNOWN_ID))
    }
}

/// That a level is in range.
fn is_level(level: u32) -> Obeyed {
    if (1..1 << 31).contains(&level) {
        Ok(())
    } else {
        Err(Stop::Refused(LEVEL_OUT_OF_RANGE))
    }
}
