//! The trail: which variables have values, in the order in which they got them.

use crate::literals::{negative, positive, variable_of, Literal, Variable};

/// What a literal is. So `value ^ 3` is what its negation is, unless it is undecided.
pub const UNDECIDED: u8 = 0;
pub const TRUE: u8 = 1;
pub const FALSE: u8 = 2;

/// An entry makes its literal true.
#[derive(Clone, Copy)]
pub struct Entry {
    pub literal: Literal,
    pub clause: u32,
    pub level: u32,
}

/// How far a saturation came that found all clauses settled: the watches that so many entries make false stand beside
/// true ones, and so many of the clauses of one literal are true.
#[derive(Clone, Copy, Default)]
pub struct Mark {
    pub length: usize,
    pub units: usize,
}

#[derive(Default)]
pub struct Trail {
    /// Of each literal.
    values: Vec<u8>,
    /// Of each variable that has a value, the place of its entry.
    places: Vec<u32>,
    entries: Vec<Entry>,
    /// How many entries were handed out to be propagated.
    handed_out: usize,
    /// The least length since the queue looked at the trail: what it saw before that place is there still.
    floor: usize,
    /// The marks of the trail, the newest and longest last.
    marks: Vec<Mark>,
}

impl Trail {
    /// Makes room for so many variables in all.
    pub fn make_room(&mut self, count: usize) {
        self.values.resize(2 * count, UNDECIDED);
        self.places.resize(count, 0);
    }

    pub fn variables(&self) -> usize {
        self.places.len()
    }

    #[inline]
    pub fn value(&self, literal: Literal) -> u8 {
        self.values[literal as usize]
    }

    #[inline]
    pub fn is_false(&self, literal: Literal) -> bool {
        self.value(literal) == FALSE
    }

    /// Whether the variable is true.
    #[inline]
    pub fn is_true(&self, variable: Variable) -> bool {
        self.value(positive(variable)) == TRUE
    }

    pub fn entries(&self) -> &[Entry] {
        &self.entries
    }

    /// Makes an undecided literal true.
    #[inline]
    pub fn push(&mut self, entry: Entry) {
        self.values[entry.literal as usize] = TRUE;
        self.values[entry.literal as usize ^ 1] = FALSE;
        self.places[variable_of(entry.literal) as usize] = self.entries.len() as u32;
        self.entries.push(entry);
    }

    /// Takes back the newest entry, if there is one.
    pub fn undo_last(&mut self) -> Option<Entry> {
        let entry = self.take_back();
        self.cut();
        entry
    }

    /// Takes back the entries at the end that are above the level.
    pub fn undo_until(&mut self, level: u32) {
        while self.entries.last().is_some_and(|entry| entry.level > level) {
            self.take_back();
        }
        self.cut();
    }

    fn take_back(&mut self) -> Option<Entry> {
        let entry = self.entries.pop()?;
        let variable = variable_of(entry.literal);
        self.values[positive(variable) as usize] = UNDECIDED;
        self.values[negative(variable) as usize] = UNDECIDED;
        Some(entry)
    }

    /// Forgets what was known of entries that were taken back.
    fn cut(&mut self) {
        let length = self.entries.len();
        self.handed_out = self.handed_out.min(length);
        self.floor = self.floor.min(length);
        self.forget_behind(length);
    }

    /// The oldest entry that wasn't handed out yet.
    pub fn hand_out(&mut self) -> Option<Entry> {
        let entry = *self.entries.get(self.handed_out)?;
        self.handed_out += 1;
        Some(entry)
    }

    /// The floor, which is the end of the trail from then on.
    pub fn take_floor(&mut self) -> usize {
        std::mem::replace(&mut self.floor, self.entries.len())
    }

    /// The newest mark, that of the beginning if there is none.
    pub fn newest_mark(&self) -> Mark {
        self.marks.last().copied().unwrap_or_default()
    }

    /// Remembers a mark, in the place of one of as many entries.
    pub fn add_mark(&mut self, mark: Mark) {
        match self.marks.last_mut() {
            Some(last) if last.length == mark.length => *last = mark,
            _ => self.marks.push(mark),
        }
    }

    /// Forgets the marks of more than so many entries.
    #[inline]
    fn forget_behind(&mut self, length: usize) {
        while self.marks.last().is_some_and(|mark| mark.length > length) {
            self.marks.pop();
        }
    }

    /// Forgets the marks that a clause which watches these literals ends: one of them is false by then, and the other
    /// one isn't true.
    pub fn forget_unmet(&mut self, [first, second]: [Literal; 2]) {
        if self.marks.is_empty() {
            return;
        }
        for (literal, other) in [(first, second), (second, first)] {
            let place = self.places[variable_of(literal) as usize];
            let is_met = self.value(other) == TRUE && self.places[variable_of(other) as usize] < place;
            if self.is_false(literal) && !is_met {
                self.forget_behind(place as usize);
            }
        }
    }
}
