//! The packages of a script: its catalogue, and the candidates of requirements.

use crate::hashing::{QuickMap, QuickSet};
use crate::literals::{number_of, Variable, NONE};
use crate::reading::{Cursor, Read, Unreadable, IDS, WORD};
use std::mem::replace;

/// A version of a package.
struct Solvable {
    version: u32,
    variable: Variable,
}

/// A name, with the solvables of its package, if it has one.
struct Package {
    first: u32,
    end: u32,
    favored: u32,
    is_sorted: bool,
}

/// The versions from one on and below another one, and once it was loaded the place of its candidates.
struct VersionSet {
    name: u32,
    low: u32,
    high: u32,
    first_row: u32,
    end_row: u32,
}

/// What the catalogue lists. A requirement is a number: that of a version set, or that of a union behind all of these.
#[derive(Default)]
pub struct Packages {
    packages: Vec<Package>,
    solvables: Vec<Solvable>,
    /// The solvables of each package, of which those of sorted packages stand best first.
    preferred: Vec<u32>,
    sets: Vec<VersionSet>,
    union_sets: Vec<u32>,
    /// Where the sets of each union end.
    union_ends: Vec<u32>,
    pub conditions: u32,
    pub strings: u32,
    /// The variables of the candidates of all version sets that were loaded.
    rows: Vec<Variable>,
    /// Of each requirement, whether it was loaded.
    loaded: Vec<bool>,
}

impl Packages {
    pub fn names(&self) -> usize {
        self.packages.len()
    }

    pub fn sets(&self) -> usize {
        self.sets.len()
    }

    pub fn solvables(&self) -> usize {
        self.solvables.len()
    }

    pub fn requirements(&self) -> usize {
        self.sets.len() + self.union_ends.len()
    }

    /// The number of a union as a requirement, if there is one.
    pub fn union(&self, union: u32) -> Option<u32> {
        ((union as usize) < self.union_ends.len()).then(|| self.sets.len() as u32 + union)
    }

    pub fn name_of(&self, set: u32) -> u32 {
        self.sets[set as usize].name
    }

    /// The variable of a solvable, or where to write it.
    pub fn variable_of(&mut self, solvable: u32) -> &mut Variable {
        &mut self.solvables[solvable as usize].variable
    }

    pub fn is_loaded(&self, requirement: u32) -> bool {
        self.loaded[requirement as usize]
    }

    /// The version sets of a requirement: itself, or those of a union.
    pub fn sets_of(&self, requirement: u32) -> impl Iterator<Item = u32> + '_ {
        let (single, union) = match (requirement as usize).checked_sub(self.sets.len()) {
            None => (Some(requirement), &[][..]),
            Some(union) => (None, self.union_sets_of(union)),
        };
        single.into_iter().chain(union.iter().copied())
    }

    fn union_sets_of(&self, union: usize) -> &[u32] {
        let first = if union == 0 { 0 } else { self.union_ends[union - 1] };
        &self.union_sets[first as usize..self.union_ends[union] as usize]
    }

    /// The candidates of a version set that was loaded, best first.
    pub fn rows_of(&self, set: u32) -> &[Variable] {
        let set = &self.sets[set as usize];
        &self.rows[set.first_row as usize..set.end_row as usize]
    }

    /// The first candidate of a loaded requirement of which something is true.
    #[inline]
    pub fn find_row(&self, requirement: u32, mut test: impl FnMut(Variable) -> bool) -> Option<Variable> {
        if (requirement as usize) < self.sets.len() {
            return self.rows_of(requirement).iter().copied().find(|row| test(*row));
        }
        let union = requirement as usize - self.sets.len();
        let mut rows = self.union_sets_of(union).iter().flat_map(|set| self.rows_of(*set)).copied();
        rows.find(|row| test(*row))
    }

    /// Gives the candidates of a requirement variables, of which so many are there.
    pub fn load(&mut self, requirement: u32, variables: &mut u32) {
        self.loaded[requirement as usize] = true;
        if (requirement as usize) < self.sets.len() {
            return self.load_set(requirement, variables);
        }
        let union = requirement as usize - self.sets.len();
        for place in 0..self.union_sets_of(union).len() {
            self.load_set(self.union_sets_of(union)[place], variables);
        }
    }

    fn load_set(&mut self, set: u32, variables: &mut u32) {
        let set = &mut self.sets[set as usize];
        if set.first_row != NONE {
            return;
        }
        let package = &mut self.packages[set.name as usize];
        let preferred = &mut self.preferred[package.first as usize..package.end as usize];
        if !replace(&mut package.is_sorted, true) {
            prefer(package, &self.solvables, preferred);
        }
        set.first_row = number_of(self.rows.len());
        for solvable in preferred {
            let solvable = &mut self.solvables[*solvable as usize];
            if (set.low..set.high).contains(&solvable.version) {
                if solvable.variable == NONE {
                    solvable.variable = *variables;
                    *variables += 1;
                }
                self.rows.push(solvable.variable);
            }
        }
        set.end_row = number_of(self.rows.len());
    }
}

/// Sorts a package's solvables: higher versions first, and of the same version the lower number; the favored one before
/// all. Most packages list their versions ascending.
fn prefer(package: &Package, solvables: &[Solvable], preferred: &mut [u32]) {
    let key = |solvable: u32| (!solvables[solvable as usize].version as u64) << 32 | solvable as u64;
    let mut keys: Vec<u64> = (package.first..package.end).rev().map(key).collect();
    keys.sort_unstable();
    for (place, key) in preferred.iter_mut().zip(keys) {
        *place = key as u32;
    }
    if let Some(place) = preferred.iter().position(|solvable| *solvable == package.favored) {
        preferred[..=place].rotate_right(1);
    }
}

/// The catalogue as far as it was read: the packages, and what finds again what comes twice.
#[derive(Default)]
pub struct Catalogue<'a> {
    packages: Packages,
    names: QuickMap<&'a [u8], u32>,
    set_numbers: QuickMap<(u32, u32, u32), u32>,
    conditions: QuickSet<(u8, u32, u32)>,
    strings: QuickSet<&'a [u8]>,
}

impl<'a> Catalogue<'a> {
    /// Reads a line; whether it is the last one, `begin`.
    pub fn read_line(&mut self, cursor: &mut Cursor<'a>) -> Read<bool> {
        if !cursor.has_word()? {
            return Ok(false);
        }
        if cursor.passes(b'#') {
            return cursor.skip_line().map(|()| false);
        }
        match cursor.rest_of_word() {
            b"package" => self.package(cursor)?,
            b"set" => self.set(cursor)?,
            b"union" => self.union(cursor)?,
            b"condition" => self.condition(cursor)?,
            b"string" => {
                self.strings.insert(cursor.word()?);
            }
            b"begin" => return cursor.end().map(|()| true),
            _ => return Err(Unreadable),
        }
        cursor.end().map(|()| false)
    }

    /// The packages, once all are read.
    pub fn finish(self) -> Packages {
        let mut packages = self.packages;
        packages.conditions = number_of(self.conditions.len());
        packages.strings = number_of(self.strings.len());
        packages.preferred = (0..number_of(packages.solvables.len())).collect();
        packages.loaded = vec![false; packages.requirements()];
        packages
    }

    /// The number of a name, which is the next one if it is new.
    fn name(&mut self, word: &'a [u8]) -> u32 {
        let packages = &mut self.packages.packages;
        *self.names.entry(word).or_insert_with(|| {
            packages.push(Package { first: 0, end: 0, favored: NONE, is_sorted: false });
            number_of(packages.len() - 1)
        })
    }

    /// `package NAME VERSION ..`
    fn package(&mut self, cursor: &mut Cursor<'a>) -> Read<()> {
        let name = self.name(cursor.word()?) as usize;
        let first = number_of(self.packages.solvables.len());
        let mut favored = NONE;
        while cursor.has_word()? {
            let version = cursor.digits_below(WORD)?;
            if cursor.passes(b'*') {
                if favored != NONE {
                    return Err(Unreadable);
                }
                favored = number_of(self.packages.solvables.len());
            }
            cursor.word_ends()?;
            self.packages.solvables.push(Solvable { version, variable: NONE });
        }
        let end = number_of(self.packages.solvables.len());
        let package = &mut self.packages.packages[name];
        if first == end || package.first < package.end {
            return Err(Unreadable);
        }
        *package = Package { first, end, favored, is_sorted: false };
        Ok(())
    }

    /// `set NAME LOW HIGH`
    fn set(&mut self, cursor: &mut Cursor<'a>) -> Read<()> {
        let name = self.name(cursor.word()?);
        let (low, high) = (cursor.number(WORD)?, cursor.number(WORD)?);
        let sets = &mut self.packages.sets;
        self.set_numbers.entry((name, low, high)).or_insert_with(|| {
            sets.push(VersionSet { name, low, high, first_row: NONE, end_row: NONE });
            number_of(sets.len() - 1)
        });
        Ok(())
    }

    /// `union SET ..`
    fn union(&mut self, cursor: &mut Cursor<'a>) -> Read<()> {
        let packages = &mut self.packages;
        let first = packages.union_sets.len();
        while cursor.has_word()? {
            let set = there(cursor.number(WORD)?, packages.sets.len())?;
            packages.union_sets.push(set);
        }
        if packages.union_sets.len() == first {
            return Err(Unreadable);
        }
        packages.union_ends.push(number_of(packages.union_sets.len()));
        Ok(())
    }

    /// `condition set SET`, `condition and C C` or `condition or C C`
    fn condition(&mut self, cursor: &mut Cursor<'a>) -> Read<()> {
        let kind = match cursor.word()? {
            b"set" => {
                let set = there(cursor.number(WORD)?, self.packages.sets.len())?;
                self.conditions.insert((0, set, 0));
                return Ok(());
            }
            b"and" => 1,
            b"or" => 2,
            _ => return Err(Unreadable),
        };
        let first = there(cursor.number(IDS)?, self.conditions.len())?;
        let second = there(cursor.number(IDS)?, self.conditions.len())?;
        self.conditions.insert((kind, first, second));
        Ok(())
    }
}

/// The number, if it is that of one of so many.
fn there(number: u32, count: usize) -> Read<u32> {
    if (number as usize) < count {
        Ok(number)
    } else {
        Err(Unreadable)
    }
}
