//! The scores of packages, by their names.

#[derive(Default)]
pub struct Scores {
    scores: Vec<u64>,
    /// Which were ever added to.
    bumped: Vec<bool>,
    /// The largest of all.
    largest: u64,
}

impl Scores {
    pub fn of_name(&self, name: u32) -> u64 {
        self.scores.get(name as usize).copied().unwrap_or(0)
    }

    pub fn largest(&self) -> u64 {
        self.largest
    }

    pub fn is_bumped(&self, name: u32) -> bool {
        self.bumped.get(name as usize).copied().unwrap_or(false)
    }

    /// Adds to a score, which stays at the greatest number at most. Whether it is the first time.
    pub fn bump(&mut self, name: u32, amount: u64) -> bool {
        if self.scores.len() <= name as usize {
            self.scores.resize(name as usize + 1, 0);
            self.bumped.resize(name as usize + 1, false);
        }
        let score = &mut self.scores[name as usize];
        *score = score.saturating_add(amount);
        self.largest = self.largest.max(*score);
        !std::mem::replace(&mut self.bumped[name as usize], true)
    }

    /// Multiplies each score by a fraction that is 1 at most, and rounds down. The order of scores stays.
    pub fn decay(&mut self, numerator: u64, denominator: u64) {
        for score in &mut self.scores {
            *score = decayed(*score, numerator, denominator);
        }
        self.largest = decayed(self.largest, numerator, denominator);
    }
}

fn decayed(score: u64, numerator: u64, denominator: u64) -> u64 {
    match score.checked_mul(numerator) {
        Some(product) => product / denominator,
        None => (score as u128 * numerator as u128 / denominator as u128) as u64,
    }
}
