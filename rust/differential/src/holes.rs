//! Takes that could choose between holes, the free runs of the store that can't be made longer.

use model::{Request, State, SHEETS};

/// How many accepted takes ..
#[derive(Default)]
pub struct Holes {
    /// .. had several holes that were long enough,
    choices: usize,
    /// .. where the smallest lay above a larger one,
    above: usize,
    /// .. or was one of several equal ones,
    equal: usize,
    /// .. or had no sheet too many,
    filled: usize,
    /// .. or ended with the store.
    at_end: usize,
}

impl Holes {
    /// Takes note of an accepted take, by the tables before it.
    pub fn note(&mut self, take: &Request, before: &State) {
        let count = usize::from(take.count);
        let enough: Vec<Hole> = holes(before).into_iter().filter(|hole| hole.size >= count).collect();
        let Some(size) = enough.iter().map(|hole| hole.size).min().filter(|_| enough.len() > 1) else {
            return;
        };
        let smallest: Vec<&Hole> = enough.iter().filter(|hole| hole.size == size).collect();
        let count_if = |counter: &mut usize, reached: bool| *counter += usize::from(reached);
        count_if(&mut self.choices, true);
        count_if(&mut self.above, enough[0].size > size);
        count_if(&mut self.equal, smallest.len() > 1);
        count_if(&mut self.filled, size == count);
        count_if(&mut self.at_end, smallest[0].first + size == SHEETS);
    }

    /// What was counted, in words.
    pub fn rows(&self) -> [(&'static str, usize); 5] {
        [
            ("takes with a choice", self.choices),
            ("  above a larger hole", self.above),
            ("  among equal holes", self.equal),
            ("  that fill the hole", self.filled),
            ("  at the store's end", self.at_end),
        ]
    }
}

struct Hole {
    first: usize,
    size: usize,
}

/// The holes of tables in order, the lowest first.
fn holes(state: &State) -> Vec<Hole> {
    let mut used = [false; SHEETS];
    for (_, entry) in state.entries() {
        let first = usize::from(entry.sheets.first);
        used[first..][..usize::from(entry.sheets.count)].fill(true);
    }
    let (mut holes, mut first) = (Vec::new(), 0);
    for run in used.chunk_by(|one, next| one == next) {
        let size = run.len();
        if !run[0] {
            holes.push(Hole { first, size });
        }
        first += size;
    }
    holes
}
