//! A slice of words that is lent to a call, between guard words. Before the call it holds words that an answer has at that place only by chance.

/// Words before and after the lent ones, which no call may touch.
pub const GUARD: usize = 4;

/// Where a slice lies among the shared words; the guards lie around it.
#[derive(Clone, Copy)]
pub struct Lent {
    pub at: usize,
    pub len: usize,
}

impl Lent {
    /// The slice of `len` words whose guard starts at `from`.
    pub fn after(from: usize, len: usize) -> Lent {
        Lent {
            at: from + GUARD,
            len,
        }
    }

    /// Where the guard behind it ends.
    pub fn end(self) -> usize {
        self.at + self.len + GUARD
    }

    /// Fills it and its guards: `words` at the start, old words elsewhere.
    pub fn prepare(self, shared: &mut [u32], words: &[u32]) {
        let (from, end) = (self.at - GUARD, self.end());
        for (i, word) in shared[from..end].iter_mut().enumerate() {
            *word = old(from + i);
        }
        shared[self.at..self.at + words.len()].copy_from_slice(words);
    }

    /// The first place, counted from its start, with another word than `words` there, or the old word elsewhere; and the two words.
    pub fn difference(self, shared: &[u32], words: &[u32]) -> Option<(isize, u32, u32)> {
        let (from, written, end) = (self.at - GUARD, self.at + words.len(), self.end());
        let wrong = not_old(shared, from, self.at).or_else(|| not_old(shared, written, end));
        if shared[self.at..written] != *words {
            let k = (0..words.len()).find(|&k| shared[self.at + k] != words[k])?;
            return Some((k as isize, shared[self.at + k], words[k]));
        }
        wrong.map(|i| (i as isize - self.at as isize, shared[i], old(i)))
    }
}

/// The first of these places that does not hold its old word. Nearly always there is none, and the one sum over all tells so at once.
fn not_old(shared: &[u32], from: usize, end: usize) -> Option<usize> {
    let words = &shared[from..end];
    let sum = words
        .iter()
        .enumerate()
        .fold(0, |sum, (i, word)| sum | (word ^ old(from + i)));
    if sum == 0 {
        return None;
    }
    (from..end).find(|&i| shared[i] != old(i))
}

/// The old word at a place of the shared words.
fn old(place: usize) -> u32 {
    (place as u32).wrapping_mul(0x9e37_79b1) ^ 0x5bd1_e995
}
