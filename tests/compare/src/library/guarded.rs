//! Memory with guards on both sides that must stay.

/// As many as the words of a cell, and more: what is stored in the cell behind a pool's last is seen.
const GUARDS: usize = 16;

/// Memory with guards before and behind it.
pub struct Guarded<T> {
    all: Vec<T>,
    guard: T,
}

impl<T: Copy + PartialEq> Guarded<T> {
    pub fn new(contents: &[T], guard: T) -> Guarded<T> {
        let mut all = vec![guard; GUARDS];
        all.extend_from_slice(contents);
        all.extend([guard; GUARDS]);
        Guarded { all, guard }
    }

    pub fn contents(&self) -> &[T] {
        &self.all[GUARDS..self.all.len() - GUARDS]
    }

    pub fn contents_mut(&mut self) -> &mut [T] {
        let end = self.all.len() - GUARDS;
        &mut self.all[GUARDS..end]
    }

    pub fn guards_stand(&self) -> bool {
        let end = self.all.len() - GUARDS;
        self.all[..GUARDS].iter().chain(&self.all[end..]).all(|element| *element == self.guard)
    }
}
