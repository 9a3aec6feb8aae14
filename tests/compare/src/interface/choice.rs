//! Which grants list takes (document 02, card 4).

#[derive(Clone, Copy, Debug, PartialEq, Eq)]
pub enum Choice {
    /// Those that touch the box; those that hold it are among them.
    Touching,
    Holding,
}

pub const CHOICES: [Choice; 2] = [Choice::Touching, Choice::Holding];
