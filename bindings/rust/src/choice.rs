//! Which grants list takes.

/// Which grants of a box list takes.
#[derive(Clone, Copy, Debug, PartialEq, Eq, Hash)]
pub enum Choice {
    /// Those that touch the box: they cover one of its staff numbers, one of its doors and one of its quarters. Those that hold it are
    /// among them.
    Touching,
    /// Those that hold the box: they cover all of its staff numbers, doors and quarters.
    Holding,
}
