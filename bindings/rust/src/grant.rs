//! What a grant is.

/// Whether a grant bars or opens.
#[derive(Clone, Copy, Debug, PartialEq, Eq, Hash)]
pub enum Kind {
    Bars,
    Opens,
}

impl Kind {
    /// Document 01's number of the kind: 0 bars, 1 opens.
    pub fn number(self) -> u8 {
        match self {
            Kind::Bars => 0,
            Kind::Opens => 1,
        }
    }
}

/// From and to; both ends belong to it.
pub type Span = (u16, u16);

/// A half-open range of quarter-hours: `until` is the first that isn't covered. So 65534 is the last that can be.
#[derive(Clone, Copy, Debug, PartialEq, Eq, Hash)]
pub struct HalfOpen {
    pub from: u16,
    pub until: u16,
}

/// A box: spans of staff numbers and doors, and a half-open range of quarter-hours.
#[derive(Clone, Copy, Debug, PartialEq, Eq, Hash)]
pub struct Bounds {
    pub staff: Span,
    pub doors: Span,
    pub quarters: HalfOpen,
}

/// A grant, whole.
#[derive(Clone, Copy, Debug, PartialEq, Eq, Hash)]
pub struct Grant {
    /// 1 to 65535.
    pub number: u16,
    pub rank: u8,
    pub kind: Kind,
    pub bounds: Bounds,
}
