//! Grants, boxes and their ends (document 01, "The plain book"; document 02, card 2).

/// From and to. Of staff and of doors both ends belong to it; of quarters, the to is the first that is no longer covered.
pub type Span = (u16, u16);

/// Staff, doors, quarters.
pub type Bounds = [Span; 3];

pub const STAFF: usize = 0;
pub const DOORS: usize = 1;
pub const QUARTERS: usize = 2;
pub const EVERYTHING: Bounds = [(0, 65535); 3];
/// The last quarter there is, which no grant covers, and the last that one can cover.
pub const LAST_QUARTER: u16 = 65535;
pub const LAST_COVERED: u16 = 65534;

/// The six ends of a box, in cell order.
#[derive(Clone, Copy, Debug, PartialEq, Eq)]
pub enum End {
    StaffFrom,
    StaffTo,
    DoorFrom,
    DoorTo,
    QuarterFrom,
    QuarterTo,
}

pub const ENDS: [End; 6] = [End::StaffFrom, End::StaffTo, End::DoorFrom, End::DoorTo, End::QuarterFrom, End::QuarterTo];

impl End {
    /// The end's place in a box: which span, and whether it is that span's from.
    fn place(self) -> (usize, bool) {
        (self as usize / 2, (self as usize).is_multiple_of(2))
    }

    pub fn is_from(self) -> bool {
        self.place().1
    }

    /// The end's value in a box.
    pub fn of(self, bounds: &Bounds) -> u16 {
        match self.place() {
            (axis, true) => bounds[axis].0,
            (axis, false) => bounds[axis].1,
        }
    }

    /// A box with another value at this end.
    pub fn put(self, bounds: &Bounds, value: u16) -> Bounds {
        let mut other = *bounds;
        match self.place() {
            (axis, true) => other[axis].0 = value,
            (axis, false) => other[axis].1 = value,
        }
        other
    }
}

#[derive(Clone, Copy, Debug, PartialEq, Eq)]
pub struct Grant {
    pub number: u16,
    pub rank: u8,
    /// 0 bars, 1 opens; a call's argument may have others.
    pub kind: u8,
    pub bounds: Bounds,
}

impl Grant {
    /// The six values in cell order.
    pub fn ends(&self) -> [u16; 6] {
        let [staff, doors, quarters] = self.bounds;
        [staff.0, staff.1, doors.0, doors.1, quarters.0, quarters.1]
    }

    /// The box of six values in cell order.
    pub fn bounds_of(ends: [u16; 6]) -> Bounds {
        [(ends[0], ends[1]), (ends[2], ends[3]), (ends[4], ends[5])]
    }
}
