//! The door record against the panel record: the door controller and the panels both write down each opening.

use crate::answer::unpack;
use crate::fault::Fault;
use crate::ffi;

/// An entry of a record.
#[derive(Clone, Copy, Debug, PartialEq, Eq, Hash)]
pub struct Opening {
    pub door: u16,
    pub quarter: u16,
    pub staff: u32,
}

impl Opening {
    /// The entry's 8 bytes, high byte first: door (2), quarter (2), staff (4).
    pub const fn to_bytes(self) -> [u8; 8] {
        ((self.door as u64) << 48 | (self.quarter as u64) << 32 | self.staff as u64).to_be_bytes()
    }

    /// The opening that an entry's 8 bytes say.
    pub const fn from_bytes(entry: [u8; 8]) -> Opening {
        let fields = u64::from_be_bytes(entry);
        Opening { door: (fields >> 48) as u16, quarter: (fields >> 32) as u16, staff: fields as u32 }
    }
}

/// Two records held against each other.
#[derive(Clone, Copy, Debug, PartialEq, Eq, Hash)]
pub struct Comparison {
    /// How many entries agree.
    pub agree: usize,
    /// How many entries of the door record are left, and how many of the panel record.
    pub left_in_door: usize,
    pub left_in_panel: usize,
}

/// Holds the door record against the panel record. An entry found several times in both agrees as often as in the one that has it less
/// often; the others are left. A record has at most 4,096 entries (`Opening::to_bytes`), whose quarters do not fall. Refuses 24, tested
/// on both records, and then 25.
///
/// ```
/// use locker_grants::{compare_openings, Comparison, Opening};
///
/// let entry = |door, quarter, staff| Opening { door, quarter, staff }.to_bytes();
/// let door_record = [entry(12, 88, 120), entry(12, 88, 120), entry(7, 91, 195)].concat();
/// let panel_record = [entry(3, 88, 150), entry(12, 88, 120)].concat();
/// let compared = compare_openings(&door_record, &panel_record)?;
/// assert_eq!(compared, Comparison { agree: 1, left_in_door: 2, left_in_panel: 1 });
/// # Ok::<(), locker_grants::Fault>(())
/// ```
pub fn compare_openings(door_record: &[u8], panel_record: &[u8]) -> Result<Comparison, Fault> {
    // SAFETY: each pointer and the length behind it are one slice's, borrowed for the call.
    let word =
        unsafe { ffi::lg_compare_openings(door_record.as_ptr(), door_record.len(), panel_record.as_ptr(), panel_record.len()) };
    unpack(word).map(|values| Comparison {
        agree: values.a as usize,
        left_in_door: (values.b >> 16) as usize,
        left_in_panel: (values.b & 0xFFFF) as usize,
    })
}
