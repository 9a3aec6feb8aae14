//! The calls over a pool of words that the caller holds: on a mapped file, in shared memory, in a static array. A pool is
//! 3 + 11 × C words for a capacity C of 1 to 2048 (`words`); include/lg.h says what they are. Every call is safe on any words: a pool
//! that no call made is refused or answered, never followed outside the slice.

use crate::answer::{unpack, Count, Decision, Match};
use crate::choice::Choice;
use crate::fault::Fault;
use crate::ffi;
use crate::grant::{Bounds, Grant, HalfOpen, Kind, Span};

/// How many words a pool of this capacity has.
pub const fn words(capacity: u16) -> usize {
    3 + 11 * capacity as usize
}

/// Makes an empty index, whatever the words were. Refuses 1.
pub fn start(pool: &mut [u16]) -> Result<(), Fault> {
    // SAFETY: pointer and length are one slice's, borrowed for the call. So in every call below.
    unpack(unsafe { ffi::lg_start(pool.as_mut_ptr(), pool.len()) }).map(|_| ())
}

/// Adds a grant; the kind is a number, 0 bars and 1 opens. Refuses 1, 3, 4, 2, 16, 9, 5 and 6, in this order.
pub fn grant(pool: &mut [u16], number: u16, rank: u8, kind: u8, bounds: Bounds) -> Result<(), Fault> {
    let Bounds { staff, doors, quarters } = bounds;
    unpack(unsafe {
        ffi::lg_grant(
            pool.as_mut_ptr(),
            pool.len(),
            number,
            rank,
            kind,
            staff.0,
            staff.1,
            doors.0,
            doors.1,
            quarters.from,
            quarters.until,
        )
    })
    .map(|_| ())
}

/// Drops the grant of a number. Refuses 1, 3, 9 and 7, in this order.
pub fn revoke(pool: &mut [u16], number: u16) -> Result<(), Fault> {
    unpack(unsafe { ffi::lg_revoke(pool.as_mut_ptr(), pool.len(), number) }).map(|_| ())
}

/// Writes the numbers of the live grants that touch a box, or of those that hold it, ascending, from the list's start, and returns how
/// many; elements past them stay. Refuses 1, 2, 9 and 8, in this order; the choice makes no difference to 1, 2 and 9.
pub fn list(pool: &[u16], bounds: Bounds, choice: Choice, list: &mut [u16]) -> Result<usize, Fault> {
    let Bounds { staff, doors, quarters } = bounds;
    let function = match choice {
        Choice::Touching => ffi::lg_list,
        Choice::Holding => ffi::lg_list_holding,
    };
    unpack(unsafe {
        function(
            pool.as_ptr(),
            pool.len(),
            staff.0,
            staff.1,
            doors.0,
            doors.1,
            quarters.from,
            quarters.until,
            list.as_mut_ptr(),
            list.len(),
        )
    })
    .map(|values| values.a as usize)
}

/// What decides at a point: the live grant of the highest rank that holds it, at equal rank the one of the highest number. None
/// decides at quarter 65535, which no grant covers. Refuses 1 and, but for that quarter, 9, in this order.
pub fn decide(pool: &[u16], staff: u16, door: u16, quarter: u16) -> Result<Decision, Fault> {
    decide_into(pool, staff, door, quarter, &mut [0; 10])
}

/// The same, for a caller who lends the ten words too: number, rank, kind, the six ends of the box, 0. They stay unless a grant
/// decides.
pub fn decide_into(pool: &[u16], staff: u16, door: u16, quarter: u16, out: &mut [u16; 10]) -> Result<Decision, Fault> {
    let word = unsafe { ffi::lg_decide(pool.as_ptr(), pool.len(), staff, door, quarter, out.as_mut_ptr()) };
    Ok(match unpack(word)?.a {
        1 => Decision::Opens(decided(Kind::Opens, out)),
        2 => Decision::Barred(decided(Kind::Bars, out)),
        _ => Decision::None,
    })
}

/// The grant in the ten words that decide wrote; its kind is the answer's.
fn decided(kind: Kind, out: &[u16; 10]) -> Grant {
    let [number, rank, _, staff_from, staff_to, door_from, door_to, from, until, _] = *out;
    Grant {
        number,
        rank: rank as u8,
        kind,
        bounds: Bounds { staff: (staff_from, staff_to), doors: (door_from, door_to), quarters: HalfOpen { from, until } },
    }
}

/// How many grants are live and how many cells are not. Refuses 1 and 9, in this order.
pub fn count(pool: &[u16]) -> Result<Count, Fault> {
    unpack(unsafe { ffi::lg_count(pool.as_ptr(), pool.len()) })
        .map(|values| Count { live: values.a as usize, free: values.b as usize })
}

/// Writes the grants file of a span of doors and returns its length; bytes beyond it stay. Refuses 1, 2, 9 and 14, in this order.
pub fn write(pool: &[u16], doors: Span, bytes: &mut [u8]) -> Result<usize, Fault> {
    unpack(unsafe { ffi::lg_write(pool.as_ptr(), pool.len(), doors.0, doors.1, bytes.as_mut_ptr(), bytes.len()) })
        .map(|values| values.b as usize)
}

/// Makes the pool what start and then the file's grants make it, whatever the words were. Refuses 1, the file's faults (10; then
/// for each block 12, 11, 13) and 6, in this order.
pub fn load(pool: &mut [u16], file: &[u8]) -> Result<(), Fault> {
    unpack(unsafe { ffi::lg_load(pool.as_mut_ptr(), pool.len(), file.as_ptr(), file.len()) }).map(|_| ())
}

/// Holds the pool's grants that touch the file's doors against the file. Refuses 1, the file's faults and 9, in this order.
pub fn match_file(pool: &[u16], file: &[u8]) -> Result<Match, Fault> {
    unpack(unsafe { ffi::lg_match(pool.as_ptr(), pool.len(), file.as_ptr(), file.len()) }).map(|values| match values.a {
        0 => Match::Equal,
        number => Match::Differs(number as u16),
    })
}
