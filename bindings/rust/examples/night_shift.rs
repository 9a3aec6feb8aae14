//! A night at a bank of lockers: head office grants, cuts a file for the bank, the bank loads it and decides by it.
//!
//!     cargo run --example night_shift

use locker_grants::{file, Bounds, Choice, Decision, Fault, Grant, HalfOpen, Index, Kind, Match};

/// Quarter-hours from the operator's base day: ten in the evening until six in the morning, when the shift is over.
const NIGHT: HalfOpen = HalfOpen { from: 88, until: 120 };
const ALWAYS: HalfOpen = HalfOpen { from: 0, until: 65535 };

const STAFF: Grant =
    Grant { number: 7, rank: 10, kind: Kind::Opens, bounds: Bounds { staff: (100, 199), doors: (1, 40), quarters: NIGHT } };
const BARRED: Grant =
    Grant { number: 3, rank: 20, kind: Kind::Bars, bounds: Bounds { staff: (150, 150), doors: (12, 12), quarters: ALWAYS } };
/// Corrects the first: at equal rank the higher number decides.
const CORRECTION: Grant =
    Grant { number: 8, rank: 10, kind: Kind::Bars, bounds: Bounds { staff: (190, 199), doors: (1, 40), quarters: NIGHT } };

fn main() -> Result<(), Fault> {
    let mut office = Index::new(2048)?;
    office.grant(&STAFF)?;
    office.grant(&BARRED)?;
    office.grant(&CORRECTION)?;

    // A refusal says why, and leaves the index as it was.
    if let Err(fault) = office.revoke(9) {
        println!("number 9 revoked: refused with {}, {fault}", fault.number());
    }

    // The file has all grants that touch the bank's doors, whole.
    let cut = office.write((1, 20))?;
    println!("a file of {} bytes, its records in {} of them", cut.len(), file::block_part(&cut, 1).len());

    let mut bank = Index::new(64)?;
    bank.load(&cut)?;
    let everyone = Bounds { staff: (0, 65535), doors: (1, 20), quarters: NIGHT };
    println!("the bank's grants: {:?}", bank.list(everyone, Choice::Touching)?);
    // A roster asks for the grants that cover all of a shift: all its staff, doors and quarters.
    let shift = Bounds { staff: (100, 199), ..everyone };
    println!("for all of the shift of staff 100 to 199: {:?}", bank.list(shift, Choice::Holding)?);
    for staff in [120, 150, 195, 200] {
        match bank.decide(staff, 12, 90)? {
            Decision::Opens(grant) => println!("door 12 opens for {staff} by grant {}", grant.number),
            Decision::Barred(grant) => println!("door 12 is barred for {staff} by grant {}", grant.number),
            Decision::None => println!("no grant for {staff} at door 12"),
        }
    }

    // Later, head office holds its grants against the bank's file.
    office.revoke(3)?;
    match office.match_file(&cut)? {
        Match::Equal => println!("the bank is up to date"),
        Match::Differs(number) => println!("the bank differs first at grant {number}"),
    }
    Ok(())
}
