//! The grants file as it is written (document 01, "The grants file"; document 02, card 2).

use crate::interface::grant::{Grant, Span, DOORS};
use crate::oracle::wrong::Wrong;

pub const BLOCK: usize = 512;
pub const MARK: [u8; 4] = [0x4C, 0x47, 0x46, 0x32];
/// The mark of files whose quarters were closed.
pub const OLDER_MARK: [u8; 4] = [0x4C, 0x47, 0x46, 0x31];
/// How many records a block holds.
pub const RECORDS: usize = 31;
pub const RECORD: usize = 16;
/// Where the records of a block begin, where block 0's fill does, and where the check stands.
pub const FIRST_RECORD: usize = 8;
pub const HEAD_END: usize = 12;
pub const CHECK: usize = 510;
pub const MOST_BLOCKS: usize = 68;
pub const MOST_GRANTS: usize = 2048;

/// The byte 1 followed by the bytes, read as one base-256 number, modulo 65521.
pub fn check(bytes: &[u8]) -> u16 {
    bytes.iter().fold(1u32, |number, &byte| (number * 256 + u32::from(byte)) % 65521) as u16
}

/// The check that a block must have.
pub fn check_of_block(block: &[u8], wrong: Wrong) -> u16 {
    match wrong {
        Wrong::CheckOver509Bytes => check(&block[..CHECK - 1]),
        _ => check(&block[..CHECK]),
    }
}

/// The number of two bytes, high byte first.
pub fn number_at(bytes: &[u8], at: usize) -> u16 {
    u16::from_be_bytes([bytes[at], bytes[at + 1]])
}

pub fn put_number(bytes: &mut [u8], at: usize, number: u16) {
    bytes[at..at + 2].copy_from_slice(&number.to_be_bytes());
}

/// Makes a block's check right.
pub fn seal(block: &mut [u8], wrong: Wrong) {
    let check = check_of_block(block, wrong);
    put_number(block, CHECK, check);
}

/// How many blocks the file of n grants has.
pub fn blocks_for(n: usize) -> usize {
    1 + n.div_ceil(RECORDS)
}

/// The file of a door range and a set of grants, ascending by number.
pub fn file_of(doors: Span, grants: &[Grant], wrong: Wrong) -> Vec<u8> {
    let mut head = [0; BLOCK];
    begin_block(&mut head, 0, grants.len());
    put_number(&mut head, 8, doors.0);
    put_number(&mut head, 10, doors.1);
    seal(&mut head, wrong);
    let mut file = head.to_vec();
    for (i, records) in grants.chunks(RECORDS).enumerate() {
        let mut block = [0; BLOCK];
        begin_block(&mut block, i + 1, records.len());
        for (record, grant) in block[FIRST_RECORD..].chunks_exact_mut(RECORD).zip(records) {
            put_record(record, grant, doors, wrong);
        }
        seal(&mut block, wrong);
        file.extend_from_slice(&block);
    }
    file
}

fn begin_block(block: &mut [u8], number: usize, count: usize) {
    block[..4].copy_from_slice(&MARK);
    put_number(block, 4, number as u16);
    put_number(block, 6, count as u16);
}

/// Number, rank, kind, then the six values in cell order; the grant whole, not clipped to the doors.
fn put_record(record: &mut [u8], grant: &Grant, doors: Span, wrong: Wrong) {
    let mut grant = *grant;
    if wrong == Wrong::FileClippedToDoors {
        let own = grant.bounds[DOORS];
        grant.bounds[DOORS] = (own.0.max(doors.0), own.1.min(doors.1));
    }
    put_number(record, 0, grant.number);
    record[2] = grant.rank;
    record[3] = grant.kind;
    for (i, end) in grant.ends().into_iter().enumerate() {
        put_number(record, 4 + 2 * i, end);
    }
}

pub fn grant_of_record(record: &[u8]) -> Grant {
    let ends = [4, 6, 8, 10, 12, 14].map(|at| number_at(record, at));
    Grant { number: number_at(record, 0), rank: record[2], kind: record[3], bounds: Grant::bounds_of(ends) }
}
