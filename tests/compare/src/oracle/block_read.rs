//! Block read (document 01, "The grants file"): one block judged alone, and the part of the file that its records occupy.

use crate::interface::answer::fault;
use crate::oracle::file::{number_at, BLOCK, FIRST_RECORD, HEAD_END, RECORD, RECORDS};
use crate::oracle::judge::{blocks_of, records_end, refuse, wrong_fill, wrong_frame, Refusal};
use crate::oracle::wrong::Wrong;

/// How many records an accepted block has; 10, 12 or 11 otherwise.
pub fn verdict(file: &[u8], block: u64, wrong: Wrong) -> Result<usize, Refusal> {
    let blocks = blocks_of(file)?;
    if block >= blocks.len() as u64 {
        return Err(Refusal { fault: fault(10), cause: "no such block", place: "the file" });
    }
    let i = block as usize;
    judge_alone(blocks[i], i, i + 1 == blocks.len(), wrong).map_err(|(number, cause)| refuse(number, cause, i, blocks.len()))
}

/// Check, mark, number, fill and record count: 31, or 1 to 31 in the last block. Block 0 has no records.
fn judge_alone(block: &[u8], i: usize, last: bool, wrong: Wrong) -> Result<usize, (u8, &'static str)> {
    if let Some(cause) = wrong_frame(block, i, wrong) {
        return Err(cause);
    }
    let (count, fill) = match i {
        0 => (0, HEAD_END),
        _ => {
            let count = usize::from(number_at(block, 6));
            let lowest = if last || wrong == Wrong::BlockReadTakesAnyCount { 1 } else { RECORDS };
            if !(lowest..=RECORDS).contains(&count) {
                return Err((11, "record count"));
            }
            (count, records_end(count))
        }
    };
    match wrong_fill(block, fill, wrong) {
        true => Err((11, "fill")),
        false => Ok(count),
    }
}

/// Length and start of the part; both 0 on a refusal and for block 0.
pub fn part(file: &[u8], block: u64, wrong: Wrong) -> (usize, usize) {
    match verdict(file, block, wrong) {
        Ok(0) if wrong == Wrong::BlockZeroGivesItsFill => (BLOCK - FIRST_RECORD, FIRST_RECORD),
        Err(_) | Ok(0) => (0, 0),
        Ok(count) => (RECORD * count, BLOCK * block as usize + FIRST_RECORD),
    }
}
