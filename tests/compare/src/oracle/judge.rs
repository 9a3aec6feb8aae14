//! Which files are accepted, and what they hold (document 01, "The grants file" and "Faults"; document 02, cards 2 and 3): 10; then for
//! each block rising 12, 11 and 13. A refusal names its cause and place too, so that the run can tell which were reached.

use crate::interface::answer::{fault, Fault};
use crate::interface::grant::{Grant, Span, DOORS};
use crate::oracle::arguments::rank_too_low;
use crate::oracle::file::{
    blocks_for, check_of_block, grant_of_record, number_at, BLOCK, CHECK, FIRST_RECORD, HEAD_END, MARK, MOST_BLOCKS, MOST_GRANTS,
    OLDER_MARK, RECORD, RECORDS,
};
use crate::oracle::overlap::spans_overlap;
use crate::oracle::wrong::Wrong;

pub struct Contents {
    pub doors: Span,
    pub grants: Vec<Grant>,
}

#[derive(Clone, Copy, Debug)]
pub struct Refusal {
    pub fault: Fault,
    pub cause: &'static str,
    pub place: &'static str,
}

/// The blocks of a file; 10 where it is not 1 to 68 whole ones.
pub fn blocks_of(file: &[u8]) -> Result<Vec<&[u8]>, Refusal> {
    let blocks: Vec<&[u8]> = file.chunks(BLOCK).collect();
    match file.len().is_multiple_of(BLOCK) && (1..=MOST_BLOCKS).contains(&blocks.len()) {
        true => Ok(blocks),
        false => Err(Refusal { fault: fault(10), cause: "length", place: "the file" }),
    }
}

/// Block `i` of `count`, refused under a fault's number.
pub fn refuse(number: u8, cause: &'static str, i: usize, count: usize) -> Refusal {
    let place = match i {
        0 => "block 0",
        _ if i + 1 == count => "the last block",
        1 => "the first block of records",
        _ => "a middle block",
    };
    Refusal { fault: Fault { number, value: i as u32 }, cause, place }
}

fn wrong_check(block: &[u8], wrong: Wrong) -> bool {
    let stored = number_at(block, CHECK);
    let taken = if wrong == Wrong::CheckTakenModulo { stored % 65521 } else { stored };
    taken != check_of_block(block, wrong)
}

/// The cause of 12 or 11 in check, mark or number, which every block has.
pub fn wrong_frame(block: &[u8], i: usize, wrong: Wrong) -> Option<(u8, &'static str)> {
    if wrong_check(block, wrong) {
        return Some((12, "check"));
    }
    if let Some(cause) = wrong_mark(&block[..4], wrong) {
        return Some((11, cause));
    }
    (usize::from(number_at(block, 4)) != i).then_some((11, "block number"))
}

/// The cause of 11 in a mark.
fn wrong_mark(mark: &[u8], wrong: Wrong) -> Option<&'static str> {
    match mark == OLDER_MARK {
        true => (wrong != Wrong::OlderMarkTaken).then_some("older mark"),
        false => (mark != MARK).then_some("mark"),
    }
}

/// Whether a byte between the named ones and the check is not zero.
pub fn wrong_fill(block: &[u8], from: usize, wrong: Wrong) -> bool {
    wrong != Wrong::FillNotTested && block[from..CHECK].iter().any(|&byte| byte != 0)
}

/// Where the records of a block end.
pub fn records_end(count: usize) -> usize {
    FIRST_RECORD + RECORD * count
}

pub fn judge(file: &[u8], wrong: Wrong) -> Result<Contents, Refusal> {
    let blocks = blocks_of(file)?;
    if wrong == Wrong::ChecksOfAllBlocksFirst {
        if let Some(i) = blocks.iter().position(|block| wrong_check(block, wrong)) {
            return Err(refuse(12, "check", i, blocks.len()));
        }
    }
    let (n, doors) =
        judge_head(blocks[0], blocks.len(), wrong).map_err(|(number, cause)| refuse(number, cause, 0, blocks.len()))?;
    let mut grants = Vec::new();
    for (i, block) in blocks.iter().enumerate().skip(1) {
        let left = n.saturating_sub(RECORDS * (i - 1)).min(RECORDS);
        judge_block(block, i, left, doors, &mut grants, wrong)
            .map_err(|(number, cause)| refuse(number, cause, i, blocks.len()))?;
    }
    Ok(Contents { doors, grants })
}

/// Block 0: how many grants, and the doors.
fn judge_head(block: &[u8], count: usize, wrong: Wrong) -> Result<(usize, Span), (u8, &'static str)> {
    if let Some(cause) = wrong_frame(block, 0, wrong) {
        return Err(cause);
    }
    let n = usize::from(number_at(block, 6));
    let doors = (number_at(block, 8), number_at(block, 10));
    if n > MOST_GRANTS {
        return Err((11, "n above 2048"));
    }
    if blocks_for(n) != count {
        return Err((11, "block count"));
    }
    if doors.0 > doors.1 && wrong != Wrong::DoorOrderNotTested {
        return Err((11, "door order"));
    }
    match wrong_fill(block, HEAD_END, wrong) {
        true => Err((11, "fill")),
        false => Ok((n, doors)),
    }
}

/// Another block, with as many records as n leaves for it; its grants go behind those of the blocks before.
fn judge_block(
    block: &[u8],
    i: usize,
    expected: usize,
    doors: Span,
    grants: &mut Vec<Grant>,
    wrong: Wrong,
) -> Result<(), (u8, &'static str)> {
    if let Some(cause) = wrong_frame(block, i, wrong) {
        return Err(cause);
    }
    let count = usize::from(number_at(block, 6));
    let right = match wrong {
        Wrong::RecordCountOnlyTo31 => (1..=RECORDS).contains(&count),
        _ => count == expected,
    };
    if !right {
        return Err((11, "record count"));
    }
    if wrong_fill(block, records_end(count), wrong) {
        return Err((11, "fill"));
    }
    let before = grants.len();
    for record in block[FIRST_RECORD..records_end(count)].chunks_exact(RECORD) {
        let at_edge = grants.len() == before;
        let last = match grants.last() {
            Some(_) if at_edge && wrong == Wrong::OrderForgottenAtBlockEdge => None,
            last => last.map(|grant| grant.number),
        };
        let grant = grant_of_record(record);
        if let Some(cause) = wrong_record(&grant, last, at_edge, doors, wrong) {
            return Err((13, cause));
        }
        grants.push(grant);
    }
    Ok(())
}

/// The cause of 13 in a record that comes behind the number `last`.
fn wrong_record(grant: &Grant, last: Option<u16>, at_edge: bool, doors: Span, wrong: Wrong) -> Option<&'static str> {
    let [staff, own_doors, quarters] = grant.bounds;
    if grant.number == 0 {
        return Some("number 0");
    }
    if last.is_some_and(|last| grant.number <= last) {
        return Some(if at_edge { "number not above the last block's" } else { "number not above the last" });
    }
    if grant.kind > 1 {
        return Some("kind");
    }
    if staff.0 > staff.1 {
        return Some("staff from above to");
    }
    if own_doors.0 > own_doors.1 || wrong == Wrong::RecordsOfOneDoorRefused && own_doors.0 == own_doors.1 {
        return Some("door from above to");
    }
    if quarters.0 > quarters.1 {
        return Some("quarter from above to");
    }
    if quarters.0 == quarters.1 && wrong != Wrong::RecordsWithEqualQuartersTaken {
        return Some("equal quarters");
    }
    let counted = match wrong {
        Wrong::OnlyTheFilesDoorsCount => (own_doors.0.max(doors.0), own_doors.1.min(doors.1)),
        _ => own_doors,
    };
    if wrong != Wrong::WideRecordsTaken && rank_too_low(grant.rank, counted, wrong) {
        return Some("rank too low for its doors");
    }
    (!spans_overlap(grant.bounds[DOORS], doors, wrong)).then_some("doors not touching")
}
