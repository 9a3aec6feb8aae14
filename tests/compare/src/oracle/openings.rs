//! The door record against the panel record (document 02, card 13): how often each entry stands in one and in the other is counted.

use crate::interface::answer::{fault, Answer, Fault};
use crate::oracle::wrong::Wrong;
use std::collections::HashMap;

/// An entry's bytes: door (2), quarter (2), staff (4), high byte first.
pub const ENTRY: usize = 8;
pub const MOST_ENTRIES: usize = 4096;

pub type Entry = [u8; ENTRY];

/// How often each entry stands in a record.
type Multiplicities = HashMap<Entry, usize>;

/// A fault, and its cause in words.
pub type Refusal = (Fault, String);

/// What a record is called in a cause.
const RECORDS: [&str; 2] = ["the door record", "the panel record"];

/// 24 on both records before 25 on either, then the three numbers.
pub fn compared(door: &[u8], panel: &[u8], wrong: Wrong) -> Result<Answer, Refusal> {
    if wrong == Wrong::OrderBeforeTheOtherLength {
        refuse_length([door, panel], 0, wrong)?;
        refuse_order([door, panel], 0, wrong)?;
    }
    for i in [0, 1] {
        refuse_length([door, panel], i, wrong)?;
    }
    for i in [0, 1] {
        refuse_order([door, panel], i, wrong)?;
    }
    Ok(numbers(&multiplicities(door, wrong), &multiplicities(panel, wrong), wrong))
}

/// The smaller of an entry's two multiplicities agrees, what is above it is left.
fn numbers(door: &Multiplicities, panel: &Multiplicities, wrong: Wrong) -> Answer {
    let agree = door.iter().map(|(entry, m)| times(entry, panel).min(*m)).sum();
    let (left_in_door, left_in_panel) = (left(door, panel), left(panel, door));
    match wrong {
        Wrong::LeftNumbersExchanged => Answer::Compared { agree, left_in_door: left_in_panel, left_in_panel: left_in_door },
        _ => Answer::Compared { agree, left_in_door, left_in_panel },
    }
}

fn left(of: &Multiplicities, other: &Multiplicities) -> usize {
    of.iter().map(|(entry, m)| m.saturating_sub(times(entry, other))).sum()
}

fn times(entry: &Entry, record: &Multiplicities) -> usize {
    record.get(entry).copied().unwrap_or(0)
}

fn multiplicities(record: &[u8], wrong: Wrong) -> Multiplicities {
    let mut times = HashMap::new();
    let all = entries(record);
    let counted = match wrong {
        Wrong::LastOpeningLeftOut => &all[..all.len().saturating_sub(1)],
        _ => &all[..],
    };
    for entry in counted {
        let mut entry = *entry;
        match wrong {
            Wrong::StaffHighWordIgnored => entry[4..6].fill(0),
            Wrong::DoorHighByteIgnored => entry[0] = 0,
            _ => {}
        }
        *times.entry(entry).or_insert(0) += 1;
    }
    if wrong == Wrong::EntriesCountedOnce {
        times.values_mut().for_each(|m| *m = 1);
    }
    times
}

/// The whole entries of a record.
fn entries(record: &[u8]) -> Vec<Entry> {
    record.chunks_exact(ENTRY).map(|entry| std::array::from_fn(|i| entry[i])).collect()
}

/// 24, where it is the i-th record's.
fn refuse_length(records: [&[u8]; 2], i: usize, wrong: Wrong) -> Result<(), Refusal> {
    let length = match wrong {
        Wrong::RecordLengthsCutTo16Bits => records[i].len() & 0xFFFF,
        _ => records[i].len(),
    };
    let most = match wrong {
        Wrong::OneOpeningTooMany => MOST_ENTRIES + 1,
        Wrong::FullRecordRefused => MOST_ENTRIES - 1,
        _ => MOST_ENTRIES,
    };
    let cause = match length {
        0 if wrong == Wrong::EmptyRecordRefused => "no entries",
        _ if length % ENTRY != 0 && wrong != Wrong::RestOfAnEntryIgnored => "not whole entries",
        _ if length / ENTRY > most => "too many entries",
        _ => return Ok(()),
    };
    Err((fault(24), format!(" {cause}, {}{}", RECORDS[i], before_order(records[i], records[1 - i]))))
}

/// Of a record that 24 refuses: whether 25 would too, for this record or for the other.
fn before_order(own: &[u8], other: &[u8]) -> &'static str {
    match (first_fall(own, Wrong::Nothing), first_fall(other, Wrong::Nothing)) {
        (_, Some(_)) => ", before 25 in the other",
        (Some(_), None) => ", before its own 25",
        (None, None) => "",
    }
}

/// 25, where it is the i-th record's.
fn refuse_order(records: [&[u8]; 2], i: usize, wrong: Wrong) -> Result<(), Refusal> {
    let Some(at) = first_fall(records[i], wrong).filter(|_| i == 0 || wrong != Wrong::OnlyTheDoorRecordInOrder) else {
        return Ok(());
    };
    let place = match at {
        1 => "the second entry",
        _ if at == records[i].len() / ENTRY - 1 => "the last entry",
        _ => "a middle entry",
    };
    Err((fault(25), format!(" {place}, {}", RECORDS[i])))
}

/// The first entry whose quarter is below that of the entry before it.
fn first_fall(record: &[u8], wrong: Wrong) -> Option<usize> {
    let quarter = |entry: &Entry| match wrong {
        Wrong::QuartersLowByteFirst => u16::from_le_bytes([entry[2], entry[3]]),
        _ => u16::from_be_bytes([entry[2], entry[3]]),
    };
    let quarters: Vec<u16> = entries(record).iter().map(quarter).collect();
    let end = match wrong {
        Wrong::LastQuarterNotTested => quarters.len().saturating_sub(1),
        _ => quarters.len(),
    };
    (1..end).find(|&i| match wrong {
        Wrong::EqualQuartersRefused => quarters[i] <= quarters[i - 1],
        Wrong::QuartersHeldAgainstTheFirst => quarters[i] < quarters[0],
        _ => quarters[i] < quarters[i - 1],
    })
}
