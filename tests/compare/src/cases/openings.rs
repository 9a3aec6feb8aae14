//! Pairs of records of openings: entries that repeat, entries that differ in one byte, full records, and faults in either record.

use crate::cases::case::Case;
use crate::cases::random::Random;
use crate::interface::call::Call;
use crate::oracle::openings::{Entry, ENTRY, MOST_ENTRIES};
use std::rc::Rc;

/// Where the entries of a pair of records come from.
#[derive(Clone, Copy)]
enum Style {
    Uniform,
    /// Few doors, quarters and staff.
    Few,
    /// The same in one quarter.
    OneQuarter(u16),
    /// One entry, or one byte of it another.
    Near(Entry),
}

impl Style {
    fn any(random: &mut Random) -> Style {
        match random.below(4) {
            0 => Style::Uniform,
            1 => Style::Few,
            2 => Style::OneQuarter(random.pick(&[0, 255, 256, 65535])),
            _ => Style::Near(random.next().to_be_bytes()),
        }
    }

    fn entry(&self, random: &mut Random) -> Entry {
        match *self {
            Style::Uniform => random.next().to_be_bytes(),
            Style::Few => [0, random.below(3) as u8, 0, random.below(3) as u8, 0, 0, 0, random.below(3) as u8],
            Style::OneQuarter(quarter) => with_quarter(Style::Few.entry(random), quarter),
            Style::Near(mut entry) => {
                if !random.one_in(4) {
                    entry[random.below(ENTRY)] ^= random.byte();
                }
                entry
            }
        }
    }

    fn record(&self, random: &mut Random, length: usize) -> Vec<Entry> {
        let entries = (0..length).map(|_| self.entry(random)).collect();
        in_order(random, entries)
    }
}

fn quarter_of(entry: &Entry) -> u16 {
    u16::from_be_bytes([entry[2], entry[3]])
}

fn with_quarter(mut entry: Entry, quarter: u16) -> Entry {
    entry[2..4].copy_from_slice(&quarter.to_be_bytes());
    entry
}

/// The entries in an order that a record may have: quarters don't fall, those of one quarter come anyhow.
fn in_order(random: &mut Random, mut entries: Vec<Entry>) -> Vec<Entry> {
    for i in (1..entries.len()).rev() {
        entries.swap(i, random.below(i + 1));
    }
    entries.sort_by_key(quarter_of);
    entries
}

/// Two records in which each of some entries stands up to so many times.
fn repeating(random: &mut Random, style: Style, distinct: usize, most: usize) -> [Vec<Entry>; 2] {
    let mut records = [Vec::new(), Vec::new()];
    for _ in 0..distinct {
        let entry = style.entry(random);
        for record in &mut records {
            record.extend(vec![entry; random.below(most + 1)]);
        }
    }
    records.map(|entries| in_order(random, entries))
}

/// The record with some entries made others.
fn altered(random: &mut Random, style: Style, record: &[Entry]) -> Vec<Entry> {
    let kept = record.iter().map(|entry| if random.one_in(16) { style.entry(random) } else { *entry }).collect();
    in_order(random, kept)
}

/// Makes the i-th quarter, and no other, lower than the one before it.
fn fall_at(record: &mut [Entry], i: usize, by: u16) {
    let lower = quarter_of(&record[i]).min(65535 - by);
    record[i - 1] = with_quarter(record[i - 1], lower + by);
    record[i] = with_quarter(record[i], lower);
}

fn compare(door: &[u8], panel: &[u8]) -> Call {
    Call::CompareOpenings(door.into(), panel.into())
}

/// One memory as both records.
fn compare_with_itself(record: &[u8]) -> Call {
    let record: Rc<[u8]> = record.into();
    Call::CompareOpenings(record.clone(), record)
}

fn case(calls: Vec<Call>) -> Case {
    Case { pool: Vec::new(), calls }
}

/// Small records, mostly with entries in common; among them empty ones, and one memory lent twice.
pub fn small_records(random: &mut Random) -> Case {
    let calls = (0..60).map(|_| {
        let style = Style::any(random);
        let distinct = random.below(12);
        let most = random.pick(&[1, 2, 5, 40]);
        let [door, panel] = repeating(random, style, distinct, most).map(|record| record.concat());
        match random.below(10) {
            0 => compare(&door, &[]),
            1 => compare(&[], &panel),
            2 => compare(&door, &door),
            3 => compare_with_itself(&door),
            _ => compare(&door, &panel),
        }
    });
    case(calls.collect())
}

/// Records of any length.
pub fn long_records(random: &mut Random) -> Case {
    let calls = (0..4).map(|_| {
        let style = Style::any(random);
        let [door, other] = [0, 1].map(|_| random.below(MOST_ENTRIES + 1)).map(|length| style.record(random, length));
        match random.below(3) {
            0 => compare(&door.concat(), &altered(random, style, &door).concat()),
            _ => compare(&door.concat(), &other.concat()),
        }
    });
    case(calls.collect())
}

/// A quarter that falls at the second, a middle and the last entry of either record, by one or in its high byte alone.
pub fn falling_quarters(random: &mut Random) -> Case {
    let style = Style::any(random);
    let length = 4 + random.below(30);
    let mut calls = Vec::new();
    for i in [1, length / 2, length - 1] {
        for by in [1, 256] {
            let right = style.record(random, length);
            let mut falling = style.record(random, length);
            fall_at(&mut falling, i, by);
            calls.extend([compare(&falling.concat(), &right.concat()), compare(&right.concat(), &falling.concat())]);
            calls.push(compare_with_itself(&falling.concat()));
        }
    }
    case(calls)
}

/// Each record right, falling, not of whole entries, or both at once, beside each other one.
pub fn two_faults(random: &mut Random) -> Case {
    let style = Style::any(random);
    let mut calls = Vec::new();
    for faults in 0..16 {
        let [door, panel] = [faults & 3, faults >> 2].map(|faults| spoilt(random, style, faults));
        calls.push(compare(&door, &panel));
    }
    for rest in 1..ENTRY {
        calls.extend([compare(&vec![0; rest], &[]), compare(&[], &vec![0; rest])]);
    }
    case(calls)
}

/// A record with faults: 1 a quarter that falls, 2 a rest that is no entry.
fn spoilt(random: &mut Random, style: Style, faults: usize) -> Vec<u8> {
    let length = 2 + random.below(20);
    let mut record = style.record(random, length);
    if faults & 1 != 0 {
        fall_at(&mut record, 1 + random.below(length - 1), 1);
    }
    let mut bytes = record.concat();
    if faults & 2 != 0 {
        bytes.extend(vec![random.byte(); 1 + random.below(ENTRY - 1)]);
    }
    bytes
}

/// Records with the most entries that there can be: held against the same ones in another order, against others and against none.
pub fn full_records(random: &mut Random) -> Case {
    let style = Style::any(random);
    let record = style.record(random, MOST_ENTRIES);
    let other = altered(random, style, &record);
    let again = in_order(random, record.clone());
    let mut one_quarter = style.record(random, MOST_ENTRIES).iter().map(|entry| with_quarter(*entry, 7)).collect::<Vec<_>>();
    one_quarter.sort();
    let rising = one_quarter.concat();
    one_quarter.reverse();
    let [record, other, again, falling] = [record, other, again, one_quarter].map(|record| record.concat());
    let equal = style.entry(random).repeat(MOST_ENTRIES);
    case(vec![
        compare(&record, &other),
        compare(&record, &again),
        compare(&rising, &falling),
        compare(&equal, &equal),
        compare(&equal, &equal[..ENTRY * random.below(MOST_ENTRIES)]),
        compare(&record, &[]),
        compare(&[], &record),
        compare_with_itself(&record),
    ])
}

/// The record with so many bytes more, of its last entry again and again.
fn lengthened(record: &[u8], more: usize) -> Vec<u8> {
    let last = &record[record.len() - ENTRY..];
    [record, &last.repeat(more.div_ceil(ENTRY))[..more]].concat()
}

/// Lengths above the most, alone and beside a quarter that falls; some are fine when they are cut to 16 bits.
pub fn too_many_entries(random: &mut Random) -> Case {
    let style = Style::any(random);
    let full = style.record(random, MOST_ENTRIES);
    let mut falling = full.clone();
    fall_at(&mut falling, 1 + random.below(MOST_ENTRIES - 1), 1);
    let [full, falling] = [full, falling].map(|record| record.concat());
    let mut calls = vec![compare(&full, &falling), compare(&falling, &full)];
    for more in [1, ENTRY, ENTRY * MOST_ENTRIES, ENTRY * MOST_ENTRIES + ENTRY] {
        let short = &full[..ENTRY * random.below(3)];
        let [long, long_falling] = [&full, &falling].map(|record| lengthened(record, more));
        for (one, other) in [(&long[..], short), (&long, &falling), (&long_falling, short)] {
            calls.extend([compare(one, other), compare(other, one)]);
        }
    }
    case(calls)
}
