//! The cases of a run, in rounds: each round tries everything small, the first also what takes long.

use crate::cases::case::Case;
use crate::cases::file_cases::{
    block_reads, byte_by_byte, checks_too_large, field_by_field, grants_in, lengths, older_marks, onto_pools, sample, two_at_once,
};
use crate::cases::histories::history;
use crate::cases::openings::{falling_quarters, full_records, long_records, small_records, too_many_entries, two_faults};
use crate::cases::random::Random;
use crate::cases::scramble::{other_parents, scrambled};
use crate::cases::styles::Style;

pub enum Family {
    History,
    File,
    Openings,
    Scrambled,
}

/// What is done with each case; an error ends the run.
pub type Visit<'a, E> = &'a mut dyn FnMut(Family, &Case) -> Result<(), E>;

/// Numbers of grants at which blocks are just full or just begun; from 63 on there is a middle block of records.
const FILE_SIZES: [usize; 9] = [63, 0, 1, 30, 31, 32, 62, 93, 100];

/// How many scrambled pools a round has, and how many more with other parents.
const SCRAMBLED: usize = 180;
const OTHER_PARENTS: usize = 40;

pub fn round<E>(random: &mut Random, i: usize, visit: Visit<E>) -> Result<(), E> {
    histories(random, i, visit)?;
    files(random, i, visit)?;
    openings(random, visit)?;
    for _ in 0..SCRAMBLED {
        visit(Family::Scrambled, &scrambled(random, 130))?;
    }
    for _ in 0..OTHER_PARENTS {
        visit(Family::Scrambled, &other_parents(random))?;
    }
    Ok(())
}

fn histories<E>(random: &mut Random, i: usize, visit: Visit<E>) -> Result<(), E> {
    for _ in 0..12 {
        let capacity = 1 + random.below(8);
        let style = Style::any(random, capacity);
        visit(Family::History, &history(random, capacity, 60, style))?;
    }
    for capacity in [[31, 62, 15][i % 3], 16 + random.below(200)] {
        let style = Style::any(random, capacity);
        visit(Family::History, &history(random, capacity, 250, style))?;
    }
    let style = Style::deep(random);
    visit(Family::History, &history(random, 120, 250, style))
}

fn files<E>(random: &mut Random, i: usize, visit: Visit<E>) -> Result<(), E> {
    let file = sample(random, FILE_SIZES[i % FILE_SIZES.len()]);
    let n = grants_in(&file);
    visit(Family::File, &field_by_field(&file, 0..file.len() / 512))?;
    visit(Family::File, &two_at_once(random, &file, 60))?;
    visit(Family::File, &byte_by_byte(random, &file, 29, i.is_multiple_of(2)))?;
    visit(Family::File, &block_reads(&file))?;
    visit(Family::File, &older_marks(&file))?;
    if i.is_multiple_of(FILE_SIZES.len()) {
        visit(Family::File, &checks_too_large(random))?;
    }
    for capacity in [n.saturating_sub(1), n, n + 1] {
        visit(Family::File, &onto_pools(&file, capacity.max(1)))?;
    }
    Ok(())
}

/// The small records come first: a difference is shown with the first that has it.
fn openings<E>(random: &mut Random, visit: Visit<E>) -> Result<(), E> {
    for cases in [small_records, falling_quarters, two_faults, long_records, full_records, too_many_entries] {
        visit(Family::Openings, &cases(random))?;
    }
    Ok(())
}

/// Full pools of 2048 cells, the longest files, each byte of a file.
pub fn long_round<E>(random: &mut Random, visit: Visit<E>) -> Result<(), E> {
    let style = Style::any(random, 2048);
    visit(Family::History, &history(random, 2048, 300, style))?;
    let style = Style::deep(random);
    visit(Family::History, &history(random, 2048, 200, style))?;
    let capacity = 217 + random.below(1831);
    let style = Style::any(random, capacity);
    visit(Family::History, &history(random, capacity, 200, style))?;
    visit(Family::File, &lengths(random))?;
    let file = sample(random, 70);
    visit(Family::File, &byte_by_byte(random, &file, 1, false))?;
    visit(Family::File, &byte_by_byte(random, &file, 1, true))?;
    let longest = sample(random, 2048);
    visit(Family::File, &field_by_field(&longest, [0, 34, 67].into_iter()))?;
    visit(Family::File, &block_reads(&longest))?;
    visit(Family::File, &onto_pools(&longest, 2047))?;
    visit(Family::File, &onto_pools(&longest, 2048))?;
    for _ in 0..20 {
        visit(Family::Scrambled, &scrambled(random, 2048))?;
    }
    Ok(())
}
