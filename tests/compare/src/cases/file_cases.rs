//! Cases about files: damaged byte by byte and field by field, of every odd length, and block by block.

use crate::cases::case::Case;
use crate::cases::damage::{block_damage, damaged, Put};
use crate::cases::random::Random;
use crate::cases::styles::{make_senior, Style};
use crate::interface::call::Call;
use crate::interface::grant::{Grant, Span};
use crate::oracle::file::{check, file_of, number_at, put_number, BLOCK, CHECK, MOST_BLOCKS, OLDER_MARK};
use crate::oracle::layout::words_for;
use crate::oracle::wrong::Wrong;
use std::rc::Rc;

const DOORS: Span = (1000, 2000);

/// A file of n grants, their numbers apart so that there is room between them.
pub fn sample(random: &mut Random, n: usize) -> Vec<u8> {
    let style = Style::uniform();
    let grants: Vec<Grant> = (0..n)
        .map(|i| {
            let mut grant = style.grant(random);
            let own = grant.bounds[1];
            grant.bounds[1] = (own.0.min(DOORS.1), own.1.max(DOORS.0));
            grant.number = (i * 31 + 5 + random.below(20)) as u16;
            make_senior(&mut grant);
            grant
        })
        .collect();
    file_of(DOORS, &grants, Wrong::Nothing)
}

/// An index that holds what the file says, with some room, then calls. One with few cells for a long file, which stays empty: to
/// load thousands of grants again and again takes long and tells no more about the file.
fn case(file: &[u8], calls: impl IntoIterator<Item = Call>) -> Case {
    let capacity = match grants_in(file) {
        n if n > 1000 => 16,
        n => n + 20,
    };
    let before = [Call::Start, Call::Load(file.into())];
    Case { pool: vec![0; words_for(capacity)], calls: before.into_iter().chain(calls).collect() }
}

/// Every call on a file, with block reads of one block.
fn calls_on(file: Vec<u8>, block: u64) -> [Call; 4] {
    let file: Rc<[u8]> = file.into();
    [Call::Match(file.clone()), Call::Load(file.clone()), Call::Block(file.clone(), block), Call::BlockPart(file, block)]
}

fn blocks_in(file: &[u8]) -> usize {
    file.len() / BLOCK
}

/// Each `step`-th byte made another one, and the check left as it was or made right again.
pub fn byte_by_byte(random: &mut Random, file: &[u8], step: usize, sealed: bool) -> Case {
    let bytes: Vec<usize> = (random.below(step)..file.len()).step_by(step).collect();
    let calls: Vec<Call> = bytes
        .into_iter()
        .flat_map(|at| {
            let byte = file[at] ^ (1 + random.below(255) as u8);
            let put = Put { block: at / BLOCK, at: at % BLOCK, bytes: vec![byte], sealed };
            calls_on(damaged(file, &[put]), (at / BLOCK) as u64)
        })
        .collect();
    case(file, calls)
}

/// Each field of the blocks given damaged alone, the check made right again.
pub fn field_by_field(file: &[u8], blocks: impl Iterator<Item = usize>) -> Case {
    let puts = blocks.flat_map(|block| block_damage(file, block));
    let calls: Vec<Call> = puts.flat_map(|put| calls_on(damaged(file, std::slice::from_ref(&put)), put.block as u64)).collect();
    case(file, calls)
}

/// Two places damaged at once, the check made right or not: the order of the refusals.
pub fn two_at_once(random: &mut Random, file: &[u8], count: usize) -> Case {
    let all: Vec<Put> = (0..blocks_in(file)).flat_map(|block| block_damage(file, block)).collect();
    let calls: Vec<Call> = (0..count)
        .flat_map(|_| {
            let mut puts = [0, 1].map(|_| all[random.below(all.len())].clone());
            puts.iter_mut().for_each(|put| put.sealed = !random.one_in(4));
            calls_on(damaged(file, &puts), puts[random.below(2)].block as u64)
        })
        .collect();
    case(file, calls)
}

/// Lengths that are no file's, blocks too many, too few and exchanged.
pub fn lengths(random: &mut Random) -> Case {
    let mut longest = sample(random, 2048);
    longest.extend_from_within(longest.len() - BLOCK..);
    let most = MOST_BLOCKS * BLOCK;
    let ends = [0, 1, 511, 512, 513, 1023, 1024, 1025, most - BLOCK, most - 1, most, most + 1, most + BLOCK];
    let mut files: Vec<Vec<u8>> = ends.iter().map(|end| longest[..*end].to_vec()).collect();
    let small = sample(random, 100);
    files.extend([small[BLOCK..].to_vec(), [&small[..], &[0; BLOCK]].concat(), [&small[..], &small[BLOCK..]].concat()]);
    files.push([&small[..], &[0; 65536]].concat());
    files.push([&small[..BLOCK], &small[2 * BLOCK..3 * BLOCK], &small[BLOCK..2 * BLOCK], &small[3 * BLOCK..]].concat());
    let calls: Vec<Call> = files.into_iter().flat_map(|file| calls_on(file, 0).into_iter().collect::<Vec<_>>()).collect();
    case(&longest[..most], calls)
}

/// Every block read, and numbers of blocks just outside and far off; some are inside when cut to fewer bits.
pub fn block_reads(file: &[u8]) -> Case {
    let count = blocks_in(file) as u64;
    let outside = [count, count + 1, 65535, 65536, 65537, 1 << 32, (1 << 32) + 1, 1 << 55, (1 << 55) + 1, 1 << 63, u64::MAX];
    let shared: Rc<[u8]> = file.into();
    let calls =
        (0..count).chain(outside).flat_map(|block| [Call::Block(shared.clone(), block), Call::BlockPart(shared.clone(), block)]);
    case(file, calls)
}

/// The older mark in each block from one on; from block 0 on, it is a file of the older form.
pub fn older_marks(file: &[u8]) -> Case {
    let count = blocks_in(file);
    let older = |block| Put { block, at: 0, bytes: OLDER_MARK.to_vec(), sealed: true };
    let from = |first| damaged(file, &(first..count).map(older).collect::<Vec<Put>>());
    case(file, (0..count).flat_map(|first| calls_on(from(first), first as u64)))
}

/// A file onto a pool that held anything, and onto an empty index.
pub fn onto_pools(file: &[u8], capacity: usize) -> Case {
    let file: Rc<[u8]> = file.into();
    let mut calls = vec![Call::Load(file.clone()), Call::Match(file.clone()), Call::Count, Call::Write(DOORS, file.len())];
    calls.extend([Call::Start, Call::Match(file.clone()), Call::Load(file), Call::Count]);
    Case { pool: vec![0xFFFF; words_for(capacity)], calls }
}

/// Files with a block whose check is below 15, so that the check plus 65521 fits its two bytes and is still wrong.
pub fn checks_too_large(random: &mut Random) -> Case {
    let mut file = sample(random, 40);
    let last = &mut file[2 * BLOCK..];
    put_number(last, 8 + 12, 0);
    for quarter_to in 1..=65535 {
        put_number(last, 8 + 14, quarter_to);
        if check(&last[..CHECK]) < 15 {
            break;
        }
    }
    let small = check(&last[..CHECK]);
    put_number(last, CHECK, small);
    let large = Put { block: 2, at: CHECK, bytes: small.wrapping_add(65521).to_be_bytes().to_vec(), sealed: false };
    let calls = calls_on(damaged(&file, &[large]), 2);
    case(&file, calls)
}

/// How many grants a file says that it has.
pub fn grants_in(file: &[u8]) -> usize {
    usize::from(number_at(file, 6))
}
