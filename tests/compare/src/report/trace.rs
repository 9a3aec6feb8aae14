//! A trace: calls, the words that the C interface answers, and digests of the memory after each, for the C and Python programs to
//! replay. A line `pool WORDS` begins anew; every other line is a call, `=`, the word, and the digests of pool and lent memory.

use crate::cases::case::Case;
use crate::cases::random::Random;
use crate::cases::suite;
use crate::interface::call::hex_of_words;
use crate::interface::index::Index;
use crate::library::product::Product;
use crate::report::whole_run::Counts;
use std::fs::File;
use std::io::{self, BufWriter, Write};

/// Rounds that the trace takes its cases from, and how many calls of a case at most.
const ROUNDS: usize = 2;
const CALLS: usize = 120;
/// How many faults there are, document 02's with them; a trace has each, and each of either list.
const FAULTS: usize = 17;
const OF_LISTS: [&str; 8] =
    ["list 1", "list 2", "list 8", "list 9", "list_holding 1", "list_holding 2", "list_holding 8", "list_holding 9"];

/// CRC-32, as zlib has it.
fn digest(bytes: impl IntoIterator<Item = u8>) -> u32 {
    !bytes
        .into_iter()
        .fold(!0, |sum, byte| (0..8).fold(sum ^ u32::from(byte), |sum, _| (sum >> 1) ^ (0xEDB8_8320 & (sum & 1).wrapping_neg())))
}

/// The lines of one case.
fn write_case(case: &Case, out: &mut impl Write) -> io::Result<()> {
    let mut product = Product::new(&case.pool);
    writeln!(out, "pool {}", hex_of_words(&case.pool))?;
    for call in &case.calls {
        let observed = product.make(call);
        let pool = digest(product.words().iter().flat_map(|word| word.to_le_bytes()));
        let lent = digest(observed.lent.bytes());
        writeln!(out, "{call} = {:016x} {pool:08x} {lent:08x}", observed.answer.word())?;
    }
    Ok(())
}

/// Writes some calls of each case of some rounds, held against the plain implementation too.
pub fn write_file(path: &str, seed: u64) -> bool {
    let mut counts = Counts::default();
    let written = File::create(path).and_then(|file| {
        let mut out = BufWriter::new(file);
        let mut random = Random::new(seed);
        for i in 0..ROUNDS {
            suite::round(&mut random, i, &mut |family, case: &Case| {
                let step = case.calls.len().div_ceil(CALLS);
                let some = Case { pool: case.pool.clone(), calls: case.calls.iter().step_by(step).cloned().collect() };
                counts.visit(family, &some).map_err(|()| io::Error::other("the library differs"))?;
                write_case(&some, &mut out)
            })?;
        }
        out.flush()
    });
    let written = written.inspect_err(|error| println!("compare: {path}: {error}")).is_ok();
    written && has_all(path, &counts)
}

/// Whether a trace has every fault, and those of either list; says what it lacks.
fn has_all(path: &str, counts: &Counts) -> bool {
    let seen = counts.faults();
    if seen != FAULTS {
        println!("compare: {path}: the trace has {seen} faults, and not {FAULTS}");
    }
    let lacking: Vec<&str> = OF_LISTS.into_iter().filter(|refusal| !counts.has(refusal)).collect();
    lacking.iter().for_each(|refusal| println!("compare: {path}: the trace lacks {refusal}"));
    seen == FAULTS && lacking.is_empty()
}
