//! What a run must have seen: each fault of each call by the documents' order line, 16 together with each other fault of grant, 2 by equal
//! quarters alone, each cause of 9 in each walk that can meet it, each cause of 11, 12 and 13 in each block that can have it, each cause of
//! 24 and 25 in either record of openings; hits whose quarters cover nothing, and decide at the last quarters; under either choice of list,
//! boxes at each end of a grant, lists one too short, and cells that no grant is like; another parent at each place of a cell, met or not;
//! revokes of cells of every shape, and of one with a link above C that isn't met.

use crate::interface::grant::ENDS;
use crate::oracle::parents::{of_parent, PLACES};
use std::collections::BTreeMap;

const BY_CALL: [(&str, &[u8]); 8] = [
    ("start", &[1]),
    ("grant", &[1, 3, 4, 2, 16, 5, 6]),
    ("revoke", &[1, 3, 7]),
    ("list", &[1, 2, 8]),
    ("list_holding", &[1, 2, 8]),
    ("decide", &[1]),
    ("count", &[1]),
    ("write", &[1, 2, 14]),
];
const WITH_SIXTEEN: [&str; 7] = [
    "grant 1 before 16",
    "grant 3 before 16",
    "grant 4 before 16",
    "grant 2 before 16",
    "grant 16 before 9",
    "grant 16 before 5",
    "grant 16 before 6",
];
const ON_SCRAMBLED: [&str; 6] = ["grant 5", "grant 6", "revoke 7", "list 8", "list_holding 8", "write 14"];
const WITH_ODD_QUARTERS: [&str; 5] = [
    "grant 2 equal quarters",
    "list 2 equal quarters",
    "list_holding 2 equal quarters",
    "list 8 on a scrambled pool, a hit with equal quarters",
    "list 8 on a scrambled pool, a hit with reversed quarters",
];
const AT_THE_LAST_QUARTERS: [&str; 4] = [
    "decide a grant at 65534",
    "decide none at 65535, a grant at 65534",
    "decide none at 65535, 9 at 65534",
    "decide 1 at 65535",
];
const SEARCHING: [&str; 8] = ["grant", "revoke", "list", "list_holding", "decide", "count", "write", "match"];
const HELD_ON_TWO: [&str; 3] = ["staff and doors", "staff and quarters", "doors and quarters"];
const BY_ROOM: [&str; 2] = ["one too short where fewer hold", "just long enough where fewer hold"];
const OF_CELLS: [&str; 5] = [
    "a cell with the box's staff reversed",
    "a cell with the box's doors reversed",
    "a cell with reversed quarters",
    "a cell with equal quarters",
    "a cell that holds the box, met twice",
];
const OF_NINE: [&str; 4] = ["a link above C", "a cell below level 112", "a parent that is another cell", "more than C cells"];
/// A removal walk meets no cell twice.
const OF_REMOVAL: [&str; 3] = ["a link above C", "a cell below level 112", "a parent that is another cell"];
const OTHER_WALKS: [&str; 3] =
    ["grant 9 way down: a cell below level 112", "grant 9 free head: a link above C", "grant 9 free cell's left: a link above C"];
const OF_FRAMES: [&str; 4] = ["12 check", "11 mark", "11 older mark", "11 block number"];
const RECORD_BLOCKS: [&str; 3] = ["the first block of records", "a middle block", "the last block"];
const OF_RECORDS: [&str; 9] = [
    "number 0",
    "number not above the last",
    "kind",
    "staff from above to",
    "door from above to",
    "quarter from above to",
    "equal quarters",
    "rank too low for its doors",
    "doors not touching",
];

/// What can't be: the number's search has met the cells of grant's way down, and a removal walk meets no cell twice.
const IMPOSSIBLE: [&str; 4] = [
    "grant 9 way down: a link above C",
    "grant 9 way down: a parent that is another cell",
    "grant 9 way down: more than C cells",
    "revoke 9 removal: more than C cells",
];

/// What was reached that can't be.
pub fn impossible(reached: &BTreeMap<String, usize>) -> Vec<&'static str> {
    IMPOSSIBLE.into_iter().filter(|what| reached.contains_key(*what)).collect()
}

/// Those that were not reached.
pub fn missing(reached: &BTreeMap<String, usize>) -> Vec<String> {
    let mut required = of_pools();
    for call in ["load", "match"] {
        required.push(format!("{call} 1"));
        required.push(format!("{call} 10 length, the file"));
        required.extend(of_head(call));
        required.extend(of_blocks(call));
    }
    required.push("load 6".to_string());
    required.extend(["list", "list_holding"].iter().flat_map(|call| of_lists(call)));
    required.extend(SEARCHING.iter().flat_map(|call| of_parents(call)));
    required.extend(of_revokes());
    required.extend(of_block_read());
    required.extend(of_openings());
    required.retain(|what| !reached.contains_key(what));
    required
}

fn of_pools() -> Vec<String> {
    let by_call = BY_CALL.iter().flat_map(|(call, faults)| faults.iter().map(move |fault| format!("{call} {fault}")));
    let scrambled = ON_SCRAMBLED.iter().map(|refusal| format!("{refusal} on a scrambled pool"));
    let searches = SEARCHING.iter().flat_map(|call| OF_NINE.iter().map(move |cause| format!("{call} 9 search: {cause}")));
    let removals = OF_REMOVAL.iter().map(|cause| format!("revoke 9 removal: {cause}"));
    let others = OTHER_WALKS.iter().chain(&WITH_SIXTEEN).chain(&WITH_ODD_QUARTERS).chain(&AT_THE_LAST_QUARTERS);
    by_call.chain(scrambled).chain(searches).chain(removals).chain(others.map(|what| what.to_string())).collect()
}

fn of_lists(call: &str) -> Vec<String> {
    let mut required = vec![format!("{call} the box of a grant")];
    for side in ["inside", "outside"] {
        required.extend(ENDS.iter().map(|end| format!("{call} a box one {side} a grant at {end:?}")));
    }
    required.extend(HELD_ON_TWO.iter().map(|two| format!("{call} a box held on {two} alone")));
    required.extend(BY_ROOM.iter().map(|room| format!("{call} {room}")));
    required.extend(BY_ROOM.iter().chain(&OF_CELLS).map(|position| format!("{call} {position}, on a scrambled pool")));
    required
}

/// Each place of a cell that a walk meets gives 9, and each of a free cell doesn't; nor does one that isn't met, but count meets all.
fn of_parents(call: &str) -> Vec<String> {
    let (met, free) = PLACES.split_at(3);
    let unmet = if call == "count" { &[] } else { &met[1..] };
    let nine = met.iter().map(|place| of_parent(true, place));
    let no_nine = free.iter().chain(unmet).map(|place| of_parent(false, place));
    nine.chain(no_nine).map(|parent| format!("{call} {parent}")).collect()
}

fn of_revokes() -> Vec<String> {
    let mut required = vec!["revoke of a cell with a link above C that isn't met".to_string()];
    for place in ["the root", "another cell"] {
        required.push(format!("revoke of {place}, without children"));
        for children in ["a left child", "a right child", "two children"] {
            let taken_by = ["a child", "a cell further down"].iter();
            required.extend(taken_by.map(|cell| format!("revoke of {place}, with {children}, whose place {cell} takes")));
        }
    }
    required
}

fn of_head(call: &str) -> Vec<String> {
    let counts = ["11 n above 2048", "11 block count", "11 door order", "11 fill"];
    let causes = OF_FRAMES.iter().chain(&counts);
    causes.map(|cause| format!("{call} {cause}, block 0")).collect()
}

fn of_blocks(call: &str) -> Vec<String> {
    let mut required = Vec::new();
    for place in RECORD_BLOCKS {
        let causes = OF_FRAMES.iter().chain(&["11 record count", "11 fill"]);
        required.extend(causes.map(|cause| format!("{call} {cause}, {place}")));
        required.extend(OF_RECORDS.iter().map(|cause| format!("{call} 13 {cause}, {place}")));
    }
    let edges = RECORD_BLOCKS[1..].iter();
    required.extend(edges.map(|place| format!("{call} 13 number not above the last block's, {place}")));
    required
}

fn of_block_read() -> Vec<String> {
    let mut required = vec!["block 10 length, the file".to_string(), "block 10 no such block, the file".to_string()];
    for place in RECORD_BLOCKS.iter().chain(&["block 0"]) {
        let causes = OF_FRAMES.iter().chain(&["11 fill"]);
        required.extend(causes.map(|cause| format!("block {cause}, {place}")));
    }
    required.extend(RECORD_BLOCKS.iter().map(|place| format!("block 11 record count, {place}")));
    required
}

fn of_openings() -> Vec<String> {
    let mut required = Vec::new();
    for record in ["the door record", "the panel record"] {
        for cause in ["not whole entries", "too many entries"] {
            let beside = ["", ", before its own 25", ", before 25 in the other"];
            required.extend(beside.iter().map(|beside| format!("openings 24 {cause}, {record}{beside}")));
        }
        let places = ["the second entry", "a middle entry", "the last entry"];
        required.extend(places.iter().map(|place| format!("openings 25 {place}, {record}")));
    }
    required
}
