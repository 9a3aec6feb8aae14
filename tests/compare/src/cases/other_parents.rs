//! Parents made other ones in pools that histories made: in one cell, or in all cells that a call doesn't meet.

use crate::cases::random::Random;
use crate::interface::call::Call;
use crate::oracle::arguments::argument_fault;
use crate::oracle::judge::{judge, Contents};
use crate::oracle::layout::{left_of, parent_of, right_of};
use crate::oracle::parents::{place_of, PLACES};
use crate::oracle::scrambled::refusal;
use crate::oracle::wrong::Wrong;

/// Another parent in one cell: each place of a cell as often as the others, where the pool has it.
pub fn damage_one(random: &mut Random, words: &mut [u16]) {
    let place = random.pick(&PLACES);
    let (there, elsewhere): (Vec<u16>, Vec<u16>) = (1..=words[0]).partition(|cell| place_of(words, *cell) == place);
    let cell = random.pick(if there.is_empty() { &elsewhere } else { &there });
    put_other_parent(random, words, cell);
}

/// Another parent in each cell that a call's walks don't meet: those are the cells in which it makes no other refusal.
pub fn damage_unmet(random: &mut Random, words: &mut [u16], call: &Call) {
    let Some(file) = walks_with(call) else {
        return;
    };
    let fault = |words: &[u16]| refusal(words, call, file.as_ref(), Wrong::Nothing).err().map(|(fault, _)| fault);
    let before = fault(words);
    for cell in 1..=words[0] {
        let parent = words[parent_of(cell)];
        put_other_parent(random, words, cell);
        if fault(words) != before {
            words[parent_of(cell)] = parent;
        }
    }
}

/// Of a call that walks: the contents of match's file.
fn walks_with(call: &Call) -> Option<Option<Contents>> {
    match call {
        Call::Match(file) => judge(file, Wrong::Nothing).ok().map(Some),
        Call::Grant(_) | Call::Revoke(_) | Call::List(..) | Call::Decide(_) | Call::Count | Call::Write(..) => {
            argument_fault(call, Wrong::Nothing).is_none().then_some(None)
        }
        _ => None,
    }
}

/// Another parent than a cell has: none, the cell itself, one near it, any, or what is no cell.
fn put_other_parent(random: &mut Random, words: &mut [u16], cell: u16) {
    let parent = words[parent_of(cell)];
    let any = random.below(usize::from(words[0])) as u16 + 1;
    let others = [0, cell, words[left_of(cell)], words[right_of(cell)], any, words[0] + 1, 65535, random.word()];
    let other = random.pick(&others);
    words[parent_of(cell)] = if other == parent { parent ^ 1 } else { other };
}
