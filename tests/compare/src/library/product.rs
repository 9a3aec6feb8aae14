//! The calls made on the library, through its Rust wrapper, in guarded memory.

use crate::interface::answer::{Answer, Fault};
use crate::interface::call::Call;
use crate::interface::choice::Choice;
use crate::interface::grant::{Bounds, Grant};
use crate::interface::index::{Index, Observed};
use crate::interface::lent::Lent;
use crate::library::guarded::Guarded;
use locker_grants as lg;
use locker_grants::{file, pool};
use std::rc::Rc;

pub struct Product {
    pool: Guarded<u16>,
}

impl Index for Product {
    fn make(&mut self, call: &Call) -> Observed {
        let (answer, lent, lent_guards) = match Lent::before(call) {
            Lent::Nothing => (self.make_plain(call), Lent::Nothing, true),
            Lent::Words(words) => {
                let mut lent = Guarded::new(&words, 0x5AA5);
                let answer = self.make_with_words(call, lent.contents_mut());
                (answer, Lent::Words(lent.contents().to_vec()), lent.guards_stand())
            }
            Lent::Bytes(bytes) => {
                let mut lent = Guarded::new(&bytes, 0x5A);
                let answer = self.make_with_bytes(call, lent.contents_mut());
                (answer, Lent::Bytes(lent.contents().to_vec()), lent.guards_stand())
            }
        };
        let answer = answer.unwrap_or_else(|fault| Answer::Refused(fault_of(fault)));
        Observed { answer, lent, guards_stand: lent_guards && self.pool.guards_stand() }
    }

    fn words(&self) -> &[u16] {
        self.pool.contents()
    }
}

impl Product {
    pub fn new(words: &[u16]) -> Product {
        Product { pool: Guarded::new(words, 0xA55A) }
    }

    fn make_plain(&mut self, call: &Call) -> Result<Answer, lg::Fault> {
        let words = self.pool.contents_mut();
        Ok(match call {
            Call::Start => done(pool::start(words)?),
            Call::Grant(grant) => done(pool::grant(words, grant.number, grant.rank, grant.kind, bounds_to(&grant.bounds))?),
            Call::Revoke(number) => done(pool::revoke(words, *number)?),
            Call::Load(file) => done(pool::load(words, file)?),
            Call::Match(file) => match pool::match_file(words, file)? {
                lg::Match::Equal => Answer::Matched(None),
                lg::Match::Differs(number) => Answer::Matched(Some(number)),
            },
            Call::Block(file, block) => done(file::block(file, *block)?),
            Call::BlockPart(file, block) => part_of(file, file::block_part(file, *block)),
            Call::Count => {
                let count = pool::count(words)?;
                Answer::Counted { live: count.live, free: count.free }
            }
            Call::List(..) | Call::Decide(_) | Call::Write(..) | Call::CompareOpenings(..) => {
                unreachable!("these are lent memory")
            }
        })
    }

    fn make_with_words(&self, call: &Call, lent: &mut [u16]) -> Result<Answer, lg::Fault> {
        let words = self.pool.contents();
        match (call, <&mut [u16; 10]>::try_from(&mut *lent)) {
            (Call::Decide([staff, door, quarter]), Ok(out)) => {
                pool::decide_into(words, *staff, *door, *quarter, out).map(|decision| Answer::Decided(decided(decision)))
            }
            (Call::List(bounds, choice, _), _) => {
                pool::list(words, bounds_to(bounds), choice_to(*choice), lent).map(Answer::Listed)
            }
            _ => unreachable!("only list and decide are lent words"),
        }
    }

    fn make_with_bytes(&self, call: &Call, lent: &mut [u8]) -> Result<Answer, lg::Fault> {
        match call {
            Call::Write(doors, _) => pool::write(self.pool.contents(), *doors, lent).map(Answer::Written),
            Call::CompareOpenings(door, panel) => {
                let (door_record, behind) = lent.split_at(door.len());
                let panel_record = if Rc::ptr_eq(door, panel) { door_record } else { behind };
                lg::compare_openings(door_record, panel_record).map(compared)
            }
            _ => unreachable!("only write and the comparison of records are lent bytes"),
        }
    }
}

fn done(_: ()) -> Answer {
    Answer::Done
}

fn compared(numbers: lg::Comparison) -> Answer {
    let lg::Comparison { agree, left_in_door, left_in_panel } = numbers;
    Answer::Compared { agree, left_in_door, left_in_panel }
}

fn bounds_to(bounds: &Bounds) -> lg::Bounds {
    let [staff, doors, quarters] = *bounds;
    lg::Bounds { staff, doors, quarters: lg::HalfOpen { from: quarters.0, until: quarters.1 } }
}

fn choice_to(choice: Choice) -> lg::Choice {
    match choice {
        Choice::Touching => lg::Choice::Touching,
        Choice::Holding => lg::Choice::Holding,
    }
}

fn decided(decision: lg::Decision) -> Option<Grant> {
    let (grant, kind) = match decision {
        lg::Decision::None => return None,
        lg::Decision::Opens(grant) => (grant, 1),
        lg::Decision::Barred(grant) => (grant, 0),
    };
    let lg::Bounds { staff, doors, quarters } = grant.bounds;
    let bounds = [staff, doors, (quarters.from, quarters.until)];
    Some(Grant { number: grant.number, rank: grant.rank, kind, bounds })
}

/// Where a part lies in its file: the wrapper hands back a piece of the slice it was given.
fn part_of(file: &[u8], part: &[u8]) -> Answer {
    let start = match part {
        [] => 0,
        _ => part.as_ptr() as usize - file.as_ptr() as usize,
    };
    Answer::Part { length: part.len(), start }
}

fn fault_of(fault: lg::Fault) -> Fault {
    let value = match fault {
        lg::Fault::ListTooShort { needed } | lg::Fault::BufferTooShort { needed } => needed as u32,
        lg::Fault::BadLayout { block } | lg::Fault::BadChecksum { block } | lg::Fault::BadRecord { block } => block,
        _ => 0,
    };
    Fault { number: fault.number(), value }
}
