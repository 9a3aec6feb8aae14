//! The plain implementation: what documents 01 and 02 fix of a call's answer and of all memory after it, on any pool.

use crate::interface::answer::{fault, Answer, Fault};
use crate::interface::call::Call;
use crate::interface::choice::Choice;
use crate::interface::grant::{Grant, LAST_COVERED, LAST_QUARTER};
use crate::interface::index::{Index, Observed};
use crate::interface::lent::Lent;
use crate::oracle::arguments::{argument_fault, is_reversed_by_equal_quarters, is_too_wide};
use crate::oracle::block_read;
use crate::oracle::honest::Honest;
use crate::oracle::judge::{self, judge, Contents};
use crate::oracle::layout::{capacity_of, older_capacity_of};
use crate::oracle::openings;
use crate::oracle::parents;
use crate::oracle::positions::Asked;
use crate::oracle::removals;
use crate::oracle::scrambled;
use crate::oracle::sound::grants_in;
use crate::oracle::wrong::Wrong;

/// What must be seen after a call.
pub struct Expected {
    /// None: accepted, and the answer and what it writes in the lent memory are free.
    pub answer: Option<Answer>,
    pub lent: Lent,
    /// The pool's words are free: an accepted grant or revoke on a scrambled pool.
    pub pool_is_free: bool,
    /// What was reached that a run must reach, in words: the cause of a refusal, how decide is answered at the last quarters, how the box
    /// of a list lies, what a revoke takes out, which parents give 9 and which don't.
    pub reached: Vec<String>,
}

enum Standing {
    /// Start or load and later accepted calls made the pool, or it is as sound as one that they made.
    Honest(Honest),
    Scrambled(Vec<u16>),
}

pub struct Plain {
    standing: Standing,
    wrong: Wrong,
}

/// A refusal, and the words for its cause.
type Refused = (Fault, String);

impl Index for Plain {
    /// Of a pool that calls made, where every answer is fixed.
    fn make(&mut self, call: &Call) -> Observed {
        let Expected { answer, lent, .. } = self.step(call);
        Observed { answer: answer.expect("a pool that calls made"), lent, guards_stand: true }
    }

    /// The words that the pool must have.
    fn words(&self) -> &[u16] {
        match &self.standing {
            Standing::Honest(honest) => &honest.words,
            Standing::Scrambled(words) => words,
        }
    }
}

impl Plain {
    /// A pool of any words; nothing is known of where they come from. One whose links are sound answers from its cells, whatever ranks
    /// and doors they have.
    pub fn new(words: &[u16], wrong: Wrong) -> Plain {
        let standing = match grants_in(words) {
            Some(live) => Standing::Honest(Honest::of(words, live, wrong)),
            None => Standing::Scrambled(words.to_vec()),
        };
        Plain { standing, wrong }
    }

    /// The live grants, where the pool is one that calls made.
    pub fn live(&self) -> Option<&[Grant]> {
        match &self.standing {
            Standing::Honest(honest) => Some(&honest.book.live),
            Standing::Scrambled(_) => None,
        }
    }

    /// Of a decide on a pool that calls made: how many grants have the highest rank at its point. Above one, the number decides.
    pub fn of_highest_rank(&self, call: &Call) -> usize {
        match (&self.standing, call) {
            (Standing::Honest(honest), Call::Decide(point)) => honest.book.of_highest_rank(*point).len(),
            _ => 0,
        }
    }

    /// Takes over the words that a call was free to leave.
    pub fn adopt(&mut self, words: &[u16]) {
        self.standing = Standing::Scrambled(words.to_vec());
    }

    pub fn step(&mut self, call: &Call) -> Expected {
        let mut lent = Lent::before(call);
        let removal = self.removal(call);
        let outcome = self.answer(call, &mut lent);
        let free = matches!(outcome, Ok(None));
        let mut reached = match &outcome {
            Ok(_) | Err((Fault { number: 8, .. }, _)) => self.positions(call),
            Err(_) => Vec::new(),
        };
        reached.extend(self.of_parents(call, outcome.as_ref().err().map(|(fault, _)| fault.number)));
        let answer = match outcome {
            Ok(answer) => {
                reached.extend(self.at_the_last_quarters(call).into_iter().chain(removal));
                answer
            }
            Err((fault, cause)) => {
                reached.push(format!("{} {}{cause}", call.name(), fault.number));
                Some(Answer::Refused(fault))
            }
        };
        Expected { answer, lent, pool_is_free: free && matches!(call, Call::Grant(_) | Call::Revoke(_)), reached }
    }

    /// The order line: 1, then the arguments or the file, then 9 and the faults behind it.
    fn answer(&mut self, call: &Call, lent: &mut Lent) -> Result<Option<Answer>, Refused> {
        if let Call::Block(file, block) = call {
            return block_read::verdict(file, *block, self.wrong).map(|_| Some(Answer::Done)).map_err(file_cause);
        }
        if let Call::BlockPart(file, block) = call {
            let (length, start) = block_read::part(file, *block, self.wrong);
            return Ok(Some(Answer::Part { length, start }));
        }
        if let Call::CompareOpenings(door, panel) = call {
            return openings::compared(door, panel, self.wrong).map(Some);
        }
        if let (Call::Match(file), Wrong::FileBeforePool) = (call, self.wrong) {
            judge(file, self.wrong).map_err(file_cause)?;
        }
        if let (Call::Decide([_, _, LAST_QUARTER]), Wrong::LastQuarterBeforeThePool) = (call, self.wrong) {
            return Ok(Some(Answer::Decided(None)));
        }
        if let (Call::List(_, Choice::Holding, _), Wrong::HoldingBoxBeforeThePool) = (call, self.wrong) {
            argument_fault(call, self.wrong).map_or(Ok(()), |fault| Err((fault, String::new())))?;
        }
        let capacity = self.capacity(call).ok_or_else(|| (fault(1), beside_one(call)))?;
        match call {
            Call::Start => self.standing = Standing::Honest(Honest::start(capacity, self.wrong)),
            Call::Load(file) => self.load(capacity, file)?,
            _ => return self.walk(call, lent),
        }
        Ok(Some(Answer::Done))
    }

    /// C where the pool's length is right and, except in start and load, its first word too.
    fn capacity(&self, call: &Call) -> Option<usize> {
        let words = self.words();
        let older = match (call, self.wrong) {
            (Call::Start, Wrong::StartTakesTheOlderLength) => older_capacity_of(words),
            _ => None,
        };
        let capacity = capacity_of(words, self.wrong).or(older)?;
        let any_first = match call {
            Call::Start => self.wrong != Wrong::StartReadsTheFirstWord,
            _ => matches!(call, Call::Load(_)),
        };
        (any_first || usize::from(words[0]) == capacity).then_some(capacity)
    }

    fn load(&mut self, capacity: usize, file: &[u8]) -> Result<(), Refused> {
        let contents = judge(file, self.wrong).map_err(file_cause)?;
        if contents.grants.len() > capacity && self.wrong != Wrong::LoadStopsAtFullPool {
            return Err((fault(6), String::new()));
        }
        self.standing = Standing::Honest(Honest::load(capacity, &contents.grants, self.wrong));
        Ok(())
    }

    /// The calls that walk.
    fn walk(&mut self, call: &Call, lent: &mut Lent) -> Result<Option<Answer>, Refused> {
        if let Some(fault) = argument_fault(call, self.wrong) {
            let walks_before = match self.wrong {
                Wrong::WalksBeforeArguments => true,
                Wrong::WalksBeforeWide => fault.number == 16,
                Wrong::HoldingWalksBeforeTheBox => matches!(call, Call::List(_, Choice::Holding, _)),
                _ => false,
            };
            if walks_before {
                scrambled_step(self.words(), call, None, self.wrong)?;
            }
            return Err((fault, self.masked(call, fault)));
        }
        let file = match call {
            Call::Match(file) => Some(judge(file, self.wrong).map_err(file_cause)?),
            _ => None,
        };
        match &mut self.standing {
            Standing::Honest(honest) => honest_step(honest, call, lent, file.as_ref(), self.wrong),
            Standing::Scrambled(words) => scrambled_step(words, call, file.as_ref(), self.wrong),
        }
    }

    /// Of a grant that breaks the rule of 16: which fault it has beside the one that answers. Of 2: whether equal quarters alone gave it.
    fn masked(&self, call: &Call, fault: Fault) -> String {
        match fault.number {
            16 => match scrambled::refusal(self.words(), call, None, Wrong::Nothing) {
                Err((behind, _)) => format!(" before {}", behind.number),
                Ok(()) => String::new(),
            },
            2 if is_reversed_by_equal_quarters(call) && !is_too_wide(call, Wrong::Nothing) => " equal quarters".to_string(),
            _ => before_sixteen(call),
        }
    }

    /// Of a list whose walk came to its end: how its box lies to the grants, or to the cells.
    fn positions(&self, call: &Call) -> Vec<String> {
        let Call::List(bounds, choice, lent) = call else {
            return Vec::new();
        };
        if self.wrong != Wrong::Nothing {
            return Vec::new();
        }
        let asked = Asked { bounds, choice: *choice, lent: *lent };
        let positions = match &self.standing {
            Standing::Honest(honest) => asked.of_grants(&honest.book.live),
            Standing::Scrambled(words) => asked.of_cells(words, &scrambled::list_walk(words, bounds, *choice, self.wrong).0),
        };
        positions.into_iter().map(|position| format!("{} {position}", call.name())).collect()
    }

    /// What a revoke takes out, should it be accepted: its cell's shape on a pool that calls made; on another, a link above C.
    fn removal(&self, call: &Call) -> Option<String> {
        let Call::Revoke(number) = call else {
            return None;
        };
        if self.wrong != Wrong::Nothing {
            return None;
        }
        match &self.standing {
            Standing::Honest(honest) => honest.book.find(*number).map(|grant| removals::shape(&honest.words, grant)),
            Standing::Scrambled(words) => self.capacity(call).and_then(|_| removals::unmet_link(words, *number)),
        }
    }

    /// Of a call that walked on a scrambled pool, with the number of its fault: the parents that gave it 9, or that didn't.
    fn of_parents(&self, call: &Call, fault: Option<u8>) -> Vec<String> {
        let walks = match call {
            Call::Decide([_, _, quarter]) => *quarter != LAST_QUARTER,
            Call::Grant(_) | Call::Revoke(_) | Call::List(..) | Call::Count | Call::Write(..) | Call::Match(_) => true,
            _ => false,
        };
        let walked = walks && matches!(fault, None | Some(5..=9 | 14));
        match &self.standing {
            Standing::Scrambled(words) if walked && self.wrong == Wrong::Nothing => parents::seen(words, call, fault == Some(9)),
            _ => Vec::new(),
        }
    }

    /// Of an accepted decide: that a grant decides at 65534; that none does at 65535 although one does a quarter before, or although 9
    /// would come there.
    fn at_the_last_quarters(&self, call: &Call) -> Option<String> {
        let Call::Decide([staff, door, quarter @ (LAST_COVERED | LAST_QUARTER)]) = *call else {
            return None;
        };
        self.capacity(call)?; // Only a wrong version answers on what is no pool.
        let before = [staff, door, LAST_COVERED];
        let is_refused = |words| scrambled::refusal(words, &Call::Decide(before), None, Wrong::Nothing).is_err();
        let reached = match (&self.standing, quarter) {
            (Standing::Honest(honest), _) if honest.book.decide(before).is_none() => return None,
            (Standing::Honest(_), LAST_QUARTER) => "decide none at 65535, a grant at 65534",
            (Standing::Honest(_), _) => "decide a grant at 65534",
            (Standing::Scrambled(words), LAST_QUARTER) if is_refused(words) => "decide none at 65535, 9 at 65534",
            _ => return None,
        };
        Some(reached.to_string())
    }
}

/// Of a call on what is no pool: what it asks that would answer otherwise.
fn beside_one(call: &Call) -> String {
    match call {
        Call::Decide([_, _, LAST_QUARTER]) => " at 65535".to_string(),
        _ => before_sixteen(call),
    }
}

/// Of a grant that 16 would refuse: that another fault does.
fn before_sixteen(call: &Call) -> String {
    match is_too_wide(call, Wrong::Nothing) {
        true => " before 16".to_string(),
        false => String::new(),
    }
}

/// The book answers. On its pool the walks must refuse the same, or document 01 was read in two ways here.
fn honest_step(
    honest: &mut Honest,
    call: &Call,
    lent: &mut Lent,
    file: Option<&Contents>,
    wrong: Wrong,
) -> Result<Option<Answer>, Refused> {
    let by_walks = (wrong == Wrong::Nothing).then(|| scrambled::refusal(&honest.words, call, file, wrong));
    let answer = honest.step(call, lent, file);
    if let Some(by_walks) = by_walks {
        assert_eq!(by_walks.err().map(|(fault, _)| fault), answer.err(), "book and walks on {call}");
    }
    answer.map(Some).map_err(|fault| (fault, String::new()))
}

/// What is accepted is free, but for decide at 65535: that is none on every pool.
fn scrambled_step(words: &[u16], call: &Call, file: Option<&Contents>, wrong: Wrong) -> Result<Option<Answer>, Refused> {
    scrambled::refusal(words, call, file, wrong)?;
    Ok(matches!(call, Call::Decide([_, _, LAST_QUARTER])).then_some(Answer::Decided(None)))
}

fn file_cause(refusal: judge::Refusal) -> Refused {
    (refusal.fault, format!(" {}, {}", refusal.cause, refusal.place))
}
