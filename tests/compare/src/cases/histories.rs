//! Histories of calls from a fresh index: random, and where things get tight.

use crate::cases::boxes::{all_near, near};
use crate::cases::case::Case;
use crate::cases::random::Random;
use crate::cases::styles::{make_senior, quarter_near, spoil, Style};
use crate::interface::call::Call;
use crate::interface::choice::CHOICES;
use crate::interface::grant::{Bounds, Grant, Span, EVERYTHING};
use crate::oracle::arguments::argument_fault;
use crate::oracle::book::Book;
use crate::oracle::file::file_of;
use crate::oracle::judge::judge;
use crate::oracle::layout::words_for;
use crate::oracle::wrong::Wrong;

/// Makes calls one after the other, with a book beside it that says where the tight places are.
struct Clerk<'a> {
    random: &'a mut Random,
    style: Style,
    book: Book,
    calls: Vec<Call>,
}

/// Live grants that a history's last lists are near to.
const LAST_NEAR: usize = 3;

/// A fresh index of C cells in memory that held anything, then calls; at last lists near some live grants.
pub fn history(random: &mut Random, capacity: usize, length: usize, style: Style) -> Case {
    let pool = (0..words_for(capacity)).map(|_| random.word()).collect();
    let book = Book::new(capacity, Wrong::Nothing);
    let mut clerk = Clerk { random, style, book, calls: vec![Call::Start] };
    if capacity > 1000 || clerk.random.one_in(2) {
        clerk.fill();
    }
    for _ in 0..length {
        clerk.next();
    }
    clerk.list_near_grants();
    Case { pool, calls: clerk.calls }
}

impl Clerk<'_> {
    /// Grants until few cells are left, if the style has as many numbers, so that a short history sees a full pool.
    fn fill(&mut self) {
        for _ in 0..self.book.capacity * 3 / 2 {
            if self.book.live.len() + 3 < self.book.capacity {
                self.grant();
            }
        }
    }

    fn next(&mut self) {
        match self.random.below(100) {
            0..=39 => self.grant(),
            40..=57 => self.revoke(),
            58..=69 => self.list(),
            70..=81 => self.decide(),
            82..=84 => self.calls.push(Call::Count),
            85..=89 => self.write(),
            90..=91 => self.load(),
            92..=96 => self.match_file(),
            97 if self.random.one_in(4) => self.start(),
            _ => self.wrong_arguments(),
        }
    }

    fn start(&mut self) {
        self.book.live.clear();
        self.calls.push(Call::Start);
    }

    fn grant(&mut self) {
        let grant = self.style.grant(self.random);
        let call = Call::Grant(grant);
        if argument_fault(&call, Wrong::Nothing).is_none() {
            let _ = self.book.grant(grant);
        }
        self.calls.push(call);
    }

    /// A live number more often than not.
    fn number(&mut self) -> u16 {
        match self.book.live.is_empty() || self.random.one_in(4) {
            true => self.style.number(self.random),
            false => self.book.live[self.random.below(self.book.live.len())].number,
        }
    }

    fn revoke(&mut self) {
        let number = self.number();
        let _ = self.book.revoke(number);
        self.calls.push(Call::Revoke(number));
    }

    /// A box of its own, or that of a live grant, or right beside it.
    fn bounds(&mut self) -> Bounds {
        let [staff, doors, quarters] = match self.live_bounds() {
            Some(bounds) if self.random.one_in(2) => bounds,
            _ => return self.style.bounds(self.random),
        };
        [span_beside(self.random, staff), span_beside(self.random, doors), quarters_beside(self.random, quarters)]
    }

    /// What is needed, one less, more, nothing, or more than any pool needs; a length that is none when it is cut to 16 bits.
    fn lent(&mut self, needed: usize, most: usize) -> usize {
        match self.random.below(60) {
            0 => 65536,
            1..=9 => needed.saturating_sub(1),
            10..=19 => needed + 1 + self.random.below(40),
            20..=29 => 0,
            30..=34 => most,
            _ => needed,
        }
    }

    /// A live grant's box.
    fn live_bounds(&mut self) -> Option<Bounds> {
        match self.book.live.is_empty() {
            true => None,
            false => Some(self.book.live[self.random.below(self.book.live.len())].bounds),
        }
    }

    /// A box of any kind, or one near a live grant's.
    fn list(&mut self) {
        let bounds = match self.live_bounds() {
            Some(bounds) if self.random.one_in(2) => near(self.random, &bounds),
            _ => self.bounds(),
        };
        self.list_box(bounds);
    }

    /// Either choice, in either order, each with a length of its own.
    fn list_box(&mut self, bounds: Bounds) {
        let mut choices = CHOICES;
        choices.rotate_left(self.random.below(2));
        for choice in choices {
            let needed = self.book.taken(&bounds, choice).len();
            let lent = self.lent(needed, 3000);
            self.calls.push(Call::List(bounds, choice, lent));
        }
    }

    /// Everything, and the boxes near some live grants.
    fn list_near_grants(&mut self) {
        self.list_box(EVERYTHING);
        for _ in 0..LAST_NEAR {
            let Some(bounds) = self.live_bounds() else {
                return;
            };
            all_near(self.random, &bounds).into_iter().for_each(|asked| self.list_box(asked));
        }
    }

    fn decide(&mut self) {
        let point = match self.random.one_in(2) {
            true => self.style.point(self.random),
            false => {
                let [staff, doors, quarters] = self.bounds();
                let mut end_of = |span: Span| self.random.pick(&[span.0, span.1]);
                [end_of(staff), end_of(doors), quarter_near(self.random, quarters)]
            }
        };
        self.calls.push(Call::Decide(point));
    }

    fn doors(&mut self) -> Span {
        self.bounds()[1]
    }

    fn write(&mut self) {
        let doors = self.doors();
        let needed = file_of(doors, &self.book.touching(doors), Wrong::Nothing).len();
        let lent = self.lent(needed, 40000);
        self.calls.push(Call::Write(doors, lent));
    }

    /// The file of some doors and of the live grants, or of others.
    fn file(&mut self) -> Vec<u8> {
        let doors = self.doors();
        let mut grants = self.book.touching(doors);
        match self.random.below(3) {
            0 => {}
            1 => alter(self.random, &mut grants),
            _ => grants = set_of_grants(self.random, self.style, self.book.capacity + 1, doors),
        }
        grants.retain(|grant| grant.bounds[1].0 <= doors.1 && grant.bounds[1].1 >= doors.0);
        file_of(doors, &grants, Wrong::Nothing)
    }

    fn load(&mut self) {
        let file = self.file();
        match judge(&file, Wrong::Nothing) {
            Ok(contents) if contents.grants.len() <= self.book.capacity => self.book.live = contents.grants,
            _ => {}
        }
        self.calls.push(Call::Load(file.into()));
    }

    fn match_file(&mut self) {
        let file = self.file();
        self.calls.push(Call::Match(file.into()));
    }

    /// One or several faults in the arguments at once.
    fn wrong_arguments(&mut self) {
        let mut grant = self.style.grant(self.random);
        spoil(self.random, &mut grant);
        self.calls.push(match self.random.below(6) {
            0 => Call::Revoke(0),
            1 => return self.list_box(grant.bounds),
            2 => Call::Write(grant.bounds[1], self.random.below(600)),
            _ => Call::Grant(grant),
        });
    }
}

/// A span of staff or doors, or one that ends or begins where it does, or just not there.
fn span_beside(random: &mut Random, span: Span) -> Span {
    match random.below(6) {
        0 => (span.1, span.1),
        1 => (span.1.saturating_add(1), 65535),
        2 => (0, span.0),
        3 => (0, span.0.saturating_sub(1)),
        4 => (0, 65535),
        _ => span,
    }
}

/// Quarters, or those right before or behind them, or that share just one with them; at 0 and 65535 those before or behind cover nothing.
fn quarters_beside(random: &mut Random, quarters: Span) -> Span {
    let (from, to) = quarters;
    match random.below(8) {
        0 => (to, to.saturating_add(1)),
        1 => (to, 65535),
        2 => (0, from),
        3 => (from.saturating_sub(1), from),
        4 => (0, from + 1),
        5 => (to - 1, 65535),
        6 => (0, 65535),
        _ => quarters,
    }
}

/// Makes one grant another, drops one, or adds one.
fn alter(random: &mut Random, grants: &mut Vec<Grant>) {
    if grants.is_empty() {
        return;
    }
    let i = random.below(grants.len());
    match random.below(5) {
        0 => grants[i].rank ^= 1 << random.below(8),
        1 => grants[i].kind ^= 1,
        2 => grants[i].bounds[random.below(3)].1 |= 1 << random.below(16),
        3 => drop(grants.remove(i)),
        _ => {
            let next = grants[i].number.saturating_add(1);
            if grants.iter().all(|grant| grant.number != next) {
                grants.insert(i + 1, Grant { number: next, ..grants[i] });
            }
        }
    }
}

/// At most `most` grants that touch the doors, ascending by number.
pub fn set_of_grants(random: &mut Random, style: Style, most: usize, doors: Span) -> Vec<Grant> {
    let mut grants: Vec<Grant> = (0..random.below(most + 1)).map(|_| style.grant(random)).collect();
    for grant in &mut grants {
        let own = &mut grant.bounds[1];
        *own = (own.0.min(doors.1), own.1.max(doors.0));
        if !random.one_in(20) {
            make_senior(grant);
        }
    }
    grants.sort_by_key(|grant| grant.number);
    grants.dedup_by_key(|grant| grant.number);
    grants
}
