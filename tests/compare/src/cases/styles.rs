//! Random grants and boxes of several styles: each run of calls keeps to one, so that grants meet each other.

use crate::cases::random::Random;
use crate::interface::grant::{Bounds, Grant, Span, DOORS, EVERYTHING, LAST_COVERED, LAST_QUARTER, QUARTERS};
use crate::oracle::arguments::rank_too_low;
use crate::oracle::wrong::Wrong;

/// Values at which something changes side.
const ENDS: [u16; 10] = [0, 1, 2, 32766, 32767, 32768, 32769, 65533, 65534, 65535];

#[derive(Clone, Copy)]
enum Values {
    Uniform,
    Ends,
    Few,
    /// All but the lowest bits shared.
    Prefix(u16),
    Points,
    OneBox(Bounds),
    Wide,
}

#[derive(Clone, Copy)]
enum Numbers {
    Few(usize),
    Uniform,
    Ends,
    /// Shared leading bits with one number, many or few of them.
    Near(u16),
}

#[derive(Clone, Copy)]
pub struct Style {
    values: Values,
    numbers: Numbers,
    ranks: u8,
}

impl Style {
    pub fn any(random: &mut Random, capacity: usize) -> Style {
        let base = random.word();
        let values = match random.below(7) {
            0 => Values::Uniform,
            1 => Values::Ends,
            2 => Values::Few,
            3 => Values::Prefix(base & 0xFFF0),
            4 => Values::Points,
            5 => Values::OneBox(Style::uniform().bounds(random)),
            _ => Values::Wide,
        };
        let numbers = match random.below(4) {
            0 => Numbers::Uniform,
            1 => Numbers::Near(random.pick(&[base, 1, 32767, 32768, 65535])),
            2 if capacity < ENDS.len() => Numbers::Ends,
            _ => Numbers::Few(capacity * 2),
        };
        Style { values, numbers, ranks: random.pick(&[1, 3, 255]) }
    }

    pub fn uniform() -> Style {
        Style { values: Values::Uniform, numbers: Numbers::Uniform, ranks: 255 }
    }

    /// One box and numbers that share ever more leading bits: the deepest trees.
    pub fn deep(random: &mut Random) -> Style {
        Style { values: Values::OneBox(EVERYTHING), numbers: Numbers::Near(random.word()), ranks: 2 }
    }

    fn value(&self, random: &mut Random) -> u16 {
        match self.values {
            Values::Uniform | Values::OneBox(_) | Values::Wide => random.word(),
            Values::Ends => random.pick(&ENDS),
            Values::Few | Values::Points => random.below(8) as u16,
            Values::Prefix(base) => base | random.below(16) as u16,
        }
    }

    pub fn span(&self, random: &mut Random) -> Span {
        let (a, b) = (self.value(random), self.value(random));
        match self.values {
            Values::Points => (a, a),
            Values::Wide => (a.min(b) / 4, a.max(b) / 4 * 3),
            _ => (a.min(b), a.max(b)),
        }
    }

    /// Quarters of which the first and the last are a span's, as far as a grant can cover them: half-open, so that one is covered at
    /// least, and a later one may begin where they end.
    fn quarters(&self, random: &mut Random) -> Span {
        let (first, last) = self.span(random);
        (first.min(LAST_COVERED), last.min(LAST_COVERED) + 1)
    }

    pub fn bounds(&self, random: &mut Random) -> Bounds {
        match self.values {
            Values::OneBox(bounds) => bounds,
            _ => [self.span(random), self.span(random), self.quarters(random)],
        }
    }

    /// A number from 1.
    pub fn number(&self, random: &mut Random) -> u16 {
        let number = match self.numbers {
            Numbers::Few(end) => random.below(end) as u16 + 1,
            Numbers::Uniform => random.word(),
            Numbers::Ends => random.pick(&ENDS),
            Numbers::Near(number) => number ^ (random.word() >> random.below(16)),
        };
        number.max(1)
    }

    pub fn grant(&self, random: &mut Random) -> Grant {
        let rank = match self.ranks {
            255 => random.byte(),
            ranks => random.below(usize::from(ranks)) as u8,
        };
        let bounds = self.bounds(random);
        let mut grant = Grant { number: self.number(random), rank, kind: random.below(2) as u8, bounds };
        match random.below(16) {
            0 => at_the_bound(random, &mut grant),
            1 => {}
            _ => make_senior(&mut grant),
        }
        grant
    }

    /// A point to ask at: an end of a box, or right beside it.
    pub fn point(&self, random: &mut Random) -> [u16; 3] {
        let [staff, doors, quarters] = self.bounds(random);
        let mut near = |span: Span| random.pick(&[span.0, span.1, span.0.saturating_sub(1), span.1.saturating_add(1)]);
        [near(staff), near(doors), quarter_near(random, quarters)]
    }
}

/// A quarter to ask at: the first or the last that is covered, the one before or behind them, or one of the last two there are.
pub fn quarter_near(random: &mut Random, quarters: Span) -> u16 {
    let (first, last) = (quarters.0, quarters.1.saturating_sub(1));
    random.pick(&[first, first, last, last, first.saturating_sub(1), quarters.1, LAST_COVERED, LAST_QUARTER])
}

/// Raises a rank that is too low for its doors; equal ranks stay equal.
pub fn make_senior(grant: &mut Grant) {
    if rank_too_low(grant.rank, grant.bounds[DOORS], Wrong::Nothing) {
        grant.rank = 200 + grant.rank % 56;
    }
}

/// A rank that is just too low or just not, with doors of which there are just too many or just not.
fn at_the_bound(random: &mut Random, grant: &mut Grant) {
    grant.rank = random.pick(&[199, 200]);
    grant.bounds[DOORS] = widened(random, grant.bounds[DOORS], &[999, 1000]);
}

/// Doors from the same first one on, or ending with the last there is.
fn widened(random: &mut Random, doors: Span, apart: &[u16]) -> Span {
    let apart = random.pick(apart);
    let from = doors.0.min(65535 - apart);
    (from, from + apart)
}

/// Puts one or several faults into a grant that is to be an argument: number 0, kind above 1, a rank too low for its doors, a span
/// reversed, quarters equal.
pub fn spoil(random: &mut Random, grant: &mut Grant) {
    let faults = 1 + random.below(15);
    if faults & 8 != 0 {
        grant.rank %= 200;
        grant.bounds[DOORS] = widened(random, grant.bounds[DOORS], &[1000, 1001, 40000, 65535]);
    }
    if faults & 1 != 0 {
        grant.number = 0;
    }
    if faults & 2 != 0 {
        grant.kind = random.byte() | 2;
    }
    if faults & 4 != 0 {
        let which = random.below(3);
        let span = &mut grant.bounds[which];
        let end = random.pick(&[span.0, span.1, 0, LAST_QUARTER]);
        *span = match which == QUARTERS && random.one_in(2) {
            true => (end, end),
            false => (span.0 | 1, span.0 & 0xFFFE),
        };
    }
}
