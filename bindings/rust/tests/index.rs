//! What the wrapper adds to the calls: a capacity that no index has is told as one, quarters have a type of their own that says which of
//! them are covered, list's choice is one, and threads share an index by the language's rules. An index's words are as include/lg.h has them.

use locker_grants::{pool, BadCapacity, Bounds, Choice, Decision, Fault, Grant, HalfOpen, Index, Kind};

const EVERYTHING: Bounds = Bounds { staff: (0, 65535), doors: (0, 65535), quarters: HalfOpen { from: 0, until: 65535 } };

fn opens_in(from: u16, until: u16) -> Grant {
    Grant { number: 1, rank: 255, kind: Kind::Opens, bounds: Bounds { quarters: HalfOpen { from, until }, ..EVERYTHING } }
}

#[test]
fn a_capacity_that_no_index_has_is_told() {
    for capacity in [0, 2049, 65535] {
        let refused = Index::new(capacity).unwrap_err();
        assert_eq!(refused.to_string(), format!("an index has 1 to 2,048 cells, not {capacity}"));
        assert_eq!(refused, BadCapacity { capacity });
        assert_eq!(Fault::from(refused), Fault::BadPool);
    }
    for capacity in [1, 2048] {
        assert_eq!(Index::new(capacity).unwrap().count().unwrap().free, capacity as usize);
    }
}

#[test]
fn a_grant_covers_its_quarters_up_to_and_without_until() {
    for covered in [88..120, 0..1, 0..65535, 65534..65535] {
        let grant = opens_in(covered.start, covered.end);
        let mut index = Index::new(1).unwrap();
        index.grant(&grant).unwrap();
        for quarter in 0..=65535 {
            let decided = if covered.contains(&quarter) { Decision::Opens(grant) } else { Decision::None };
            assert_eq!(index.decide(7, 8, quarter), Ok(decided), "{covered:?} at {quarter}");
        }
        assert_eq!(index.list(opens_in(covered.end - 1, covered.end).bounds, Choice::Touching), Ok(vec![1]));
        assert_eq!(index.list(opens_in(0, covered.start + 1).bounds, Choice::Touching), Ok(vec![1]));
    }
}

#[test]
fn boxes_that_follow_each_other_in_time_do_not_overlap() {
    let mut index = Index::new(1).unwrap();
    index.grant(&opens_in(88, 120)).unwrap();
    assert_eq!(index.list(opens_in(120, 121).bounds, Choice::Touching), Ok(vec![]));
    assert_eq!(index.list(opens_in(0, 88).bounds, Choice::Touching), Ok(vec![]));
}

const SHIFT: Bounds = Bounds { staff: (100, 199), doors: (10, 40), quarters: HalfOpen { from: 88, until: 120 } };

/// An index with a grant of the shift, number 1.
fn with_the_shift() -> Index {
    let mut index = Index::new(2).unwrap();
    index.grant(&Grant { number: 1, rank: 10, kind: Kind::Opens, bounds: SHIFT }).unwrap();
    index
}

/// The shift with one end moved by one, outward or inward.
fn moved(end: usize, outward: bool) -> Bounds {
    let by: i32 = if outward { 1 } else { -1 };
    let (lower, higher) = (|end: u16| (i32::from(end) - by) as u16, |end: u16| (i32::from(end) + by) as u16);
    let Bounds { staff, doors, quarters } = SHIFT;
    match end {
        0 => Bounds { staff: (lower(staff.0), staff.1), ..SHIFT },
        1 => Bounds { staff: (staff.0, higher(staff.1)), ..SHIFT },
        2 => Bounds { doors: (lower(doors.0), doors.1), ..SHIFT },
        3 => Bounds { doors: (doors.0, higher(doors.1)), ..SHIFT },
        4 => Bounds { quarters: HalfOpen { from: lower(quarters.from), ..quarters }, ..SHIFT },
        _ => Bounds { quarters: HalfOpen { until: higher(quarters.until), ..quarters }, ..SHIFT },
    }
}

#[test]
fn a_grant_holds_the_boxes_inside_it_and_touches_those_that_it_overlaps() {
    let index = with_the_shift();
    assert_eq!(index.list(SHIFT, Choice::Holding), Ok(vec![1]));
    assert_eq!(index.list(EVERYTHING, Choice::Holding), Ok(vec![]));
    for end in 0..6 {
        for outward in [false, true] {
            let asked = moved(end, outward);
            let held = if outward { vec![] } else { vec![1] };
            assert_eq!(index.list(asked, Choice::Touching), Ok(vec![1]), "{asked:?}");
            assert_eq!(index.list(asked, Choice::Holding), Ok(held), "{asked:?}");
        }
    }
}

#[test]
fn a_list_needs_room_for_the_grants_of_its_choice() {
    let mut index = with_the_shift();
    index.grant(&Grant { number: 2, rank: 255, kind: Kind::Bars, bounds: EVERYTHING }).unwrap();
    let list = |choice, numbers: &mut [u16]| pool::list(index.words(), moved(0, true), choice, numbers);
    let mut one = [7];
    assert_eq!(list(Choice::Touching, &mut one), Err(Fault::ListTooShort { needed: 2 }));
    assert_eq!((list(Choice::Holding, &mut []), one), (Err(Fault::ListTooShort { needed: 1 }), [7]));
    assert_eq!((list(Choice::Holding, &mut one), one), (Ok(1), [2]));
    let mut three = [7; 3];
    assert_eq!((list(Choice::Holding, &mut three), three), (Ok(1), [2, 7, 7]));
    assert_eq!((list(Choice::Touching, &mut three), three), (Ok(2), [1, 2, 7]));
}

#[test]
fn quarters_that_cover_nothing_are_refused() {
    let mut index = Index::new(1).unwrap();
    for (from, until) in [(0, 0), (88, 88), (65535, 65535), (89, 88), (65535, 0)] {
        let nothing = opens_in(from, until);
        assert_eq!(index.grant(&nothing), Err(Fault::Reversed));
        for choice in [Choice::Touching, Choice::Holding] {
            assert_eq!(index.list(nothing.bounds, choice), Err(Fault::Reversed));
        }
    }
    assert_eq!(Fault::Reversed.to_string(), "a span ends before it starts, or quarters cover nothing");
}

#[test]
fn parents_lead_from_each_grant_up_to_the_root() {
    let mut index = Index::new(64).unwrap();
    for number in 1..=64u16 {
        let bounds = Bounds { staff: (number.wrapping_mul(4099), 65535), ..EVERYTHING };
        index.grant(&Grant { number, rank: 255, kind: Kind::Opens, bounds }).unwrap();
    }
    (1..=64).step_by(3).for_each(|number| index.revoke(number).unwrap());
    let words = index.words();
    assert_eq!(words.len(), pool::words(64));
    let cell = |k: u16| &words[3 + 11 * (usize::from(k) - 1)..][..11];
    for live in (1..=64).filter(|k| cell(*k)[2] != 0) {
        let mut k = live;
        while cell(k)[10] != 0 {
            let parent = cell(k)[10];
            assert!(cell(parent)[..2].contains(&k), "cell {parent} has no link to {k}");
            k = parent;
        }
        assert_eq!(k, words[1], "from cell {live}");
    }
}

/// An index after grants of these numbers, each over staff of its own, in this order.
fn granted(capacity: u16, numbers: [u16; 3]) -> Index {
    let mut index = Index::new(capacity).unwrap();
    for number in numbers {
        let bounds = Bounds { staff: (number, number + 9), ..EVERYTHING };
        index.grant(&Grant { number, rank: 255, kind: Kind::Opens, bounds }).unwrap();
    }
    index
}

#[test]
fn the_same_grants_in_another_order_are_written_alike() {
    let (first, mut second) = (granted(3, [1, 2, 3]), granted(3, [3, 1, 2]));
    let larger = granted(9, [2, 3, 1]);
    let file = |index: &Index| index.write((0, 65535)).unwrap();
    assert_ne!(first.words(), second.words());
    assert_eq!(file(&first), file(&second));
    assert_eq!(file(&first), file(&larger));
    second.revoke(2).unwrap();
    assert_ne!(file(&first), file(&second));
}

#[test]
fn readers_share_an_index() {
    let mut index = Index::new(64).unwrap();
    for number in 1..=64 {
        index.grant(&Grant { number, rank: 255, kind: Kind::Opens, bounds: EVERYTHING }).unwrap();
    }
    let index = &index;
    std::thread::scope(|threads| {
        for _ in 0..4 {
            threads.spawn(|| {
                for _ in 0..100 {
                    for choice in [Choice::Touching, Choice::Holding] {
                        assert_eq!(index.list(EVERYTHING, choice).unwrap(), (1..=64).collect::<Vec<u16>>());
                    }
                }
            });
        }
    });
}
