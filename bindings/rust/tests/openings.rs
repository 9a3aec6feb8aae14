//! What the wrapper adds to the comparison of two records: the bytes of an entry, and the three numbers of the answer by name.

use locker_grants::{compare_openings, Comparison, Fault, Opening};

const OPENING: Opening = Opening { door: 0x0102, quarter: 0x0304, staff: 0x0506_0708 };

fn entry(door: u16, quarter: u16, staff: u32) -> [u8; 8] {
    Opening { door, quarter, staff }.to_bytes()
}

#[test]
fn an_entry_is_door_quarter_and_staff_with_the_high_byte_first() {
    assert_eq!(OPENING.to_bytes(), [1, 2, 3, 4, 5, 6, 7, 8]);
    let top = Opening { door: u16::MAX, quarter: 0, staff: u32::MAX };
    for opening in [OPENING, top, Opening { quarter: u16::MAX, ..OPENING }] {
        assert_eq!(Opening::from_bytes(opening.to_bytes()), opening);
    }
}

#[test]
fn each_number_of_the_answer_stands_under_its_name() {
    let twice = [entry(9, 5, 70), entry(1, 5, 80), entry(9, 5, 70)].concat();
    let once = [entry(9, 5, 70), entry(2, 5, 80), entry(3, 5, 80), entry(4, 65535, 4_294_967_295)].concat();
    assert_eq!(compare_openings(&twice, &once), Ok(Comparison { agree: 1, left_in_door: 2, left_in_panel: 3 }));
    assert_eq!(compare_openings(&once, &twice), Ok(Comparison { agree: 1, left_in_door: 3, left_in_panel: 2 }));
    let full = entry(1, 2, 3).repeat(4096);
    assert_eq!(compare_openings(&full, &full), Ok(Comparison { agree: 4096, left_in_door: 0, left_in_panel: 0 }));
    assert_eq!(compare_openings(&full, &[]), Ok(Comparison { agree: 0, left_in_door: 4096, left_in_panel: 0 }));
    assert_eq!(compare_openings(&[], &full), Ok(Comparison { agree: 0, left_in_door: 0, left_in_panel: 4096 }));
}

#[test]
fn a_refusal_is_told_by_its_name_and_sentence() {
    let falling = [entry(1, 6, 3), entry(1, 5, 3)].concat();
    let length = compare_openings(&falling, &[0; 7]).unwrap_err();
    assert_eq!((length, length.number()), (Fault::BadOpeningsLength, 24));
    assert_eq!(length.to_string(), "a record is not whole entries, or has more than 4096");
    let order = compare_openings(&[0; 8], &falling).unwrap_err();
    assert_eq!((order, order.number()), (Fault::UnorderedQuarters, 25));
    assert_eq!(order.to_string(), "a quarter in a record is below the one before it");
}
