//! Which card holds: messages whole and in frames, over the end of a term, runs that are broken off, and the order of the refusals.

mod common;

use common::{log, made, put_frame, TERM};
use logbuffer::{Card, Error, Field, Log, Place, Stop};

const END: i64 = TERM as i64;

fn field<T>(value: T, end: i64) -> Option<Field<T>> {
    Some(Field { value, end })
}

fn weighs(find: u32, weight: u32) -> Vec<u8> {
    Card { weight: Some(weight), ..Card::new(find) }.to_bytes().unwrap()
}

/// A log of frames one behind the other: flags, type and body. They are of the first term and of session 11 and 12 in turn.
fn frames(list: &[(u8, u8, &[u8])]) -> Log {
    made(|_, bytes| {
        let mut at = 0;
        for (k, (flags, kind, body)) in list.iter().enumerate() {
            put_frame(bytes, at, 32 + body.len() as i32, *flags, 11 + k as i32 % 2);
            bytes[at + 6] = *kind;
            bytes[at + 20] = 7;
            bytes[at + 32..at + 32 + body.len()].copy_from_slice(body);
            at += (32 + body.len()).next_multiple_of(32);
        }
    })
    .unwrap()
}

#[test]
fn each_field_is_of_the_last_card_that_has_it() {
    let mut log = log();
    let first =
        Card { trench: Some(4), context: Some(17), material: Some(2), weight: Some(38), note: Some(b"rim"), ..Card::new(7) };
    let found = log.offer(&first.to_bytes().unwrap()).unwrap();
    let weighed = log.offer(&weighs(7, 36)).unwrap();
    log.offer(&weighs(8, 1)).unwrap();
    let moved = log.offer(&Card { context: Some(19), ..Card::new(7) }.to_bytes().unwrap()).unwrap();
    let holding = log.holding(7, 0, END).unwrap();
    assert_eq!(holding.find, Field { value: 7, end: moved });
    assert_eq!((holding.trench, holding.context, holding.material), (field(4, found), field(19, moved), field(2, found)));
    assert_eq!((holding.weight, holding.note), (field(36, weighed), field(b"rim".to_vec(), found)));
    assert_eq!((holding.end, holding.stop), (moved, Stop::Free));
    let earlier = log.holding(7, 0, weighed).unwrap();
    assert_eq!((earlier.context, earlier.stop), (field(17, found), Stop::Reached));
    let later = log.holding(7, weighed, END).unwrap();
    assert_eq!((later.trench, later.context, later.weight, later.note), (None, field(19, moved), None, None));
}

#[test]
fn the_longest_note_comes_in_frames_and_over_the_end_of_a_term() {
    let mut log = log();
    let note = [b'x'; 255];
    let card = Card { trench: Some(1), context: Some(2), material: Some(3), weight: Some(4), note: Some(&note), ..Card::new(7) };
    while log.position().unwrap() < 2 * END {
        let _ = log.offer(&card.to_bytes().unwrap());
    }
    let end = log.position().unwrap();
    let holding = log.holding(7, 0, end).unwrap();
    assert_eq!((holding.note.unwrap().value, holding.end), (note.to_vec(), end));
    // four frames of 96 and one of 64; from the second on there is no run
    assert_eq!(log.holding(7, 0, 448).unwrap().find, Field { value: 7, end: 448 });
    assert_eq!(log.holding(7, 96, 448), Err(Error::NoCard(448)));
}

#[test]
fn runs_are_of_any_session_and_broken_by_padding_and_by_another_begin_frame() {
    let card = weighs(7, 36);
    let (a, b) = card.split_at(4);
    let whole = |list: &[(u8, u8, &[u8])]| frames(list).holding(7, 0, END).map(|holding| holding.weight.unwrap());
    let held = |end| Ok(Field { value: 36, end });
    assert_eq!(whole(&[(0xc0, 1, &card)]), held(64));
    assert_eq!(whole(&[(0x80, 1, a), (0x40, 1, b)]), held(128));
    assert_eq!(whole(&[(0x80, 1, &[]), (0, 1, a), (0, 1, b), (0x40, 1, &[])]), held(192));
    assert_eq!(whole(&[(0x80, 1, b"no"), (0x80, 1, a), (0x40, 1, b)]), held(192));
    assert_eq!(whole(&[(0x40, 1, a), (0, 1, a), (0xc0, 1, &card), (0x40, 1, b)]), held(192));
    // padding, an unfragmented frame, or no begin frame
    assert_eq!(whole(&[(0x80, 1, a), (0xc0, 0, &[0; 8]), (0x40, 1, b)]), Err(Error::NoCard(192)));
    assert_eq!(whole(&[(0x80, 1, a), (0xc0, 1, b"no"), (0x40, 1, b)]), Err(Error::NoCard(192)));
    assert_eq!(whole(&[(0, 1, a), (0x40, 1, b)]), Err(Error::NoCard(128)));
    // a run of 271 bytes is no card, nor is one that ends as a card does
    let long = [&[0; 262][..], &card].concat();
    assert_eq!(whole(&[(0x80, 1, &long[..200]), (0x40, 1, &long[200..])]), Err(Error::NoCard(384)));
    assert_eq!(whole(&[(0x80, 1, &[0; 300]), (0, 1, a), (0x40, 1, b)]), Err(Error::NoCard(480)));
}

#[test]
fn open_and_aborted_claims_are_no_cards() {
    let mut log = log();
    let mut claim = log.try_claim(9).unwrap();
    claim.copy_from_slice(&weighs(7, 36));
    claim.abort().unwrap();
    assert_eq!(log.holding(7, 0, END), Err(Error::NoCard(64)));
    let mut claim = log.try_claim(9).unwrap();
    claim.copy_from_slice(&weighs(7, 36));
    let open = claim.into_open();
    assert_eq!(log.holding(7, 0, END), Err(Error::NoCard(64)));
    log.commit(open).unwrap();
    assert_eq!(log.holding(7, 0, END).unwrap().weight, field(36, 128));
}

#[test]
fn it_refuses_as_the_tally_does_and_24_after_that() {
    let empty = log();
    assert_eq!(empty.holding(7, 32, 0), Err(Error::IllegalArgument));
    assert_eq!(empty.holding(7, 0, 8), Err(Error::PositionOutOfRange));
    assert_eq!(empty.holding(7, 0, END), Err(Error::NoCard(0)));
    assert_eq!(empty.holding(7, 32, 32), Err(Error::NoCard(32)));
    let card = weighs(7, 36);
    let mut broken = frames(&[(0xc0, 1, &card)]);
    assert_eq!(broken.holding(7, 0, END).unwrap().stop, Stop::Free);
    broken = made(|_, bytes| put_frame(bytes, 64, 5, 0xc0, 11)).unwrap();
    assert_eq!(broken.holding(7, 64, END), Err(Error::FrameTooShort(Place { partition: Some(0), offset: 64 })));
}
