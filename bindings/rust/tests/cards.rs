//! Find cards: every field alone and all together, the edges of each, bytes that are no card, and cards that go through a log.

use logbuffer::{Card, Error, Log};
use std::collections::HashSet;

const ALL: Card = Card {
    find: 0x0403_0201,
    trench: Some(0x0605),
    context: Some(0x0807),
    material: Some(9),
    weight: Some(0x0c0b_0a09),
    note: Some(b"hi"),
};

#[test]
fn every_field_has_its_bytes() {
    let find = Card::new(0x0403_0201);
    let singles: [(Card, &[u8]); 7] = [
        (find, &[1, 1, 2, 3, 4]),
        (Card { trench: Some(0x0605), ..find }, &[3, 1, 2, 3, 4, 5, 6]),
        (Card { context: Some(0x0807), ..find }, &[5, 1, 2, 3, 4, 7, 8]),
        (Card { material: Some(9), ..find }, &[9, 1, 2, 3, 4, 9]),
        (Card { weight: Some(0x0c0b_0a09), ..find }, &[17, 1, 2, 3, 4, 9, 10, 11, 12]),
        (Card { note: Some(b"hi"), ..find }, &[33, 1, 2, 3, 4, 2, b'h', b'i']),
        (ALL, &[63, 1, 2, 3, 4, 5, 6, 7, 8, 9, 9, 10, 11, 12, 2, b'h', b'i']),
    ];
    for (card, bytes) in singles {
        assert_eq!(card.to_bytes(), Ok(bytes.to_vec()));
        assert_eq!(Vec::try_from(card), Ok(bytes.to_vec()));
        assert_eq!(Card::read(bytes), Ok(card));
        assert_eq!(Card::try_from(bytes), Ok(card));
        for cut in 0..bytes.len() {
            assert_eq!(Card::read(&bytes[..cut]), Err(Error::BrokenCard));
        }
        assert_eq!(Card::read(&[bytes, &[0]].concat()), Err(Error::BrokenCard));
    }
}

#[test]
fn a_note_is_a_part_of_the_bytes() {
    let bytes = ALL.to_bytes().unwrap();
    let note = Card::read(&bytes).unwrap().note.unwrap();
    assert_eq!(note.as_ptr(), bytes[15..].as_ptr());
}

#[test]
fn edges() {
    let longest = Card { note: Some(&[7; 255]), ..ALL };
    assert_eq!(longest.to_bytes().map(|bytes| bytes.len()), Ok(Card::MAX_LENGTH));
    assert_eq!(Card::default().to_bytes(), Ok(vec![1, 0, 0, 0, 0]));
    assert_eq!(Card::default().to_bytes().map(|bytes| bytes.len()), Ok(Card::MIN_LENGTH));
    for material in 0..=255 {
        let card = Card { material: Some(material), ..Card::new(u32::MAX) };
        assert_eq!(card.to_bytes().is_ok(), (1..=9).contains(&material));
    }
    for broken in [Card { note: Some(b""), ..ALL }, Card { note: Some(&[7; 256]), ..ALL }, Card { material: Some(10), ..ALL }] {
        assert_eq!(broken.to_bytes(), Err(Error::BrokenCard));
        assert_eq!(broken.write(&mut []), Err(Error::BrokenCard)); // before the output's length
    }
}

#[test]
fn a_refused_write_writes_nothing_and_an_accepted_one_leaves_the_rest() {
    let mut out = [255; 20];
    assert_eq!(ALL.write(&mut out[..16]), Err(Error::IllegalArgument));
    assert_eq!(Card { material: Some(0), ..ALL }.write(&mut out), Err(Error::BrokenCard));
    assert_eq!(out, [255; 20]);
    assert_eq!(ALL.write(&mut out), Ok(17));
    assert_eq!(out[17..], [255; 3]);
}

#[test]
fn no_other_first_byte_is_a_cards() {
    for bits in 0..=255u8 {
        let accepted = (0..=270).filter(|length| {
            let mut bytes = vec![1; *length];
            bytes.iter_mut().take(1).for_each(|first| *first = bits);
            Card::read(&bytes).is_ok()
        });
        assert_eq!(accepted.count(), usize::from(bits < 64 && bits % 2 == 1));
    }
}

#[test]
fn cards_go_through_a_log_and_into_a_set() {
    let mut log = Log::builder().mtu_length(96).open().unwrap();
    let long = Card { note: Some(&[b'x'; 255]), ..ALL }; // in fragments
    let cards = [Card::new(1), ALL, long, Card::new(1)];
    for card in &cards {
        log.offer(&card.to_bytes().unwrap()).unwrap();
    }
    let messages: Vec<_> = log.replay().collect::<Result<_, _>>().unwrap();
    let read: Vec<_> = messages.iter().map(|message| Card::read(message).unwrap()).collect();
    assert_eq!(read, cards);
    assert_eq!(read.iter().collect::<HashSet<_>>().len(), 3);
}

#[test]
#[ignore = "takes 2 GiB of address space"]
fn illegal_argument_1_for_bytes_over_2147483647() {
    assert_eq!(Card::read(&vec![0; 1 << 31]), Err(Error::IllegalArgument));
}
