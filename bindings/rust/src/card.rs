//! Find cards, written and read. Read error.rs next.

use crate::{sys, Error};

/// A find card: a message body that every reader understands alike. The find number is always there, any other field may be missing.
///
/// A card has one encoding, and nothing else is read as a card, so two cards are equal exactly if their bytes are.
///
/// ```
/// use logbuffer::{Card, Error, Log};
///
/// let card = Card { trench: Some(4), weight: Some(125), note: Some(b"rim"), ..Card::new(1001) };
/// let mut log = Log::builder().open()?;
/// log.offer(&card.to_bytes()?)?;
///
/// let message = log.replay().next().expect("one was offered")?;
/// assert_eq!(Card::try_from(&message[..])?, card);
/// # Ok::<(), Error>(())
/// ```
#[derive(Clone, Copy, Debug, Default, PartialEq, Eq, Hash)]
pub struct Card<'a> {
    /// The find number.
    pub find: u32,
    /// The trench it was found in.
    pub trench: Option<u16>,
    /// The context there.
    pub context: Option<u16>,
    /// The material, 1 to 9.
    pub material: Option<u8>,
    /// The weight, in tenths of a gram.
    pub weight: Option<u32>,
    /// A note of 1 to 255 bytes. Of a card that was read it is a part of the bytes.
    pub note: Option<&'a [u8]>,
}

// The bits of the first byte. Bit 0, the find number's, is always on; bits 6 and 7 never are.
const FIND: u8 = 1;
const TRENCH: u8 = 1 << 1;
const CONTEXT: u8 = 1 << 2;
const MATERIAL: u8 = 1 << 3;
const WEIGHT: u8 = 1 << 4;
const NOTE: u8 = 1 << 5;

impl<'a> Card<'a> {
    /// The bytes of the shortest card, a find number alone.
    pub const MIN_LENGTH: usize = 5;

    /// The bytes of the longest card, all fields and a note of 255 bytes.
    pub const MAX_LENGTH: usize = 270;

    /// A card with a find number alone.
    ///
    /// ```
    /// use logbuffer::Card;
    /// assert_eq!(Card::new(7).to_bytes(), Ok(vec![1, 7, 0, 0, 0]));
    /// ```
    pub fn new(find: u32) -> Card<'a> {
        Card { find, ..Card::default() }
    }

    /// Writes the card at the start of `out` and answers its length; what lies behind it stays. Refuses a material or a note out of its
    /// range with [`Error::BrokenCard`], then an output that is too short with [`Error::IllegalArgument`], and then has written nothing.
    ///
    /// ```
    /// use logbuffer::{Card, Error};
    ///
    /// let card = Card { material: Some(3), ..Card::new(7) };
    /// let mut out = [255; 8];
    /// assert_eq!(card.write(&mut out), Ok(6));
    /// assert_eq!(out, [9, 7, 0, 0, 0, 3, 255, 255]);
    /// assert_eq!(card.write(&mut out[..5]), Err(Error::IllegalArgument));
    /// assert_eq!(Card { material: Some(10), ..card }.write(&mut out), Err(Error::BrokenCard));
    /// ```
    pub fn write(&self, out: &mut [u8]) -> Result<usize, Error> {
        let bits = FIND
            | self.trench.map_or(0, |_| TRENCH)
            | self.context.map_or(0, |_| CONTEXT)
            | self.material.map_or(0, |_| MATERIAL)
            | self.weight.map_or(0, |_| WEIGHT)
            | self.note.map_or(0, |_| NOTE);
        let card = sys::Card {
            bits,
            find: self.find,
            trench: self.trench.unwrap_or(0),
            context: self.context.unwrap_or(0),
            material: self.material.unwrap_or(0),
            weight: self.weight.unwrap_or(0),
        };
        let reply = sys::card_write(card, self.note.unwrap_or(&[]), out);
        Error::check(reply.code).map(|()| reply.length)
    }

    /// The card's bytes, [`MIN_LENGTH`](Card::MIN_LENGTH) to [`MAX_LENGTH`](Card::MAX_LENGTH) of them. Refuses a material or a note out
    /// of its range with [`Error::BrokenCard`].
    ///
    /// ```
    /// use logbuffer::{Card, Error};
    /// assert_eq!(Card { note: Some(b"hi"), ..Card::new(7) }.to_bytes(), Ok(vec![33, 7, 0, 0, 0, 2, b'h', b'i']));
    /// assert_eq!(Card { note: Some(b""), ..Card::new(7) }.to_bytes(), Err(Error::BrokenCard));
    /// ```
    pub fn to_bytes(&self) -> Result<Vec<u8>, Error> {
        let mut bytes = vec![0; Card::MAX_LENGTH];
        let length = self.write(&mut bytes)?;
        bytes.truncate(length);
        Ok(bytes)
    }

    /// Reads a card: just what [`write`](Card::write) makes, to the last byte. Refuses anything else with [`Error::BrokenCard`], and more
    /// than 2147483647 bytes with [`Error::IllegalArgument`].
    ///
    /// ```
    /// use logbuffer::{Card, Error};
    ///
    /// let bytes = [33, 7, 0, 0, 0, 2, b'h', b'i'];
    /// let card = Card::read(&bytes)?;
    /// assert_eq!((card.find, card.trench, card.note), (7, None, Some(&bytes[6..])));
    /// assert_eq!(Card::read(&bytes[..7]), Err(Error::BrokenCard));
    /// # Ok::<(), Error>(())
    /// ```
    pub fn read(bytes: &'a [u8]) -> Result<Card<'a>, Error> {
        let reply = sys::card_read(bytes);
        Error::check(reply.code)?;
        let card = reply.card;
        let has = |bit| card.bits & bit != 0;
        Ok(Card {
            find: card.find,
            trench: has(TRENCH).then_some(card.trench),
            context: has(CONTEXT).then_some(card.context),
            material: has(MATERIAL).then_some(card.material),
            weight: has(WEIGHT).then_some(card.weight),
            note: has(NOTE).then(|| &bytes[reply.note_start..reply.note_start + reply.note_length]),
        })
    }
}

impl<'a> TryFrom<&'a [u8]> for Card<'a> {
    type Error = Error;

    /// As [`read`](Card::read).
    fn try_from(bytes: &'a [u8]) -> Result<Card<'a>, Error> {
        Card::read(bytes)
    }
}

impl TryFrom<Card<'_>> for Vec<u8> {
    type Error = Error;

    /// As [`to_bytes`](Card::to_bytes).
    fn try_from(card: Card<'_>) -> Result<Vec<u8>, Error> {
        card.to_bytes()
    }
}
