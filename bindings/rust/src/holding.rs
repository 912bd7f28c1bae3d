//! Which card holds: for each field of a find the last card that has it. Read card.rs for the cards, tally.rs for the walk.

use crate::log::Bytes;
use crate::sys;
use crate::{Error, Log, Stop};

/// A field of the card that holds, and the position at the end of the message that it is from.
#[derive(Clone, Debug, PartialEq, Eq, Hash)]
pub struct Field<T> {
    /// The field of the last card that has it.
    pub value: T,
    /// The end of that card's message, as its offer answered it.
    pub end: i64,
}

/// What holds of a find: each field from the last card that has it, and where the walk ended.
#[derive(Clone, Debug, PartialEq, Eq, Hash)]
#[non_exhaustive]
pub struct Holding {
    /// The find number, with the end of the last of its cards.
    pub find: Field<u32>,
    /// The trench it was found in.
    pub trench: Option<Field<u16>>,
    /// The context there.
    pub context: Option<Field<u16>>,
    /// The material, 1 to 9.
    pub material: Option<Field<u8>>,
    /// The weight, in tenths of a gram.
    pub weight: Option<Field<u32>>,
    /// A note of 1 to 255 bytes.
    pub note: Option<Field<Vec<u8>>>,
    /// The position where the walk ended.
    pub end: i64,
    /// Why it ended there.
    pub stop: Stop,
}

impl<B: Bytes> Log<B> {
    /// What holds of a find between two positions, taken as [`Log::tally`] takes them and refused alike: of its cards there, each field from the last that has
    /// it. Refuses with [`Error::NoCard`] and the position where the walk ended if there is no card of the find.
    ///
    /// ```
    /// use logbuffer::{Card, Error, Field, Log, Stop};
    ///
    /// let mut log = Log::builder().open()?;
    /// let found = log.offer(&Card { trench: Some(4), weight: Some(125), ..Card::new(1001) }.to_bytes()?)?;
    /// let weighed = log.offer(&Card { weight: Some(118), ..Card::new(1001) }.to_bytes()?)?;
    /// log.offer(&Card { weight: Some(900), ..Card::new(1002) }.to_bytes()?)?;
    ///
    /// let holding = log.holding(1001, 0, 65_536)?;
    /// assert_eq!(holding.trench, Some(Field { value: 4, end: found }));
    /// assert_eq!(holding.weight, Some(Field { value: 118, end: weighed }));
    /// assert_eq!((holding.note, holding.end, holding.stop), (None, 192, Stop::Free));
    /// assert_eq!(log.holding(1003, 0, weighed), Err(Error::NoCard(weighed)));
    /// # Ok::<(), Error>(())
    /// ```
    pub fn holding(&self, find: u32, from: i64, to: i64) -> Result<Holding, Error> {
        let reply = sys::holding(&self.record, self.bytes.as_ref(), find, from, to);
        if reply.code == 24 {
            return Err(Error::NoCard(reply.position));
        }
        Error::check_frame(reply.code, self.partition_at(from), reply.position as usize)?;
        let sys::HoldingReply { card, ends, .. } = reply;
        Ok(Holding {
            find: Field { value: card.find, end: ends.find as i64 },
            trench: field(card.trench, ends.trench),
            context: field(card.context, ends.context),
            material: field(card.material, ends.material),
            weight: field(card.weight, ends.weight),
            note: field(reply.note[..reply.note_length].to_vec(), ends.note),
            end: reply.position,
            stop: Stop::of(reply.stop, reply.writing),
        })
    }
}

/// A field that is there has an end.
fn field<T>(value: T, end: usize) -> Option<Field<T>> {
    (end != 0).then_some(Field { value, end: end as i64 })
}
