//! Which card holds: a find is weighed again, renamed, and moved to another context, each on a card that has just what is new. For each field the last card
//! that has it holds. `cargo run --example holding`; what it prints stands in holding.txt.

use logbuffer::{Card, Error, Field, Holding, Log};
use std::fmt::Display;

fn row(name: &str, field: Option<Field<impl Display>>) {
    match field {
        Some(Field { value, end }) => println!("  {name:<9}{value}, of the card that ends at {end}"),
        None => println!("  {name:<9}not known"),
    }
}

fn show(holding: Holding) {
    row("find", Some(holding.find));
    row("trench", holding.trench);
    row("context", holding.context);
    row("material", holding.material);
    row(
        "weight",
        holding.weight.map(|field| Field { value: format!("{}.{} g", field.value / 10, field.value % 10), end: field.end }),
    );
    row("note", holding.note.map(|field| Field { value: String::from_utf8_lossy(&field.value).into_owned(), end: field.end }));
    println!("  the walk ended at {}: {}", holding.end, holding.stop);
}

fn main() -> Result<(), Error> {
    let mut log = Log::builder().term_length(65_536).mtu_length(96).session_id(11).stream_id(22).open()?;
    let offer = |log: &mut Log, what: &str, card: Card| -> Result<i64, Error> {
        let end = log.offer(&card.to_bytes()?)?;
        println!("{what}: {end}");
        Ok(end)
    };
    let found = Card { trench: Some(4), context: Some(17), weight: Some(38), note: Some(b"a coin"), ..Card::new(1001) };
    let first = offer(&mut log, "found", found)?;
    offer(&mut log, "another find", Card { weight: Some(1_250), ..Card::new(1002) })?;
    let weighed = offer(&mut log, "weighed again", Card { weight: Some(36), ..Card::new(1001) })?;
    log.offer(b"good morning")?;
    let renamed = Card {
        note: Some(b"a pendant, pierced above the head and worn on one side, that was taken for a coin"),
        ..Card::new(1001)
    };
    offer(&mut log, "renamed", renamed)?;
    offer(&mut log, "moved", Card { context: Some(19), ..Card::new(1001) })?;

    println!("what holds:");
    show(log.holding(1001, 0, 65_536)?);
    println!("what held when it was weighed:");
    show(log.holding(1001, 0, weighed)?);
    println!("what is new since it was found:");
    show(log.holding(1001, first, 65_536)?);
    println!("find 1003: {}", log.holding(1003, 0, 65_536).unwrap_err());
    Ok(())
}
