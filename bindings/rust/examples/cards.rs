//! Find cards in a log: three are offered, one is written in place, and a message that is no card stands between them. A reader takes
//! the cards out again and adds up what they weigh. `cargo run --example cards`; what it prints stands in cards.txt.

use logbuffer::{Card, Error, Log};

/// Writes a card straight into the log, with no copy of its bytes elsewhere.
fn claim(log: &mut Log, card: &Card) -> Result<i64, Error> {
    let length = card.to_bytes()?.len();
    let mut claim = log.try_claim(length)?;
    card.write(&mut claim)?;
    let position = claim.position();
    claim.commit()?;
    Ok(position)
}

fn show(card: &Card) {
    print!("find {}:", card.find);
    let numbers = [
        ("trench", card.trench.map(u32::from)),
        ("context", card.context.map(u32::from)),
        ("material", card.material.map(u32::from)),
    ];
    for (name, number) in numbers {
        if let Some(number) = number {
            print!(" {name} {number}");
        }
    }
    if let Some(weight) = card.weight {
        print!(" {}.{} g", weight / 10, weight % 10);
    }
    if let Some(note) = card.note {
        print!(" \"{}\"", String::from_utf8_lossy(note));
    }
    println!();
}

fn main() -> Result<(), Error> {
    let mut log = Log::builder().term_length(65_536).mtu_length(96).session_id(11).stream_id(22).open()?;

    let coin = Card { trench: Some(4), context: Some(17), material: Some(2), weight: Some(38), ..Card::new(1001) };
    let sherd = Card { weight: Some(1_250), note: Some(b"rim, perhaps of 1003"), ..Card::new(1002) };
    println!("coin: {:?} at {}", coin.to_bytes()?, log.offer(&coin.to_bytes()?)?);
    println!("sherd: {} bytes at {}", sherd.to_bytes()?.len(), claim(&mut log, &sherd)?);
    println!("a greeting at {}", log.offer(b"good morning")?);
    println!("pin: at {}", log.offer(&Card::new(1003).to_bytes()?)?);
    let long = "found while sieving; ".repeat(12);
    let bead = Card { material: Some(9), note: Some(long.as_bytes()), ..Card::new(1004) };
    println!("bead: {} bytes, cut into frames, at {}", bead.to_bytes()?.len(), log.offer(&bead.to_bytes()?)?);
    println!("material 10: {}", Card { material: Some(10), ..coin }.to_bytes().unwrap_err());

    let (mut weight, mut replay) = (0, log.replay());
    while let Some(message) = replay.next_message() {
        match Card::read(message?) {
            Ok(card) => {
                weight += card.weight.unwrap_or(0);
                show(&card);
            }
            Err(Error::BrokenCard) => println!("passed over: no card"),
            Err(error) => return Err(error),
        }
    }
    println!("together {}.{} g", weight / 10, weight % 10);
    Ok(())
}
