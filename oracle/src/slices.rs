//! Slices over 2147483647, which document 01's row 1 refuses: each lent slice once at that length and once one longer.
//! The memory is asked for and not touched. Only the port runs: the Rust counts in i32.

use crate::calls::Call;
use crate::port::Port;
use crate::world::{Start, World};

const MOST: usize = 2_147_483_647;

/// Calls that lend so many, and the number expected of them.
fn probes(length: usize) -> Vec<(Call, i32)> {
    let number = (length > MOST) as i32;
    let message = || vec![0; length];
    let poll = |entries| Call::Poll { image: 0, entries, fragment_limit: 1 };
    // A long message that is let through refuses later, by its own length; zeros are no action, so those refuse 1 anyway.
    let later = |code: i32| if number == 1 { 1 } else { code };
    vec![
        (Call::Offer { message: message(), reserved_value: 0 }, later(10)),
        (Call::AppendUnfragmented { partition: 0, message: message(), reserved_value: 0, term_id: 7 }, later(11)),
        (
            Call::AppendFragmented { partition: 0, message: message(), reserved_value: 0, payload_limit: 64, term_id: 7 },
            later(11),
        ),
        (poll(length), number),
        (Call::BoundedPoll { image: 0, entries: length, limit_position: 96, fragment_limit: 1 }, number),
        (Call::ControlledPoll { image: 0, entries: length, actions: vec![4], fragment_limit: 1 }, number),
        (Call::ControlledPeek { image: 0, entries: length, actions: vec![4], start: 0, limit_position: 96 }, number),
        (Call::Read { partition: 0, offset: 0, fragment_limit: 1, entries: length }, number),
        (Call::AssemblerNew { buffer: length }, 0),
        (Call::OnFragment { partition: 0, offset: 0 }, number),
        (Call::AssemblerNew { buffer: 0 }, 0),
        (Call::ReplayNew { position: 0, session_id: 11, buffer: length }, 0),
        (Call::ReplayNext, number),
        (Call::ReplayNew { position: 0, session_id: 11, buffer: 0 }, 0),
        (Call::ReplayCount { position: 0, session_id: 11, buffer: length }, number),
    ]
}

/// How many answers were as expected, or the first that was not.
pub fn run() -> Result<usize, String> {
    let start = Start { term_length: 65_536, mtu_length: 96, initial_term_id: 7, session_id: 11, stream_id: 22 };
    let mut world = World::open(&start)?;
    world.step(&Call::SetPublicationLimit { limit: 1 << 62 })?;
    world.step(&Call::Offer { message: vec![1, 2, 3], reserved_value: 4 })?;
    let port: &mut Port = &mut world.port;
    let (record, log) = (port.record, port.log.get().to_vec());
    let mut count = 0;
    for length in [MOST, MOST + 1] {
        for (call, number) in probes(length) {
            // Each probe starts with a reader at 0.
            port.call(&Call::ImageNew { image: 0, position: 0, session_id: 11 });
            let code = port.call(&call).code;
            if code != number || port.record != record || port.log.get() != log {
                return Err(format!("{} with {length}: {code}, expected {number}", name(&call)));
            }
            count += 1;
        }
    }
    Ok(count)
}

/// A call's name without writing out its message.
fn name(call: &Call) -> &'static str {
    match call {
        Call::Offer { .. } => "Offer",
        Call::AppendUnfragmented { .. } => "AppendUnfragmented",
        Call::AppendFragmented { .. } => "AppendFragmented",
        Call::Read { .. } => "Read",
        Call::OnFragment { .. } | Call::ReplayNext | Call::ReplayCount { .. } => "a call with a lent buffer",
        _ => "a call with lent entries",
    }
}
