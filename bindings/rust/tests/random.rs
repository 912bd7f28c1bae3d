//! Random lists of calls from a seed: a replay, and polls with an assembler, give back what was written, up to the first open claim.

mod common;

use common::{Random, TERM};
use logbuffer::{Action, Assembler, Error, Log, OpenClaim};

const LISTS: u64 = 150;

/// What an accepted call wrote.
enum Written {
    Message(Vec<u8>),
    Open(OpenClaim, Vec<u8>),
    Aborted,
}

struct World {
    log: Log,
    random: Random,
    written: Vec<Written>,
    last: i64,
    drops: bool,
    taken: Option<OpenClaim>,
}

impl World {
    fn new(seed: u64) -> World {
        let mut random = Random(seed);
        let mtu_length = [64, 96, 1_408, 65_504][random.below(4)];
        let initial_term_id = [0, 7, i32::MIN, 2_147_483_646][random.below(4)];
        let log = Log::builder().term_length(TERM).mtu_length(mtu_length).initial_term_id(initial_term_id).session_id(11);
        World { log: log.open().unwrap(), random, written: Vec::new(), last: 0, drops: seed % 4 == 0, taken: None }
    }

    /// Positions rise, so no two calls are answered the same one.
    fn accept(&mut self, position: i64, written: Written) {
        assert!(position > self.last);
        self.last = position;
        self.written.push(written);
    }

    /// Nothing but a full term, and the limit, may press a writer back.
    fn refuse(&self, error: Error) {
        match error {
            Error::AdminAction => {}
            Error::BackPressured => assert!(self.log.available_window().unwrap() <= 0),
            other => panic!("{other:?}"),
        }
    }

    fn offer(&mut self) {
        let limit = self.log.max_payload_length().max(self.log.max_message_length());
        let most = [1, 200, limit / 4 + 1, limit + 1][self.random.below(4)];
        let message = self.random.message(most);
        match self.log.offer(&message) {
            Ok(position) => self.accept(position, Written::Message(message)),
            Err(error) => self.refuse(error),
        }
    }

    fn claim(&mut self) {
        let most = (self.log.max_payload_length() + 1).min(3_000);
        let length = self.random.below(most);
        let (body, end) = (self.random.bytes(length), self.random.below(20));
        if let Err(error) = self.log.try_claim(length).map(|claim| claim.into_open()).map(|open| self.taken = Some(open)) {
            return self.refuse(error);
        }
        let mut claim = self.log.resume(self.taken.take().unwrap()).unwrap();
        assert_eq!(*claim, vec![0; length]);
        claim.copy_from_slice(&body);
        let position = claim.position();
        let written = match end {
            0 if self.drops => {
                drop(claim); // aborts it
                Written::Aborted
            }
            0..=4 => {
                claim.abort().unwrap();
                Written::Aborted
            }
            5..=8 => Written::Open(claim.into_open(), body),
            _ => {
                assert_eq!(claim.commit(), Ok(position));
                Written::Message(body)
            }
        };
        self.accept(position, written);
    }

    /// Takes an open claim up again: changes its body, commits or aborts it, or leaves it open.
    fn finish(&mut self) {
        if self.written.is_empty() {
            return;
        }
        let place = self.random.below(self.written.len());
        let Written::Open(open, body) = &mut self.written[place] else { return };
        let mut claim = self.log.resume(open.clone()).unwrap();
        assert_eq!(*claim, body[..]);
        if let Some(byte) = body.first_mut() {
            *byte = !*byte;
            claim[0] = *byte;
        }
        self.written[place] = match self.random.below(3) {
            0 => Written::Open(claim.into_open(), std::mem::take(body)),
            1 => {
                claim.abort().unwrap();
                Written::Aborted
            }
            _ => {
                claim.commit().unwrap();
                Written::Message(std::mem::take(body))
            }
        };
    }

    /// Commits every claim still open, from the last to the first.
    fn finish_all(&mut self) {
        for written in self.written.iter_mut().rev() {
            if let Written::Open(open, body) = written {
                self.log.commit(open.clone()).unwrap();
                *written = Written::Message(std::mem::take(body));
            }
        }
    }

    fn step(&mut self) {
        match self.random.below(20) {
            0..=8 => self.offer(),
            9..=13 => self.claim(),
            14..=18 => self.finish(),
            _ => {
                let limit = self.random.below(3 * TERM as usize) as i64;
                self.log.set_publication_limit(limit).unwrap();
            }
        }
    }

    fn expected(&self) -> Vec<Vec<u8>> {
        let finished = self.written.iter().take_while(|w| !matches!(w, Written::Open(..)));
        let messages = finished.filter_map(|w| match w {
            Written::Message(message) => Some(message.clone()),
            _ => None,
        });
        messages.collect()
    }

    /// A replay, batches, a count, and three ways to poll, each against what was written.
    fn check(&mut self) {
        let (log, expected) = (&self.log, self.expected());
        assert_eq!(log.replay().collect::<Result<Vec<_>, _>>().unwrap(), expected);
        let count = log.count().unwrap();
        assert_eq!((count.messages, count.bytes), (expected.len(), expected.iter().map(Vec::len).sum()));

        let (mut assembler, mut messages, mut poller) = (Assembler::new(log), Vec::new(), log.poller(0));
        for fragment in poller.fragments(log) {
            messages.extend(assembler.on_fragment(log, &fragment.unwrap()).unwrap().map(<[u8]>::to_vec));
        }
        assert_eq!(messages, expected);
        let limit = 1 + self.random.below(50);
        assert_eq!(polled(log, limit), expected);
        assert_eq!(batched(log, limit), expected);
        assert_eq!(controlled(log, limit, &mut self.random), expected);
    }
}

/// Messages by batches of so many.
fn batched(log: &Log, most: usize) -> Vec<Vec<u8>> {
    let (mut replay, mut messages) = (log.replay(), Vec::new());
    while let Some(batch) = replay.next_batch(most) {
        let batch = batch.unwrap();
        assert!((1..=most).contains(&batch.len()));
        messages.extend(batch.map(<[u8]>::to_vec));
    }
    assert!(replay.next_batch(most).is_none());
    messages
}

/// Messages by polls of some fragments at a time.
fn polled(log: &Log, limit: usize) -> Vec<Vec<u8>> {
    let (mut assembler, mut messages, mut poller) = (Assembler::new(log), Vec::new(), log.poller(0));
    loop {
        let before = poller.position();
        let take = |fragment: logbuffer::Fragment<'_>| {
            messages.extend(assembler.on_fragment(log, &fragment).unwrap().map(<[u8]>::to_vec));
        };
        let count = poller.poll(log, limit, take).unwrap();
        assert!(count <= limit);
        if poller.position() == before {
            return messages;
        }
    }
}

/// Messages by controlled polls, with random actions; an aborted fragment is taken when it comes again.
fn controlled(log: &Log, limit: usize, random: &mut Random) -> Vec<Vec<u8>> {
    let (mut assembler, mut messages, mut poller) = (Assembler::new(log), Vec::new(), log.poller(0));
    loop {
        let (before, mut aborted) = (poller.position(), false);
        let answer = |fragment: logbuffer::Fragment<'_>| {
            let action = [Action::Abort, Action::Break, Action::Commit, Action::Continue][random.below(4)];
            aborted = action == Action::Abort;
            if !aborted {
                messages.extend(assembler.on_fragment(log, &fragment).unwrap().map(<[u8]>::to_vec));
            }
            action
        };
        poller.controlled_poll(log, limit, answer).unwrap();
        if poller.position() == before && !aborted {
            return messages;
        }
    }
}

#[test]
fn replays_and_polls_give_back_what_was_written() {
    let (mut messages, mut calls) = (0, 0);
    for seed in 0..LISTS {
        let mut world = World::new(seed);
        // Short of three terms, which is how far a replay goes.
        while calls < 400 * (seed + 1) && world.last < 2 * i64::from(TERM) {
            world.step();
            calls += 1;
            if calls % 100 == 0 {
                world.check();
            }
        }
        world.log.close().unwrap();
        world.check();
        world.finish_all();
        world.check();
        messages += world.expected().len();
    }
    assert!(messages > 9_000, "the lists write too little: {messages} messages in {calls} calls");
}
