//! Stand-in: the list of modules, and names that `utils/errors/mod.rs` mentions.

pub mod atomic_buffer;
pub mod logbuffer;
pub mod position;
pub mod status;

pub mod broadcast {
    #[derive(Debug)]
    pub enum BroadcastTransmitError {}
}

pub mod ring_buffer {
    #[derive(Debug)]
    pub enum RingBufferError {}
}
