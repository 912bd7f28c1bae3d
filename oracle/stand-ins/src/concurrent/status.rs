//! Stand-in: one name. No call that is compared reaches it.

pub mod status_indicator_reader {
    pub const NO_ID_ALLOCATED: i32 = -1;
}
