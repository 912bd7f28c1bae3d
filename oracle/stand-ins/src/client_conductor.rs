//! Stand-in: a conductor that talks to no driver.
//! Only `release_publication` is reached, from the `Drop` of a publication.

use std::ffi::CString;

use crate::utils::errors::AeronError;

/// A name that `utils/errors/mod.rs` mentions.
#[derive(Debug)]
pub enum RegistrationStatus {}

#[derive(Default)]
pub struct ClientConductor;

impl ClientConductor {
    pub fn release_publication(&mut self, _registration_id: i64) -> Result<(), AeronError> {
        Ok(())
    }

    pub fn add_destination(&mut self, _registration_id: i64, _channel: CString) -> Result<i64, AeronError> {
        unreachable!("destinations are not compared")
    }

    pub fn remove_destination(&mut self, _registration_id: i64, _channel: CString) -> Result<i64, AeronError> {
        unreachable!("destinations are not compared")
    }

    pub fn find_destination_response(&mut self, _correlation_id: i64) -> Result<bool, AeronError> {
        unreachable!("destinations are not compared")
    }

    pub fn channel_status(&self, _counter_id: i32) -> i64 {
        unreachable!("the channel status is not compared")
    }
}
