//! The guards of the channels, which version 2 has: cause 31.

use crate::refusal::{Cause, Refusal};
use crate::set::Privilege;
use crate::sheet::{ChannelId, Guards, CHANNELS};

/// The byte of a channel that nothing guards.
pub const UNGUARDED: u8 = 255;

/// How many channels a post may name: "Version 1 posts on channel 0 without a
/// guard."
pub fn channels(content: Option<&[u8]>) -> ChannelId {
    match content {
        Some(_) => CHANNELS as ChannelId,
        None => 1,
    }
}

pub fn decode(content: &[u8]) -> Result<Guards, Refusal> {
    let mut guards = [None; CHANNELS];
    for (channel, &byte) in content.iter().enumerate() {
        guards[channel] = match byte {
            UNGUARDED => None,
            _ => Some(Privilege::new(byte).ok_or(Cause::Guard.at(channel as u32))?),
        };
    }
    Ok(guards)
}
