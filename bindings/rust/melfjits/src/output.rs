//! The outputs of a channel.

use crate::Address;
use melfjits_sys as sys;

/// Why a message has no reply, or a bandwidth request no effect. The names are those of docs/FORMATS.md.
#[derive(Clone, Copy, Debug, PartialEq, Eq, Hash)]
#[non_exhaustive]
pub enum Cause {
    InboxFull,
    Idle,
    Empty,
    NotOurs,
    Short,
    TidInUse,
    UnknownAck,
    NoSuchSid,
    NotRequesting,
    /// A number that the header does not have.
    Unknown(u32),
}

/// Minislots of a frame that are granted to a SID, or idle ones under the SID 0.
#[derive(Clone, Copy, Debug, PartialEq, Eq, Hash)]
pub struct Span {
    pub sid: u16,
    /// The Interval Usage Code (CM-SP-MULPIv3.1, 6.4.4): 1, 5 or 6.
    pub iuc: u16,
    /// The first minislot of the frame.
    pub start: u16,
    /// The number of minislots.
    pub length: u16,
}

/// An output of a channel. `operator_at` is the operator's place in the plant file, from 0.
#[derive(Clone, Debug, PartialEq, Eq)]
pub enum Output {
    /// A reply to a modem: a byte of message type, and the payload.
    Reply { operator_at: usize, modem: Address, message: Vec<u8> },
    /// Why a message has no reply, or a bandwidth request no effect.
    Drop { operator_at: usize, modem: Option<Address>, cause: Cause },
    /// An operator's part of a frame: the minislots of its slice, idle ones included, and the SIDs with a grant pending.
    Frame { operator_at: usize, number: u32, spans: Vec<Span>, pending: Vec<u16> },
    /// The body of the MAP of a frame.
    Map { number: u32, message: Vec<u8> },
}

/// Returns the cause of a number of the header.
fn cause_of(number: u32) -> Cause {
    match number {
        1 => Cause::InboxFull,
        2 => Cause::Idle,
        3 => Cause::Empty,
        4 => Cause::NotOurs,
        5 => Cause::Short,
        6 => Cause::TidInUse,
        7 => Cause::UnknownAck,
        8 => Cause::NoSuchSid,
        9 => Cause::NotRequesting,
        _ => Cause::Unknown(number),
    }
}

/// Returns the output with this head, these bytes and these grants, of which the pending ones come last.
pub(crate) fn output_of(head: &sys::melfjits_output, message: Vec<u8>, grants: &[sys::melfjits_grant]) -> Output {
    let operator_at = head.operator_at;
    match head.kind {
        sys::MELFJITS_REPLY => Output::Reply { operator_at, modem: head.modem, message },
        sys::MELFJITS_FRAME => {
            let (granted, pending) = grants.split_at(head.granted);
            let spans = granted.iter().map(|grant| Span { sid: grant.sid, iuc: grant.iuc, start: grant.start, length: grant.length });
            let pending = pending.iter().map(|grant| grant.sid).collect();
            Output::Frame { operator_at, number: head.frame, spans: spans.collect(), pending }
        }
        sys::MELFJITS_MAP => Output::Map { number: head.frame, message },
        _ => {
            let modem = (head.modem != [0; 6]).then_some(head.modem);
            Output::Drop { operator_at, modem, cause: cause_of(head.cause) }
        }
    }
}
