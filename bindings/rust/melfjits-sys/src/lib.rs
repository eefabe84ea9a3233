//! The types and calls of `bindings/c/melfjits.h`, which has their meaning and what a caller has to ensure.
#![no_std]
#![allow(non_camel_case_types)]

use core::ffi::c_void;
use core::ptr::null_mut;

/// A handle: a channel that is open, or none.
#[repr(C)]
pub struct melfjits_channel {
    pub ptr: *mut c_void,
    pub is_open: bool,
}

/// What a handle begins as.
pub const MELFJITS_CLOSED_CHANNEL: melfjits_channel = melfjits_channel { ptr: null_mut(), is_open: false };

pub const MELFJITS_DONE: u32 = 0;
pub const MELFJITS_NO_MEMORY: u32 = 1;
pub const MELFJITS_CLOSED: u32 = 2;
pub const MELFJITS_SHORT: u32 = 3;
pub const MELFJITS_NONE_WAITS: u32 = 4;
pub const MELFJITS_RECEIVED: u32 = 5;
pub const MELFJITS_NOT_TOML: u32 = 10;
pub const MELFJITS_MISSING_KEY: u32 = 11;
pub const MELFJITS_BAD_VALUE: u32 = 12;
pub const MELFJITS_SLICES_OVERLAP: u32 = 13;
pub const MELFJITS_SIDS_OVERLAP: u32 = 14;
pub const MELFJITS_SFIDS_OVERLAP: u32 = 15;
pub const MELFJITS_MODEM_TWICE: u32 = 16;
pub const MELFJITS_TOO_MANY_ELEMENTS: u32 = 17;
pub const MELFJITS_PLANT_BUDGET_OVER_SLICE: u32 = 18;
pub const MELFJITS_PROVISIONED_OVER: u32 = 19;
pub const MELFJITS_UNKNOWN_MODEM: u32 = 20;
pub const MELFJITS_UNKNOWN_OPERATOR: u32 = 21;
pub const MELFJITS_FRAMES_SPENT: u32 = 22;
pub const MELFJITS_NOTHING_TO_COLLECT: u32 = 23;
pub const MELFJITS_ROW_COUNT: u32 = 30;
pub const MELFJITS_NOT_PAST: u32 = 31;
pub const MELFJITS_UNFINISHED: u32 = 32;
pub const MELFJITS_OFF_FRAME: u32 = 33;
pub const MELFJITS_NEW_SLICES_OVERLAP: u32 = 34;
pub const MELFJITS_BUDGET_OVER_SLICE: u32 = 35;
pub const MELFJITS_UNFIT: u32 = 36;
pub const MELFJITS_FRAME_WAITS: u32 = 40;
pub const MELFJITS_NOT_AT_FRAME: u32 = 41;
pub const MELFJITS_CONSTANTS_DIFFER: u32 = 42;
pub const MELFJITS_STATE_REFUSED: u32 = 43;
pub const MELFJITS_NOT_TOGETHER: u32 = 44;
pub const MELFJITS_NOT_A_SNAPSHOT: u32 = 45;
pub const MELFJITS_UNKNOWN_NAME: u32 = 46;

pub const MELFJITS_REPLY: u32 = 1;
pub const MELFJITS_SILENT: u32 = 2;
pub const MELFJITS_FRAME: u32 = 3;
pub const MELFJITS_MAP: u32 = 4;

/// The hardware address of a cable modem.
#[repr(C)]
#[derive(Clone, Copy, Debug, Default, PartialEq, Eq)]
pub struct melfjits_modem {
    pub bytes: [u8; 6],
}

/// A slice and a budget of an operator, in minislots of a frame.
#[repr(C)]
#[derive(Clone, Copy, Debug, Default, PartialEq, Eq)]
pub struct melfjits_slice {
    pub start: u16,
    pub length: u16,
    pub budget: u16,
}

/// What an output is, and how long its bytes and its grants are.
#[repr(C)]
#[derive(Clone, Copy, Debug, Default, PartialEq, Eq)]
pub struct melfjits_output {
    pub kind: u32,
    pub cause: u32,
    pub operator_at: usize,
    pub frame: u32,
    pub modem: [u8; 6],
    pub length: usize,
    pub granted: usize,
    pub pending: usize,
}

/// Minislots granted to a SID. IUC 0 and no minislots are a grant pending.
#[repr(C)]
#[derive(Clone, Copy, Debug, Default, PartialEq, Eq)]
pub struct melfjits_grant {
    pub sid: u16,
    pub iuc: u16,
    pub start: u16,
    pub length: u16,
}

extern "C" {
    pub fn melfjits_open(channel: *mut melfjits_channel, text: *const u8, length: usize) -> u32;
    pub fn melfjits_open_saved(channel: *mut melfjits_channel, text: *const u8, length: usize) -> u32;
    pub fn melfjits_save(channel: *mut melfjits_channel, bytes: *mut u8, size: usize, length: *mut usize) -> u32;
    pub fn melfjits_change(channel: *mut melfjits_channel, text: *const u8, length: usize) -> u32;
    pub fn melfjits_close(channel: *mut melfjits_channel) -> u32;
    pub fn melfjits_arrive(channel: *mut melfjits_channel, modem: *const melfjits_modem, message: *const u8, length: usize) -> u32;
    pub fn melfjits_request(channel: *mut melfjits_channel, modem: *const melfjits_modem, sid: u16, minislots: u16) -> u32;
    pub fn melfjits_work(channel: *mut melfjits_channel, operator_at: usize) -> u32;
    pub fn melfjits_tick(channel: *mut melfjits_channel, operator_at: usize) -> u32;
    pub fn melfjits_collect(channel: *mut melfjits_channel, operator_at: usize) -> u32;
    pub fn melfjits_reslice(channel: *mut melfjits_channel, from: u32, rows: *const melfjits_slice, count: usize) -> u32;
    pub fn melfjits_next_output(
        channel: *mut melfjits_channel,
        output: *mut melfjits_output,
        bytes: *mut u8,
        size: usize,
        grants: *mut melfjits_grant,
        count: usize,
    ) -> u32;
}
