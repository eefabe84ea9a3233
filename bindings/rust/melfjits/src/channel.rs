//! A channel that is open.

use crate::error::{check, Error};
use crate::output::{output_of, Output};
use melfjits_sys as sys;

/// The hardware address of a cable modem.
pub type Address = [u8; 6];

/// A slice and a budget of an operator, in minislots of a frame.
pub type Slice = sys::melfjits_slice;

/// One upstream channel that is open, with its operators, modems and flows. Its end closes it.
///
/// Each call does all its work before it returns. Its outputs wait in the order in which they were made, until
/// [`next_output`](Channel::next_output) fetches them. Operators are named by their places in the plant file, from 0. A channel stays on
/// the thread that opened it: it is neither `Send` nor `Sync`.
pub struct Channel {
    handle: Box<sys::melfjits_channel>,
}

impl Channel {
    /// Opens the channel of a plant file, which is UTF-8. Returns an error if the file is refused, or if memory runs out.
    pub fn open(plant: &[u8]) -> Result<Channel, Error> {
        let mut handle = Box::new(sys::MELFJITS_CLOSED_CHANNEL);
        // SAFETY: the handle is closed, and the text is valid for its length.
        check(unsafe { sys::melfjits_open(&mut *handle, plant.as_ptr(), plant.len()) })?;
        Ok(Channel { handle })
    }

    /// Opens a channel that was saved, from what [`save`](Channel::save) returned. It goes on before the frame of its snapshot, and no
    /// output waits. Returns an error if that is not a snapshot, if its plant file is refused or does not start in its states, or if memory
    /// runs out.
    pub fn open_saved(snapshot: &[u8]) -> Result<Channel, Error> {
        let mut handle = Box::new(sys::MELFJITS_CLOSED_CHANNEL);
        // SAFETY: the handle is closed, and the text is valid for its length.
        check(unsafe { sys::melfjits_open_saved(&mut *handle, snapshot.as_ptr(), snapshot.len()) })?;
        Ok(Channel { handle })
    }

    /// Returns a snapshot of the channel, with its plant file, for [`open_saved`](Channel::open_saved). The channel has to rest before a
    /// frame: each operator ticked as often, and each frame is collected. Outputs that wait are not saved, and go on waiting. Returns
    /// [`Error::FrameWaits`] or [`Error::NotAtFrame`] if the channel does not rest.
    pub fn save(&mut self) -> Result<Vec<u8>, Error> {
        let (mut bytes, mut length) = (Vec::new(), 0);
        let mut code = self.write_snapshot(&mut bytes, &mut length);
        if code == sys::MELFJITS_SHORT {
            bytes.resize(length, 0);
            code = self.write_snapshot(&mut bytes, &mut length);
        }
        check(code)?;
        Ok(bytes)
    }

    /// Puts another plant file in force between two frames. Each operator goes on in its state, by its name; outputs that wait go on
    /// waiting. The channel has to rest as for [`save`](Channel::save). Returns an error if it does not, if the file is refused, if it
    /// changes what all operators share or does not fit their states, or if memory runs out.
    pub fn change(&mut self, plant: &[u8]) -> Result<(), Error> {
        // SAFETY: the handle is open and ours alone, and the text is valid for its length.
        check(unsafe { sys::melfjits_change(&mut *self.handle, plant.as_ptr(), plant.len()) })
    }

    /// Receives a message of a modem, a byte of message type and the payload, and handles the first of the inbox of its operator.
    pub fn arrive(&mut self, modem: Address, message: &[u8]) -> Result<(), Error> {
        let modem = sys::melfjits_modem { bytes: modem };
        // SAFETY: the handle is open and ours alone, and the message is valid for its length.
        check(unsafe { sys::melfjits_arrive(&mut *self.handle, &modem, message.as_ptr(), message.len()) })
    }

    /// Receives a bandwidth request of a modem, and handles the first of the inbox of its operator. The minislots become the backlog of
    /// the flow with this SID.
    pub fn request(&mut self, modem: Address, sid: u16, minislots: u16) -> Result<(), Error> {
        let modem = sys::melfjits_modem { bytes: modem };
        // SAFETY: the handle is open and ours alone.
        check(unsafe { sys::melfjits_request(&mut *self.handle, &modem, sid, minislots) })
    }

    /// Handles the first of an operator's inbox, after [`Error::NotHandled`].
    pub fn work(&mut self, operator_at: usize) -> Result<(), Error> {
        // SAFETY: the handle is open and ours alone.
        check(unsafe { sys::melfjits_work(&mut *self.handle, operator_at) })
    }

    /// Advances an operator's timers by a tick, and schedules its next frame.
    pub fn tick(&mut self, operator_at: usize) -> Result<(), Error> {
        // SAFETY: the handle is open and ours alone.
        check(unsafe { sys::melfjits_tick(&mut *self.handle, operator_at) })
    }

    /// Puts an operator's oldest frame into the assembly. The last part of a frame completes its MAP.
    pub fn collect(&mut self, operator_at: usize) -> Result<(), Error> {
        // SAFETY: the handle is open and ours alone.
        check(unsafe { sys::melfjits_collect(&mut *self.handle, operator_at) })
    }

    /// Gives each operator, in the order of the plant file, another slice and budget from a frame on.
    pub fn reslice(&mut self, from: u32, rows: &[Slice]) -> Result<(), Error> {
        // SAFETY: the handle is open and ours alone, and the rows are valid for their number.
        check(unsafe { sys::melfjits_reslice(&mut *self.handle, from, rows.as_ptr(), rows.len()) })
    }

    /// Fetches the output that waits first, or `None` if none waits.
    pub fn next_output(&mut self) -> Result<Option<Output>, Error> {
        let (mut head, mut bytes, mut grants) = (sys::melfjits_output::default(), Vec::new(), Vec::new());
        let mut code = self.fetch(&mut head, &mut bytes, &mut grants);
        if code == sys::MELFJITS_SHORT {
            bytes.resize(head.length, 0);
            grants.resize(head.granted + head.pending, sys::melfjits_grant::default());
            code = self.fetch(&mut head, &mut bytes, &mut grants);
        }
        if code == sys::MELFJITS_NONE_WAITS {
            return Ok(None);
        }
        check(code)?;
        Ok(Some(output_of(&head, bytes, &grants)))
    }

    /// Writes a snapshot into a buffer and how long it is, and returns what the call returns.
    fn write_snapshot(&mut self, bytes: &mut [u8], length: &mut usize) -> u32 {
        // SAFETY: the handle is open and ours alone, and the buffer is valid for its length.
        unsafe { sys::melfjits_save(&mut *self.handle, bytes.as_mut_ptr(), bytes.len(), length) }
    }

    /// Fetches the output that waits first into buffers, and returns what the call returns.
    fn fetch(&mut self, head: &mut sys::melfjits_output, bytes: &mut [u8], grants: &mut [sys::melfjits_grant]) -> u32 {
        // SAFETY: the handle is open and ours alone, and both buffers are valid for their lengths.
        unsafe { sys::melfjits_next_output(&mut *self.handle, head, bytes.as_mut_ptr(), bytes.len(), grants.as_mut_ptr(), grants.len()) }
    }
}

impl Drop for Channel {
    fn drop(&mut self) {
        // SAFETY: the handle is ours alone.
        unsafe { sys::melfjits_close(&mut *self.handle) };
    }
}
