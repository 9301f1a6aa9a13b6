//! Sessions of liblv as Rust sees them: a `Session` owns its handle and isn't `Send`, so it can't be used as include/lv.h
//! forbids.

use std::fmt;
use std::marker::PhantomData;
use std::ptr::null_mut;

/// A session as C keeps it.
#[repr(C)]
struct Handle {
    at: *mut (),
    is_open: bool,
}

#[repr(C)]
struct RawPushed {
    used: usize,
    cause: u8,
    event: u8,
}

#[repr(C)]
struct RawWritten {
    len: u64,
    cause: u8,
}

extern "C" {
    fn lv_open(handle: &mut Handle, config: *const u8, config_len: usize) -> u8;
    fn lv_push(
        handle: &mut Handle,
        feed: *const u8,
        feed_len: usize,
        piece: *const u8,
        piece_len: usize,
    ) -> RawPushed;
    fn lv_undo(handle: &mut Handle) -> u8;
    fn lv_write(handle: &mut Handle, view: *const u8, view_len: usize) -> RawWritten;
    fn lv_copy(handle: &mut Handle, from: usize, buffer: *mut u8, buffer_len: usize) -> usize;
    fn lv_live_rows(handle: &mut Handle) -> usize;
    fn lv_stale(handle: &mut Handle) -> usize;
    fn lv_close(handle: &mut Handle);
    fn lv_recast(input: *const u8, input_len: usize, buffer: *mut u8, buffer_len: usize) -> RawWritten;
}

/// The number of the cause of a refusal, of which include/lv.h has the names, and how many bytes were consumed.
#[derive(Clone, Copy, Debug, PartialEq, Eq)]
pub struct Refused {
    pub cause: u8,
    pub used: usize,
}

impl fmt::Display for Refused {
    fn fmt(&self, f: &mut fmt::Formatter<'_>) -> fmt::Result {
        write!(f, "refused {}", self.cause)
    }
}

impl std::error::Error for Refused {}

/// Whether a call was done.
fn done(cause: u8, used: usize) -> Result<(), Refused> {
    match cause {
        0 => Ok(()),
        cause => Err(Refused { cause, used }),
    }
}

/// A session that is open. The pointer type keeps it on its thread.
pub struct Session {
    handle: Handle,
    _on_one_thread: PhantomData<*mut ()>,
}

impl Session {
    /// Opens the session of a configuration.
    pub fn open(config: &str) -> Result<Session, Refused> {
        let mut handle = Handle {
            at: null_mut(),
            is_open: false,
        };
        // SAFETY: the handle is zeros and nobody else has it; the slice's bytes are there while the call runs. The calls
        // below are given this very handle.
        let cause = unsafe { lv_open(&mut handle, config.as_ptr(), config.len()) };
        done(cause, 0)?;
        Ok(Session {
            handle,
            _on_one_thread: PhantomData,
        })
    }

    /// Pushes all of some bytes to a feed.
    pub fn push(&mut self, feed: &str, bytes: &[u8]) -> Result<(), Refused> {
        let mut used = 0;
        while used < bytes.len() {
            let piece = &bytes[used..];
            // SAFETY: as in `open`.
            let pushed =
                unsafe { lv_push(&mut self.handle, feed.as_ptr(), feed.len(), piece.as_ptr(), piece.len()) };
            used += pushed.used;
            done(pushed.cause, used)?;
        }
        Ok(())
    }

    /// Undoes the latest accepted edit.
    pub fn undo(&mut self) -> Result<(), Refused> {
        // SAFETY: as in `open`.
        done(unsafe { lv_undo(&mut self.handle) }, 0)
    }

    /// The Arrow IPC stream of a view.
    pub fn view(&mut self, view: &str) -> Result<Vec<u8>, Refused> {
        // SAFETY: as in `open`.
        let written = unsafe { lv_write(&mut self.handle, view.as_ptr(), view.len()) };
        done(written.cause, 0)?;
        let mut stream = vec![0; written.len as usize];
        // SAFETY: as in `open`; the buffer has as many bytes as are told.
        unsafe { lv_copy(&mut self.handle, 0, stream.as_mut_ptr(), stream.len()) };
        Ok(stream)
    }

    /// The number of live rows of the main table.
    pub fn live_rows(&mut self) -> usize {
        // SAFETY: as in `open`.
        unsafe { lv_live_rows(&mut self.handle) }
    }

    /// How many views are stale.
    pub fn stale(&mut self) -> usize {
        // SAFETY: as in `open`.
        unsafe { lv_stale(&mut self.handle) }
    }
}

impl Drop for Session {
    fn drop(&mut self) {
        // SAFETY: as in `open`.
        unsafe { lv_close(&mut self.handle) }
    }
}

/// The canonical stream of the table of a whole stream.
pub fn recast(stream: &[u8]) -> Result<Vec<u8>, Refused> {
    let mut buffer = vec![0; 2 * stream.len()];
    loop {
        // SAFETY: the slices' bytes are there while the call runs, and the buffer is nobody else's.
        let written = unsafe { lv_recast(stream.as_ptr(), stream.len(), buffer.as_mut_ptr(), buffer.len()) };
        done(written.cause, 0)?;
        let is_whole = written.len as usize <= buffer.len();
        buffer.resize(written.len as usize, 0);
        if is_whole {
            return Ok(buffer);
        }
    }
}
