//! The library, as the crate `exports` gives it to C. Nothing checks these declarations against its source.

use reference::bech32::Kind;

/// What `read` finds; a refused call leaves it as it was.
#[derive(Clone, Copy, Debug, PartialEq, Eq)]
pub struct Parts {
    pub line: usize,
    pub body: usize,
    pub taken: usize,
}

/// The name that `read_text` finds, at the front of the bytes; a refused call leaves it as it was.
#[derive(Clone, Copy, Debug, PartialEq, Eq)]
pub struct Name {
    pub bytes: [u8; 32],
    pub length: usize,
}

mod exported {
    extern "C" {
        pub fn flugremio_read(
            text: *const u8,
            text_len: usize,
            line: *mut usize,
            body: *mut usize,
            taken: *mut usize,
        ) -> u8;

        pub fn flugremio_body(
            text: *const u8,
            text_len: usize,
            line: usize,
            taken: usize,
            out: *mut u8,
            out_len: usize,
            length: *mut usize,
        ) -> u8;

        pub fn flugremio_write(
            arguments: *const u8,
            arguments_len: usize,
            body: *const u8,
            body_len: usize,
            out: *mut u8,
            out_len: usize,
            length: *mut usize,
        ) -> u8;

        pub fn flugremio_index(text: *const u8, text_len: usize, value: *mut u32) -> u8;

        pub fn flugremio_read_recipient(
            text: *const u8,
            text_len: usize,
            name: *mut [u8; 32],
            named: *mut usize,
            out: *mut u8,
            out_len: usize,
            length: *mut usize,
            place: *mut usize,
        ) -> u8;

        pub fn flugremio_read_identity(
            text: *const u8,
            text_len: usize,
            name: *mut [u8; 32],
            named: *mut usize,
            out: *mut u8,
            out_len: usize,
            length: *mut usize,
            place: *mut usize,
        ) -> u8;

        pub fn flugremio_write_recipient(
            name: *const u8,
            name_len: usize,
            payload: *const u8,
            payload_len: usize,
            out: *mut u8,
            out_len: usize,
            length: *mut usize,
        ) -> u8;

        pub fn flugremio_write_identity(
            name: *const u8,
            name_len: usize,
            payload: *const u8,
            payload_len: usize,
            out: *mut u8,
            out_len: usize,
            length: *mut usize,
        ) -> u8;

        pub fn flugremio_identity_file(
            text: *const u8,
            text_len: usize,
            keys: *mut usize,
            invalid: *mut usize,
            faults: *mut [[usize; 2]; 64],
            out: *mut u8,
            out_len: usize,
            length: *mut usize,
        ) -> u8;
    }
}

/// The first stanza of a text; 0 or the refusal's number.
#[inline]
pub fn read(text: &[u8], parts: &mut Parts) -> u8 {
    let Parts { line, body, taken } = parts;
    // SAFETY: the pointers come from references, and the function has no `requires`. So below.
    unsafe { exported::flugremio_read(text.as_ptr(), text.len(), line, body, taken) }
}

/// The body of the stanza that was read, at the front of `out`.
#[inline]
pub fn body(text: &[u8], line: usize, taken: usize, out: &mut [u8], length: &mut usize) -> u8 {
    // SAFETY: as above.
    unsafe {
        exported::flugremio_body(text.as_ptr(), text.len(), line, taken, out.as_mut_ptr(), out.len(), length)
    }
}

/// A stanza at the front of `out`.
#[inline]
pub fn write(arguments: &[u8], body: &[u8], out: &mut [u8], length: &mut usize) -> u8 {
    // SAFETY: as above.
    unsafe {
        exported::flugremio_write(
            arguments.as_ptr(),
            arguments.len(),
            body.as_ptr(),
            body.len(),
            out.as_mut_ptr(),
            out.len(),
            length,
        )
    }
}

/// The index that a text is.
#[inline]
pub fn index(text: &[u8], value: &mut u32) -> u8 {
    // SAFETY: as above.
    unsafe { exported::flugremio_index(text.as_ptr(), text.len(), value) }
}

/// The recipient or identity that a text is, its payload at the front of `out`.
#[inline]
pub fn read_text(kind: Kind, text: &[u8], name: &mut Name, out: &mut [u8], length: &mut usize) -> u8 {
    let read = match kind {
        Kind::Recipient => exported::flugremio_read_recipient,
        Kind::Identity => exported::flugremio_read_identity,
    };
    let mut place = 0;
    // SAFETY: as above.
    unsafe {
        read(
            text.as_ptr(),
            text.len(),
            &mut name.bytes,
            &mut name.length,
            out.as_mut_ptr(),
            out.len(),
            length,
            &mut place,
        )
    }
}

/// A recipient or an identity at the front of `out`.
#[inline]
pub fn write_text(kind: Kind, name: &[u8], payload: &[u8], out: &mut [u8], length: &mut usize) -> u8 {
    let write = match kind {
        Kind::Recipient => exported::flugremio_write_recipient,
        Kind::Identity => exported::flugremio_write_identity,
    };
    // SAFETY: as above.
    unsafe {
        write(name.as_ptr(), name.len(), payload.as_ptr(), payload.len(), out.as_mut_ptr(), out.len(), length)
    }
}

/// The commands of an identity file's identities at the front of `out`.
#[inline]
pub fn read_file(text: &[u8], faults: &mut [[usize; 2]; 64], out: &mut [u8], length: &mut usize) -> u8 {
    let (mut keys, mut invalid) = (0, 0);
    // SAFETY: as above.
    unsafe {
        exported::flugremio_identity_file(
            text.as_ptr(),
            text.len(),
            &mut keys,
            &mut invalid,
            faults,
            out.as_mut_ptr(),
            out.len(),
            length,
        )
    }
}
