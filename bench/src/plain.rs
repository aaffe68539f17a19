//! Recipients and identities in plain C, `plain.c`. Nothing checks these declarations against it.

use crate::library::Name;
use reference::bech32::Kind;

extern "C" {
    fn plain_tables();

    fn plain_read_text(
        upper: i32,
        text: *const u8,
        len: usize,
        name: *mut [u8; 32],
        name_len: *mut usize,
        out: *mut u8,
        out_len: usize,
    ) -> usize;

    fn plain_write_text(
        upper: i32,
        name: *const u8,
        name_len: usize,
        payload: *const u8,
        payload_len: usize,
        out: *mut u8,
        out_len: usize,
    ) -> usize;
}

/// Before any other call.
pub fn make_tables() {
    // SAFETY: it fills the C code's own tables, and nothing here runs beside it.
    unsafe { plain_tables() }
}

/// How long the payload at the front of `out` is; none where the text is refused.
#[inline]
pub fn read_text(kind: Kind, text: &[u8], name: &mut Name, out: &mut [u8]) -> Option<usize> {
    let upper = (kind == Kind::Identity).into();
    // SAFETY: the pointers come from references; a name has at most 32 bytes. So below.
    let done = unsafe {
        plain_read_text(
            upper,
            text.as_ptr(),
            text.len(),
            &mut name.bytes,
            &mut name.length,
            out.as_mut_ptr(),
            out.len(),
        )
    };
    done.checked_sub(1)
}

/// How long the text at the front of `out` is, 0 where it is refused.
#[inline]
pub fn write_text(kind: Kind, name: &[u8], payload: &[u8], out: &mut [u8]) -> usize {
    let upper = (kind == Kind::Identity).into();
    // SAFETY: as above.
    unsafe {
        plain_write_text(
            upper,
            name.as_ptr(),
            name.len(),
            payload.as_ptr(),
            payload.len(),
            out.as_mut_ptr(),
            out.len(),
        )
    }
}
