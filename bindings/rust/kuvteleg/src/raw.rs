//! The functions of `libkuvteleg.a`, as include/kuvteleg.h has them.
use std::ffi::c_void;

/// An editor or a reader. One of zeros is closed; it is moved and never copied.
#[repr(C)]
pub(crate) struct Handle {
    is_open: u8,
    at: *mut c_void,
}

impl Handle {
    pub(crate) const CLOSED: Handle = Handle { is_open: 0, at: std::ptr::null_mut() };
}

#[repr(C)]
#[derive(Default)]
pub(crate) struct State {
    pub is_governed: u8,
    pub is_endless: u8,
    pub until_nanoseconds: u32,
    pub until_seconds: i64,
    pub interval: i64,
    pub event_len: usize,
    pub values_len: usize,
}

// bindings/c/test.c compares the header's structs with these sizes.
const _: () = assert!(size_of::<Handle>() == 16 && size_of::<State>() == 40);

pub(crate) type Write = unsafe extern "C" fn(*mut Handle, i64, u32, u32, *const u8, usize, *const u8, usize, *mut u64) -> u32;

extern "C" {
    pub(crate) fn kuvteleg_open(editor: *mut Handle, tie: u32) -> u32;
    pub(crate) fn kuvteleg_create(
        editor: *mut Handle,
        seconds: i64,
        nanoseconds: u32,
        kind: u32,
        id: *const u8,
        id_len: usize,
        body: *const u8,
        body_len: usize,
        version: *mut u64,
    ) -> u32;
    pub(crate) fn kuvteleg_change(
        editor: *mut Handle,
        seconds: i64,
        nanoseconds: u32,
        kind: u32,
        id: *const u8,
        id_len: usize,
        body: *const u8,
        body_len: usize,
        version: *mut u64,
    ) -> u32;
    pub(crate) fn kuvteleg_delete(editor: *mut Handle, kind: u32, id: *const u8, id_len: usize, version: *mut u64) -> u32;
    pub(crate) fn kuvteleg_publish(editor: *mut Handle, number: *mut u64, version: *mut u64) -> u32;
    pub(crate) fn kuvteleg_condense(editor: *mut Handle, version: *mut u64) -> u32;
    pub(crate) fn kuvteleg_line(editor: *mut Handle, line: *const u8, line_len: usize, out: *mut u8, room: usize, len: *mut usize) -> u32;
    pub(crate) fn kuvteleg_reply(editor: *mut Handle, out: *mut u8, room: usize, len: *mut usize) -> u32;
    pub(crate) fn kuvteleg_close(editor: *mut Handle) -> u32;
    pub(crate) fn kuvteleg_look(editor: *mut Handle, reader: *mut Handle) -> u32;
    pub(crate) fn kuvteleg_share(from: *mut Handle, to: *mut Handle) -> u32;
    pub(crate) fn kuvteleg_seen(reader: *mut Handle, number: *mut u64, version: *mut u64) -> u32;
    pub(crate) fn kuvteleg_ask(reader: *mut Handle, line: *const u8, line_len: usize, out: *mut u8, room: usize, len: *mut usize) -> u32;
    pub(crate) fn kuvteleg_answer(reader: *mut Handle, out: *mut u8, room: usize, len: *mut usize) -> u32;
    pub(crate) fn kuvteleg_leave(reader: *mut Handle) -> u32;
    pub(crate) fn kuvteleg_governor(
        reader: *mut Handle,
        resource: *const u8,
        resource_len: usize,
        payload_type: *const u8,
        payload_type_len: usize,
        seconds: i64,
        nanoseconds: u32,
        state: *mut State,
        out: *mut u8,
        room: usize,
        len: *mut usize,
    ) -> u32;
}

/// The bytes that a call gives, in `reply`: by `call` where they fit the room that it has, else by `again`, with room for all.
///
/// # Safety
///
/// Both write at most the room that they are told of behind the pointer, and the number of bytes that there are; where that is no more
/// than the room they have written all of them.
pub(crate) unsafe fn gather(
    reply: &mut Vec<u8>,
    mut call: impl FnMut(*mut u8, usize, *mut usize) -> u32,
    mut again: impl FnMut(*mut u8, usize, *mut usize) -> u32,
) -> Result<(), crate::Refusal> {
    reply.clear();
    reply.reserve(256);
    let mut len = 0;
    crate::refusal::done(call(reply.as_mut_ptr(), reply.capacity(), &mut len))?;
    if len > reply.capacity() {
        reply.reserve(len);
        crate::refusal::done(again(reply.as_mut_ptr(), reply.capacity(), &mut len))?;
    }
    assert!(len <= reply.capacity());
    // SAFETY: the last call had room for `len` bytes and has written them.
    unsafe { reply.set_len(len) };
    Ok(())
}

/// A reply's text.
pub(crate) fn text(reply: &[u8]) -> &str {
    std::str::from_utf8(reply).expect("replies are UTF-8")
}
