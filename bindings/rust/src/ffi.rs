//! The structs and functions of `tebaldi.h`.

use std::ffi::{c_char, c_int, c_void};
use std::ptr::null_mut;

#[repr(C)]
pub struct RawStore {
    is_open: bool,
    at: *mut c_void,
}

impl RawStore {
    pub const fn closed() -> RawStore {
        RawStore {
            is_open: false,
            at: null_mut(),
        }
    }
}

/// A store, and the descriptor of its file, or -1.
#[repr(C)]
pub struct RawFile {
    pub store: RawStore,
    pub fd: c_int,
}

impl RawFile {
    pub const fn closed() -> RawFile {
        RawFile {
            store: RawStore::closed(),
            fd: -1,
        }
    }
}

#[repr(C)]
#[derive(Default)]
pub struct RawFileState {
    pub kept: u64,
    pub left: u64,
    pub waiting: usize,
    pub stopped: bool,
}

// SAFETY: the library proves that what the pointer owns may go to another thread.
unsafe impl Send for RawStore {}

#[repr(C)]
#[derive(Clone, Copy, Default)]
pub struct RawRequest {
    pub verb: u8,
    pub kind: u8,
    pub table: u8,
    pub count: u8,
    pub instance: u32,
    pub key: u32,
    pub value: i64,
}

#[repr(C)]
#[derive(Clone, Copy, Default)]
pub struct RawCause {
    pub why: u8,
    pub node: u8,
    pub table: u8,
    pub key: u32,
    pub txn: u32,
    pub second: u32,
    pub third: u32,
    pub fourth: u32,
}

#[repr(C)]
#[derive(Clone, Copy, Default)]
pub struct RawValues {
    pub values: [i64; 16],
    pub present: [bool; 16],
    pub len: usize,
}

#[repr(C)]
#[derive(Clone, Copy, Default)]
pub struct RawReply {
    pub kind: u8,
    pub refusal: u8,
    pub node: u8,
    pub txn: u32,
    pub cause: RawCause,
    pub values: RawValues,
}

#[repr(C)]
#[derive(Clone, Copy, Default)]
pub struct RawEvent {
    pub happened: u8,
    pub session: u8,
    pub kind: u8,
    pub table: u8,
    pub present: bool,
    pub txn: u32,
    pub instance: u32,
    pub key: u32,
    pub from: u32,
    pub value: i64,
    pub cause: RawCause,
}

#[repr(C)]
#[derive(Clone, Copy, Default)]
pub struct RawRow {
    pub table: u8,
    pub key: u32,
    pub value: i64,
}

#[repr(C)]
#[derive(Default)]
pub struct RawVersion {
    pub major: u32,
    pub minor: u32,
    pub patch: u32,
}

const _: () =
    assert!(std::mem::size_of::<RawStore>() == 16 && std::mem::size_of::<RawRequest>() == 24);
const _: () =
    assert!(std::mem::size_of::<RawFile>() == 24 && std::mem::size_of::<RawFileState>() == 32);
const _: () =
    assert!(std::mem::size_of::<RawReply>() == 184 && std::mem::size_of::<RawEvent>() == 56);
const _: () = assert!(std::mem::size_of::<RawCause>() == 24 && std::mem::size_of::<RawRow>() == 16);

pub const OK: u32 = 0;
pub const BAD_TREE: u32 = 3;
pub const NO_SUCH: u32 = 5;
pub const OUT_OF_MEMORY: u32 = 6;
pub const BAD_RUN: u32 = 7;
pub const OTHER_TABLES: u32 = 9;
pub const UNFINISHED: u32 = 10;
pub const UNTOLD: u32 = 11;
pub const TOO_LONG: u32 = 8;
pub const STOPPED: u32 = 12;
pub const UNSURE: u32 = 13;
pub const NO_ROOM: u32 = 14;
pub const DAMAGED: u32 = 16;
pub const OTHER_CAPACITY: u32 = 17;
pub const BUSY: u32 = 18;
pub const IO: u32 = 19;

pub const TABLES: u8 = 0;
pub const TYPES: u8 = 1;
pub const NODES: u8 = 2;

extern "C" {
    pub fn tebaldi_version(version: *mut RawVersion);
    pub fn tebaldi_open(
        store: *mut RawStore,
        tree: *const u8,
        tree_len: usize,
        fault: *mut u8,
        fault_room: usize,
        fault_len: *mut usize,
    ) -> u32;
    pub fn tebaldi_file_open(
        file: *mut RawFile,
        path: *const c_char,
        tree: *const u8,
        tree_len: usize,
        fault: *mut u8,
        fault_room: usize,
        fault_len: *mut usize,
        place: *mut u64,
    ) -> u32;
    pub fn tebaldi_file_next_epoch(
        file: *mut RawFile,
        tree: *const u8,
        tree_len: usize,
        fault: *mut u8,
        fault_room: usize,
        fault_len: *mut usize,
        who: *mut u32,
    ) -> u32;
    pub fn tebaldi_file_ask(
        file: *mut RawFile,
        session: u8,
        request: *const RawRequest,
        reply: *mut RawReply,
    ) -> u32;
    pub fn tebaldi_file_close(file: *mut RawFile);
    pub fn tebaldi_file_state(store: *mut RawStore, state: *mut RawFileState) -> u32;
    pub fn tebaldi_ask(
        store: *mut RawStore,
        session: u8,
        request: *const RawRequest,
        reply: *mut RawReply,
    ) -> u32;
    pub fn tebaldi_number(
        store: *mut RawStore,
        list: u8,
        name: *const u8,
        name_len: usize,
        number: *mut u8,
    ) -> u32;
    pub fn tebaldi_name(
        store: *mut RawStore,
        list: u8,
        number: u8,
        out: *mut u8,
        room: usize,
        len: *mut usize,
    ) -> u32;
    pub fn tebaldi_line(
        store: *mut RawStore,
        session: u8,
        reply: *const RawReply,
        out: *mut u8,
        room: usize,
        len: *mut usize,
    ) -> u32;
    pub fn tebaldi_order(store: *mut RawStore, out: *mut u32, room: usize, len: *mut usize) -> u32;
    pub fn tebaldi_rows(
        store: *mut RawStore,
        out: *mut RawRow,
        room: usize,
        len: *mut usize,
    ) -> u32;
    pub fn tebaldi_event(store: *mut RawStore, place: usize, event: *mut RawEvent) -> u32;
    pub fn tebaldi_run_text(
        store: *mut RawStore,
        out: *mut u8,
        room: usize,
        len: *mut usize,
    ) -> u32;
    pub fn tebaldi_audit(text: *const u8, text_len: usize, line: *mut u32, why: *mut u8) -> u32;
}
