//! The library's functions as include/bihash.h declares them.
use std::ptr::null_mut;

/// The one pointer of a handle.
#[repr(transparent)]
pub struct Handle {
    at: *mut u8,
}

impl Handle {
    pub fn none() -> Handle {
        Handle { at: null_mut() }
    }
}

#[repr(C)]
pub struct Options {
    pub size: u32,
    pub words: u32,
    pub tables: u32,
}

/// A key. A table whose keys have two words sees the first two alone.
#[repr(C)]
#[derive(Clone, Copy)]
pub struct Key {
    pub words: [u64; 5],
}

#[repr(C)]
pub struct RawAnswer {
    pub kind: u32,
    pub value: u64,
    pub log2: u64,
}

#[repr(C)]
pub struct Stamp {
    pub known: u32,
    pub bucket: u64,
    pub stamp: u64,
}

#[repr(C)]
pub struct Expiry {
    pub mask: u64,
    pub least: u64,
}

#[repr(C)]
pub struct Pair {
    pub key: Key,
    pub value: u64,
}

unsafe extern "C" {
    pub fn bihash_create_with(handle: *mut Handle, options: *const Options, rest: *const u8, rest_length: usize)
    -> u32;
    pub fn bihash_split(handle: *mut Handle, fresh: *mut Handle) -> u32;
    pub fn bihash_join(handle: *mut Handle, other: *mut Handle);
    pub fn bihash_meet(handle: *mut Handle, other: *mut Handle);
    pub fn bihash_is_lone(handle: *mut Handle) -> bool;
    pub fn bihash_stamp_of(handle: *mut Handle) -> Stamp;
    pub fn bihash_search(handle: *mut Handle, key: *const Key) -> RawAnswer;
    pub fn bihash_add(handle: *mut Handle, key: *const Key, value: u64) -> RawAnswer;
    pub fn bihash_add_if_absent(handle: *mut Handle, key: *const Key, value: u64) -> RawAnswer;
    pub fn bihash_touch(handle: *mut Handle, key: *const Key, value: u64) -> RawAnswer;
    pub fn bihash_replace_if(handle: *mut Handle, key: *const Key, was: u64, value: u64) -> RawAnswer;
    pub fn bihash_remove(handle: *mut Handle, key: *const Key) -> RawAnswer;
    pub fn bihash_add_or_recycle(handle: *mut Handle, key: *const Key, value: u64, expiry: *const Expiry) -> RawAnswer;
    pub fn bihash_add_if_absent_or_recycle(
        handle: *mut Handle,
        key: *const Key,
        value: u64,
        expiry: *const Expiry,
    ) -> RawAnswer;
    pub fn bihash_look_ahead(handle: *mut Handle, keys: *const Key, count: usize);
    pub fn bihash_bucket_of_with(options: *const Options, rest: *const u8, rest_length: usize, key: *const Key) -> u64;
    pub fn bihash_expire(handle: *mut Handle, bucket: u64, expiry: *const Expiry) -> RawAnswer;
    pub fn bihash_renew(handle: *mut Handle) -> u32;
    pub fn bihash_close(handle: *mut Handle) -> u32;
    pub fn bihash_pair_count(handle: *mut Handle) -> u64;
    pub fn bihash_pair_at(handle: *mut Handle, at: u64, pair: *mut Pair) -> bool;
    pub fn bihash_free(handle: *mut Handle);
}
