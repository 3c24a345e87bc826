//! The families of tables, by what their keys are.
use crate::calls::{Key, Options, bihash_bucket_of_with};
use std::ptr::NonNull;

/// The place of no bytes, which options have behind them.
pub(crate) const NOTHING: *const u8 = NonNull::dangling().as_ptr();

/// Tables of IPv4 flows, whose keys have two words.
pub struct V4;

/// Tables of IPv6 flows, whose keys have five words.
pub struct V6;

/// A family of tables: [`V4`] or [`V6`].
pub trait Family: Sized + sealed::Sealed {
    type Key: Copy + 'static;

    #[doc(hidden)]
    const WORDS: u32;

    #[doc(hidden)]
    #[allow(private_interfaces)]
    fn raw(key: &Self::Key) -> Key;

    #[doc(hidden)]
    #[allow(private_interfaces)]
    fn of_raw(key: Key) -> Self::Key;

    /// The bucket of a key in a table that is not large.
    fn bucket_of(key: &Self::Key) -> u64 {
        unsafe { bihash_bucket_of_with(&options::<Self>(false), NOTHING, 0, &Self::raw(key)) }
    }

    /// The bucket of a key in a large table.
    fn bucket_of_large(key: &Self::Key) -> u64 {
        unsafe { bihash_bucket_of_with(&options::<Self>(true), NOTHING, 0, &Self::raw(key)) }
    }
}

/// What the library is told of a table of this family.
pub(crate) fn options<F: Family>(is_large: bool) -> Options {
    Options { size: size_of::<Options>() as u32, words: F::WORDS, tables: u32::from(is_large) }
}

mod sealed {
    pub trait Sealed {}
    impl Sealed for super::V4 {}
    impl Sealed for super::V6 {}
}

impl Family for V4 {
    type Key = [u64; 2];

    const WORDS: u32 = 2;

    #[allow(private_interfaces)]
    fn raw(key: &[u64; 2]) -> Key {
        Key { words: [key[0], key[1], 0, 0, 0] }
    }

    #[allow(private_interfaces)]
    fn of_raw(key: Key) -> [u64; 2] {
        [key.words[0], key.words[1]]
    }
}

impl Family for V6 {
    type Key = [u64; 5];

    const WORDS: u32 = 5;

    #[allow(private_interfaces)]
    fn raw(key: &[u64; 5]) -> Key {
        Key { words: *key }
    }

    #[allow(private_interfaces)]
    fn of_raw(key: Key) -> [u64; 5] {
        key.words
    }
}
