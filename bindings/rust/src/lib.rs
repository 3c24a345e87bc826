//! A session table that many threads share without a lock round it: keys of two words ([`V4`], IPv4 flows) or of five
//! ([`V6`], IPv6 flows), each with a value of 64 bits.
//!
//! ```
//! use bihash::{Answer, Table, V4};
//!
//! let mut table = Table::<V4>::new().unwrap();
//! let mut caller = table.split().unwrap();
//! let caller = std::thread::spawn(move || {
//!     assert_eq!(caller.add(&[1, 2], 3), Answer::Added);
//!     caller
//! });
//! table.join(caller.join().unwrap()).unwrap();
//! assert_eq!(table.search(&[1, 2]), Answer::Found(3));
//! let pairs = table.close().unwrap();
//! assert_eq!(pairs, [([1, 2], 3)]);
//! ```
//!
//! A caller goes to any thread, but two threads don't share one:
//!
//! ```compile_fail
//! fn shared<T: Sync>() {}
//! shared::<bihash::Caller<bihash::V4>>();
//! ```

mod calls;
mod family;

use calls::{Expiry as RawExpiry, Handle, Key, RawAnswer};
use family::{NOTHING, options};
use std::cell::Cell;
use std::fmt;
use std::hint::spin_loop;
use std::marker::PhantomData;
use std::mem::{ManuallyDrop, MaybeUninit};
use std::ops::{Deref, DerefMut, Range};
use std::sync::atomic::{AtomicU64, Ordering};

pub use family::{Family, V4, V6};

/// The value that may not be set, all ones.
pub const NO_VALUE: u64 = u64::MAX;

/// The answer of a call on a key. A value is the one that was found.
#[derive(Clone, Copy, Debug, PartialEq, Eq)]
pub enum Answer {
    /// Nothing was changed: the key has no value.
    Absent,
    /// Nothing was changed: the key has this value.
    Found(u64),
    /// Done: the key had no value.
    Added,
    /// Done: the key had this value.
    Replaced(u64),
    /// Not done: the bucket was changed 2^33 - 1 times, until the table is renewed.
    Worn(Option<u64>),
    /// Not done: the bucket has no room for another key.
    Full,
    /// Not done: a block of `2^log2` pages is wanted and not there; `left` pages were never used.
    NoPages { log2: u64, left: u64 },
}

/// Another caller stood in the way of a try, and nothing was done.
#[derive(Clone, Copy, Debug, PartialEq, Eq)]
pub struct Contended;

/// Why a call on callers was not done. Nothing is lost then.
#[derive(Clone, Copy, Debug, PartialEq, Eq)]
pub enum Fault {
    /// Another caller stood in the way, or its hold of the table was not let go of yet.
    Contended,
    /// Memory was refused.
    Memory,
    /// The table had as many callers as it can have.
    Numbers,
    /// A caller of the table was not joined, or was dropped.
    Strangers,
}

/// Which values count as expired: those whose bits that `mask` has are, as a number, below `least`.
#[derive(Clone, Copy, Debug, PartialEq, Eq)]
pub struct Expiry {
    pub mask: u64,
    pub least: u64,
}

impl Expiry {
    /// Of values whose low 32 bits are the second of their last use: those that were not used for more than `timeout`
    /// seconds at `moment`.
    pub fn at(moment: u32, timeout: u32) -> Expiry {
        let least = u64::from(moment.saturating_sub(timeout));
        Expiry { mask: u64::from(u32::MAX), least }
    }

    /// Of values whose low 32 bits are the second at which they end: those that end at `moment` or before.
    pub fn of_deadlines(moment: u32) -> Expiry {
        Expiry { mask: u64::from(u32::MAX), least: u64::from(moment) + 1 }
    }

    fn raw(self) -> RawExpiry {
        RawExpiry { mask: self.mask, least: self.least }
    }
}

fn answer_of(answer: RawAnswer) -> Result<Answer, Contended> {
    Ok(match answer.kind {
        0 => Answer::Absent,
        1 => Answer::Found(answer.value),
        2 => Answer::Added,
        3 => Answer::Replaced(answer.value),
        4 => Answer::Worn(None),
        5 => Answer::Worn(Some(answer.value)),
        6 => Answer::Full,
        7 => Answer::NoPages { log2: answer.log2, left: answer.value },
        8 => return Err(Contended),
        kind => unreachable!("an answer of kind {kind}"),
    })
}

fn done(answer: u32) -> Result<(), Fault> {
    match answer {
        0 => Ok(()),
        8 => Err(Fault::Contended),
        9 => Err(Fault::Memory),
        10 => Err(Fault::Numbers),
        11 => Err(Fault::Strangers),
        _ => unreachable!("an answer of number {answer}"),
    }
}

fn checked(value: u64) -> u64 {
    assert_ne!(value, NO_VALUE, "the value of all ones may not be set");
    value
}

/// What is behind a handle, freed with it. The number is that of the table.
struct Held<F: Family> {
    handle: Handle,
    table: u64,
    // Not `Sync`: a handle is for one thread at a time.
    of_one: PhantomData<(F, Cell<()>)>,
}

// The library proves that its handles may go to other threads.
unsafe impl<F: Family> Send for Held<F> {}

impl<F: Family> Drop for Held<F> {
    fn drop(&mut self) {
        unsafe { calls::bihash_free(&mut self.handle) }
    }
}

/// A caller of a table. A thread has one of its own. One that is dropped and not joined leaves its table unable to close
/// or to be renewed.
pub struct Caller<F: Family> {
    held: Held<F>,
}

/// A table with its first caller, as which it is called itself.
pub struct Table<F: Family> {
    caller: Caller<F>,
}

static TABLES: AtomicU64 = AtomicU64::new(0);

// How many keys go to the library at once.
const BURST: usize = 32;

/// The calls on a key, one try each, and the same until a try is answered.
macro_rules! calls {
    ($($(#[$text:meta])* $name:ident, $try_name:ident($($given:ident: $kind:ty),*) => |$h:ident, $k:ident| $call:expr;)*) => {
        $(
            $(#[$text])*
            pub fn $name(&mut self, key: &F::Key, $($given: $kind),*) -> Answer {
                loop {
                    if let Ok(answer) = self.$try_name(key, $($given),*) {
                        return answer;
                    }
                    spin_loop();
                }
            }

            /// The same in one try.
            pub fn $try_name(&mut self, key: &F::Key, $($given: $kind),*) -> Result<Answer, Contended> {
                let ($h, $k) = (&mut self.held.handle, &F::raw(key));
                answer_of(unsafe { $call })
            }
        )*
    };
}

impl<F: Family> Caller<F> {
    /// A new caller of the same table, which knows what this one knows.
    pub fn split(&mut self) -> Result<Caller<F>, Fault> {
        let mut fresh = Handle::none();
        loop {
            match done(unsafe { calls::bihash_split(&mut self.held.handle, &mut fresh) }) {
                Err(Fault::Contended) => spin_loop(),
                Err(fault) => return Err(fault),
                Ok(()) => break,
            }
        }
        Ok(Caller::of(fresh, self.held.table))
    }

    fn of(handle: Handle, table: u64) -> Caller<F> {
        let of_one = PhantomData;
        Caller { held: Held { handle, table, of_one } }
    }

    /// Ends the other caller, whose numbers this one has then. One of another table comes back.
    pub fn join(&mut self, other: Caller<F>) -> Result<(), Caller<F>> {
        if other.held.table != self.held.table {
            return Err(other);
        }
        // The library takes what is behind its handle, so nothing is freed here.
        let mut other = ManuallyDrop::new(other);
        unsafe { calls::bihash_join(&mut self.held.handle, &mut other.held.handle) };
        Ok(())
    }

    /// Tells two callers of one table what either knows, and whether they are of one table.
    pub fn meet(&mut self, other: &mut Caller<F>) -> bool {
        let is_same = other.held.table == self.held.table;
        if is_same {
            unsafe { calls::bihash_meet(&mut self.held.handle, &mut other.held.handle) };
        }
        is_same
    }

    /// Whether every other caller of the table was joined into this one.
    pub fn is_lone(&mut self) -> bool {
        unsafe { calls::bihash_is_lone(&mut self.held.handle) }
    }

    /// The bucket of the last answered call, and how many changes the bucket had when that was done, its own included.
    pub fn stamp(&mut self) -> Option<(u64, u64)> {
        let stamp = unsafe { calls::bihash_stamp_of(&mut self.held.handle) };
        (stamp.known != 0).then_some((stamp.bucket, stamp.stamp))
    }

    calls! {
        /// The value of the key.
        search, try_search() => |handle, key| calls::bihash_search(handle, key);
        /// Sets the value, whatever was found. Panics at `NO_VALUE`.
        add, try_add(value: u64) => |handle, key| calls::bihash_add(handle, key, checked(value));
        /// Sets the value where there is none. Panics at `NO_VALUE`.
        add_if_absent, try_add_if_absent(value: u64) => |handle, key| calls::bihash_add_if_absent(handle, key, checked(value));
        /// Sets the value where there is one. Panics at `NO_VALUE`.
        touch, try_touch(value: u64) => |handle, key| calls::bihash_touch(handle, key, checked(value));
        /// Sets the value where the key still has the value `was`; `Found` tells another one that is there. Panics at
        /// `NO_VALUE`.
        replace_if, try_replace_if(was: u64, value: u64) => |handle, key|
            calls::bihash_replace_if(handle, key, was, checked(value));
        /// Takes the value away.
        remove, try_remove() => |handle, key| calls::bihash_remove(handle, key);
        /// As `add`; in a full bucket the new pair takes the place of the expired one with the least key.
        add_or_recycle, try_add_or_recycle(value: u64, expiry: Expiry) => |handle, key|
            calls::bihash_add_or_recycle(handle, key, checked(value), &expiry.raw());
        /// As `add_if_absent`, in the same way.
        add_if_absent_or_recycle, try_add_if_absent_or_recycle(value: u64, expiry: Expiry) => |handle, key|
            calls::bihash_add_if_absent_or_recycle(handle, key, checked(value), &expiry.raw());
    }

    /// Loads what calls on these keys will load first, so that the processor waits for all of it at once, and tells nothing:
    /// before bursts of calls on a table that is larger than the processor's caches.
    pub fn look_ahead(&mut self, keys: &[F::Key]) {
        for burst in keys.chunks(BURST) {
            let mut raw = [Key { words: [0; 5] }; BURST];
            for (own, key) in raw.iter_mut().zip(burst) {
                *own = F::raw(key);
            }
            unsafe { calls::bihash_look_ahead(&mut self.held.handle, raw.as_ptr(), burst.len()) };
        }
    }

    /// Looks at a bucket, and takes away one pair there whose value is expired: `Replaced` with the value that went, or
    /// `Worn`. `Absent`: no pair of the bucket was expired, or the table has no such bucket. A new table has 4,096
    /// buckets, or 1,024 of [`V6`], and a large one 65,536.
    pub fn expire(&mut self, bucket: u64, expiry: Expiry) -> Answer {
        loop {
            if let Ok(answer) = self.try_expire(bucket, expiry) {
                return answer;
            }
            spin_loop();
        }
    }

    /// The same in one try.
    pub fn try_expire(&mut self, bucket: u64, expiry: Expiry) -> Result<Answer, Contended> {
        answer_of(unsafe { calls::bihash_expire(&mut self.held.handle, bucket, &expiry.raw()) })
    }

    /// Takes the expired pairs of these buckets away, of each until a look finds none there or its changes are used up,
    /// and says how many went.
    pub fn sweep(&mut self, buckets: Range<u64>, expiry: Expiry) -> u64 {
        let mut went = 0;
        for bucket in buckets {
            while let Answer::Replaced(_) = self.expire(bucket, expiry) {
                went += 1;
            }
        }
        went
    }
}

impl<F: Family> Table<F> {
    /// A new table.
    pub fn new() -> Result<Table<F>, Fault> {
        Table::made(false)
    }

    /// A new large table: 65,536 buckets, 1,048,576 places in all.
    pub fn large() -> Result<Table<F>, Fault> {
        Table::made(true)
    }

    fn made(is_large: bool) -> Result<Table<F>, Fault> {
        let mut handle = Handle::none();
        done(unsafe { calls::bihash_create_with(&mut handle, &options::<F>(is_large), NOTHING, 0) })?;
        Ok(Table { caller: Caller::of(handle, TABLES.fetch_add(1, Ordering::Relaxed)) })
    }

    /// Opens the table again: its pairs stay, and its buckets count their changes anew. All callers were joined before.
    pub fn renew(&mut self) -> Result<(), Fault> {
        done(unsafe { calls::bihash_renew(&mut self.caller.held.handle) })
    }

    /// Ends the table, and gives its pairs in the order of their keys. All callers were joined before; refused, the
    /// table comes back.
    pub fn close(mut self) -> Result<Vec<(F::Key, u64)>, (Fault, Table<F>)> {
        let handle = &mut self.caller.held.handle;
        if let Err(fault) = done(unsafe { calls::bihash_close(handle) }) {
            return Err((fault, self));
        }
        let count = unsafe { calls::bihash_pair_count(handle) };
        Ok((0..count).map_while(|at| pair_at::<F>(handle, at)).collect())
    }
}

/// The pair at a place, of a table that was closed.
fn pair_at<F: Family>(handle: &mut Handle, at: u64) -> Option<(F::Key, u64)> {
    let mut pair = MaybeUninit::uninit();
    let is_there = unsafe { calls::bihash_pair_at(handle, at, pair.as_mut_ptr()) };
    is_there.then(|| {
        let pair = unsafe { pair.assume_init() };
        (F::of_raw(pair.key), pair.value)
    })
}

impl<F: Family> fmt::Debug for Caller<F> {
    fn fmt(&self, f: &mut fmt::Formatter<'_>) -> fmt::Result {
        f.debug_struct("Caller").field("table", &self.held.table).finish_non_exhaustive()
    }
}

impl<F: Family> fmt::Debug for Table<F> {
    fn fmt(&self, f: &mut fmt::Formatter<'_>) -> fmt::Result {
        f.debug_struct("Table").field("caller", &self.caller).finish()
    }
}

impl<F: Family> Deref for Table<F> {
    type Target = Caller<F>;

    fn deref(&self) -> &Caller<F> {
        &self.caller
    }
}

impl<F: Family> DerefMut for Table<F> {
    fn deref_mut(&mut self) -> &mut Caller<F> {
        &mut self.caller
    }
}
