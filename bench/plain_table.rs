//! The shared table in plain Rust, without proofs: what `bench/measure_tables` compares with. It has the same layout,
//! the same locks, the same growth and the same answers, and makes the same calls as `bench/tables.program`.
//!
//! It is what one would write by hand for this design. The hash is computed once a call. A search takes no lock: it
//! reads the bucket's word, the places of one page, and the word again. An update reads and decides in the same way and
//! then locks the bucket from the word that it saw, so that it looks for the key once. The places are looked at one after
//! the other, and the first word that differs ends the look at a place. Atomic steps have the weakest order that is
//! right: acquire and release at the locks, relaxed at the words of the pages, and a fence where a relaxed step needs
//! one. Built with `--cfg ordered`, each step is sequentially consistent, as in the proved table. Built with
//! `--cfg masked`, a search compares the last word of the four keys of a page before it branches, as the proved one does.

use std::hint::spin_loop;
use std::sync::atomic::{AtomicU64, Ordering, fence};
use std::thread;
use std::time::Instant;

const FREE: u64 = u64::MAX;
const PAGE_PLACES: usize = 4;
const MAX_LOG2: u64 = 6;
const LOCK: u64 = 1 << 30;
const LIMIT: u64 = (1 << 33) - 1;

const CALLS: u64 = 4_000_000;
const ABSENT: u64 = 1 << 40;
const OWN_KEYS: u64 = 512;

#[cfg(not(ordered))]
const ACQUIRE: Ordering = Ordering::Acquire;
#[cfg(not(ordered))]
const RELEASE: Ordering = Ordering::Release;
#[cfg(not(ordered))]
const RELAXED: Ordering = Ordering::Relaxed;
#[cfg(ordered)]
const ACQUIRE: Ordering = Ordering::SeqCst;
#[cfg(ordered)]
const RELEASE: Ordering = Ordering::SeqCst;
#[cfg(ordered)]
const RELAXED: Ordering = Ordering::SeqCst;

/// A fence for relaxed steps. Sequentially consistent ones need none.
#[inline(always)]
fn order(fence_of: Ordering) {
    if cfg!(not(ordered)) {
        fence(fence_of);
    }
}

fn mix(z: u64) -> u64 {
    let z = (z ^ (z >> 30)).wrapping_mul(0xbf58476d1ce4e5b9);
    let z = (z ^ (z >> 27)).wrapping_mul(0x94d049bb133111eb);
    z ^ (z >> 31)
}

fn hash<const W: usize>(key: &[u64; W]) -> u64 {
    key.iter().fold(0, |mixed, word| mix(mixed ^ word))
}

/// A bucket's word: 24 bits for the first page, 5 for the log2 of the pages, the linear mark, the lock
/// bit, and 33 bits for the version.
#[derive(Clone, Copy)]
struct Word(u64);

impl Word {
    fn pack(page: u64, log2: u64, linear: bool, version: u64) -> Word {
        Word(page | log2 << 24 | u64::from(linear) << 29 | version << 31)
    }

    fn page(self) -> u64 {
        self.0 & 0xff_ffff
    }

    fn log2(self) -> u64 {
        (self.0 >> 24) & 31
    }

    fn linear(self) -> bool {
        (self.0 >> 29) & 1 == 1
    }

    fn version(self) -> u64 {
        self.0 >> 31
    }

    fn places(self) -> usize {
        if self.page() == 0 { 0 } else { PAGE_PLACES << self.log2() }
    }

    fn locked(self) -> bool {
        self.0 & LOCK != 0
    }

    fn next(self) -> Word {
        Word(self.0 + (1 << 31))
    }
}

#[derive(Clone, Copy, PartialEq)]
enum Reply {
    Kept(Option<u64>),
    Changed(Option<u64>),
    Worn(Option<u64>),
    Full,
    NoPages,
}

#[derive(Clone, Copy)]
enum Change {
    Set(u64),
    Remove,
}

/// The stamp of a caller's last call, and the lists that it splits blocks with.
struct Caller<const W: usize> {
    stamp: (u64, u64),
    old: Vec<([u64; W], u64)>,
    new: Vec<([u64; W], u64)>,
}

impl<const W: usize> Caller<W> {
    fn new() -> Caller<W> {
        let places = vec![([0; W], FREE); PAGE_PLACES << MAX_LOG2];
        Caller { stamp: (0, 0), old: places.clone(), new: places }
    }
}

/// A table of pages of four places, with keys of `W` words and `2^B` buckets.
struct Table<const W: usize, const B: u64> {
    lock: AtomicU64,
    used: AtomicU64,
    counts: [AtomicU64; MAX_LOG2 as usize + 1],
    lists: Vec<Box<[AtomicU64]>>,
    buckets: Box<[AtomicU64]>,
    pages: Box<[AtomicU64]>,
    page_count: u64,
}

fn words(count: usize) -> Box<[AtomicU64]> {
    (0..count).map(|_| AtomicU64::new(0)).collect()
}

impl<const W: usize, const B: u64> Table<W, B> {
    const PLACE: usize = W + 1;
    const PAGE: usize = PAGE_PLACES * Self::PLACE;

    fn new(page_count: u64) -> Table<W, B> {
        Table {
            lock: AtomicU64::new(0),
            used: AtomicU64::new(0),
            counts: Default::default(),
            lists: (0..=MAX_LOG2).map(|log2| words((page_count >> log2) as usize)).collect(),
            buckets: words(1 << B),
            pages: words(page_count as usize * Self::PAGE),
            page_count,
        }
    }

    /// A bucket's word, once it isn't locked.
    #[inline(always)]
    fn look(&self, bucket: usize) -> Word {
        loop {
            let word = Word(self.buckets[bucket].load(ACQUIRE));
            if !word.locked() {
                return word;
            }
            spin_loop();
        }
    }

    /// Whether the bucket still has this word, so that what was read since is its block's.
    #[inline(always)]
    fn validate(&self, caller: &mut Caller<W>, bucket: usize, word: Word) -> bool {
        order(ACQUIRE);
        let still = self.buckets[bucket].load(RELAXED) == word.0;
        if still {
            caller.stamp = (bucket as u64, word.version());
        }
        still
    }

    /// Locks a bucket that still has this word.
    #[inline(always)]
    fn lock(&self, bucket: usize, word: Word) -> bool {
        let at = &self.buckets[bucket];
        let locked = at.compare_exchange(word.0, word.0 | LOCK, ACQUIRE, RELAXED).is_ok();
        // Who reads a word that is stored from here on finds the lock afterwards.
        order(RELEASE);
        locked
    }

    #[inline(always)]
    fn unlock(&self, caller: &mut Caller<W>, bucket: usize, word: Word) {
        self.buckets[bucket].store(word.0, RELEASE);
        caller.stamp = (bucket as u64, word.version());
    }

    /// The words of the places that are open to a key of this hash.
    #[inline(always)]
    fn open(&self, word: Word, hash: u64) -> &[AtomicU64] {
        if word.page() == 0 {
            return &[];
        }
        let first = (word.page() - 1) as usize * Self::PAGE;
        if word.linear() {
            return &self.pages[first..first + (Self::PAGE << word.log2())];
        }
        let page = (hash >> B) as usize & ((1 << word.log2()) - 1);
        let first = first + page * Self::PAGE;
        &self.pages[first..first + Self::PAGE]
    }

    /// The place of the key's pair, and its value.
    #[cfg(not(masked))]
    #[inline(always)]
    fn find<'a>(&'a self, word: Word, hash: u64, key: &[u64; W]) -> Option<(&'a [AtomicU64], u64)> {
        self.open(word, hash).chunks_exact(Self::PLACE).find_map(|place| Self::value_at(place, key, W))
    }

    /// The same, page by page, with one branch where no key of a page ends with the same word.
    #[cfg(masked)]
    #[inline(always)]
    fn find<'a>(&'a self, word: Word, hash: u64, key: &[u64; W]) -> Option<(&'a [AtomicU64], u64)> {
        for page in self.open(word, hash).chunks_exact(Self::PAGE) {
            let ends: [bool; PAGE_PLACES] =
                std::array::from_fn(|i| page[i * Self::PLACE + W - 1].load(RELAXED) == key[W - 1]);
            if !(ends[0] | ends[1] | ends[2] | ends[3]) {
                continue;
            }
            for (place, _) in page.chunks_exact(Self::PLACE).zip(ends).filter(|(_, ends)| *ends) {
                if let Some(pair) = Self::value_at(place, key, W - 1) {
                    return Some(pair);
                }
            }
        }
        None
    }

    /// A place and its value, where the place has a pair and its first words are those of the key.
    #[inline(always)]
    fn value_at<'a>(place: &'a [AtomicU64], key: &[u64; W], words: usize) -> Option<(&'a [AtomicU64], u64)> {
        for i in 0..words {
            if place[i].load(RELAXED) != key[i] {
                return None;
            }
        }
        let value = place[W].load(RELAXED);
        (value != FREE).then_some((place, value))
    }

    fn search(&self, caller: &mut Caller<W>, key: &[u64; W]) -> Option<u64> {
        let hash = hash(key);
        let bucket = hash as usize & ((1 << B) - 1);
        loop {
            let word = self.look(bucket);
            let found = self.find(word, hash, key).map(|(_, value)| value);
            if self.validate(caller, bucket, word) {
                return found;
            }
            spin_loop();
        }
    }

    fn update(&self, caller: &mut Caller<W>, key: &[u64; W], change: Change) -> Reply {
        let hash = hash(key);
        let bucket = hash as usize & ((1 << B) - 1);
        loop {
            let word = self.look(bucket);
            let pair = self.find(word, hash, key);
            let found = pair.map(|(_, value)| value);
            let refusal = match (change, found) {
                (Change::Set(value), Some(old)) if value == old => Some(Reply::Kept(found)),
                (Change::Remove, None) => Some(Reply::Kept(None)),
                _ if word.version() == LIMIT => Some(Reply::Worn(found)),
                _ => None,
            };
            if let Some(reply) = refusal {
                if self.validate(caller, bucket, word) {
                    return reply;
                }
            } else if self.lock(bucket, word) {
                return match (change, pair) {
                    (Change::Set(value), None) => self.enter(caller, bucket, word, hash, key, value),
                    (Change::Set(value), Some((place, _))) => {
                        place[W].store(value, RELAXED);
                        self.unlock(caller, bucket, word.next());
                        Reply::Changed(found)
                    }
                    (Change::Remove, pair) => self.remove(caller, bucket, word, pair),
                };
            }
            spin_loop();
        }
    }

    /// Adds a pair whose key has none, under the lock.
    #[inline(always)]
    fn enter(&self, caller: &mut Caller<W>, bucket: usize, word: Word, hash: u64, key: &[u64; W], value: u64) -> Reply {
        for place in self.open(word, hash).chunks_exact(Self::PLACE) {
            if place[W].load(RELAXED) == FREE {
                for i in 0..W {
                    place[i].store(key[i], RELAXED);
                }
                place[W].store(value, RELAXED);
                self.unlock(caller, bucket, word.next());
                return Reply::Changed(None);
            }
        }
        self.grow(caller, bucket, word, key, value)
    }

    /// Removes a pair, under the lock. Where it was the bucket's last one, its block goes.
    #[inline(always)]
    fn remove(&self, caller: &mut Caller<W>, bucket: usize, word: Word, pair: Option<(&[AtomicU64], u64)>) -> Reply {
        let Some((place, found)) = pair else {
            return Reply::Kept(None);
        };
        let first = (word.page() - 1) as usize * Self::PAGE;
        let all = &self.pages[first..first + (Self::PAGE << word.log2())];
        let own = place.as_ptr();
        let others = all
            .chunks_exact(Self::PLACE)
            .any(|other| other.as_ptr() != own && other[W].load(RELAXED) != FREE);
        if others {
            place[W].store(FREE, RELAXED);
            self.unlock(caller, bucket, word.next());
        } else {
            self.lock_store();
            self.unlock(caller, bucket, Word::pack(0, 0, false, word.version() + 1));
            self.give_back(word.log2(), word.page());
            self.lock.store(0, RELEASE);
        }
        Reply::Changed(Some(found))
    }

    #[inline(never)]
    fn grow(&self, caller: &mut Caller<W>, bucket: usize, word: Word, key: &[u64; W], value: u64) -> Reply {
        let count = word.places();
        if count > 0 {
            let first = (word.page() - 1) as usize * Self::PAGE;
            let block = &self.pages[first..first + (Self::PAGE << word.log2())];
            for (place, pair) in block.chunks_exact(Self::PLACE).zip(&mut caller.old) {
                for i in 0..W {
                    pair.0[i] = place[i].load(RELAXED);
                }
                pair.1 = place[W].load(RELAXED);
            }
        }
        let Some((log2, linear)) = larger::<W, B>(&caller.old[..count], word, key) else {
            self.unlock(caller, bucket, word);
            return Reply::Full;
        };
        self.lock_store();
        let Some(page) = self.take(log2) else {
            self.lock.store(0, RELEASE);
            self.unlock(caller, bucket, word);
            return Reply::NoPages;
        };
        let out = &mut caller.new[..PAGE_PLACES << log2];
        out.fill((*key, FREE));
        let new = (*key, value);
        for pair in caller.old[..count].iter().filter(|pair| pair.1 != FREE).chain([&new]) {
            let from = if linear { 0 } else { PAGE_PLACES * page_of::<W, B>(&pair.0, log2) };
            if let Some(free) = out[from..].iter_mut().find(|place| place.1 == FREE) {
                *free = *pair;
            }
        }
        // Who reads a word of a block that its bucket no longer has finds that bucket's word changed afterwards.
        order(RELEASE);
        let first = (page - 1) as usize * Self::PAGE;
        let block = &self.pages[first..first + (Self::PAGE << log2)];
        for (place, pair) in block.chunks_exact(Self::PLACE).zip(&caller.new) {
            for i in 0..W {
                place[i].store(pair.0[i], RELAXED);
            }
            place[W].store(pair.1, RELAXED);
        }
        self.unlock(caller, bucket, Word::pack(page, log2, linear, word.version() + 1));
        if count > 0 {
            self.give_back(word.log2(), word.page());
        }
        self.lock.store(0, RELEASE);
        Reply::Changed(None)
    }

    fn lock_store(&self) {
        while self.lock.compare_exchange(0, 1, ACQUIRE, RELAXED).is_err() {
            spin_loop();
        }
    }

    fn take(&self, log2: u64) -> Option<u64> {
        let count = self.counts[log2 as usize].load(RELAXED);
        if count > 0 {
            self.counts[log2 as usize].store(count - 1, RELAXED);
            return Some(self.lists[log2 as usize][count as usize - 1].load(RELAXED));
        }
        let used = self.used.load(RELAXED);
        if self.page_count - used < 1 << log2 {
            return None;
        }
        self.used.store(used + (1 << log2), RELAXED);
        Some(used + 1)
    }

    fn give_back(&self, log2: u64, page: u64) {
        let count = self.counts[log2 as usize].load(RELAXED);
        self.lists[log2 as usize][count as usize].store(page, RELAXED);
        self.counts[log2 as usize].store(count + 1, RELAXED);
    }
}

fn page_of<const W: usize, const B: u64>(key: &[u64; W], log2: u64) -> usize {
    (hash(key) >> B) as usize & ((1 << log2) - 1)
}

/// The log2 of the pages of the block that takes the pairs and a new key, and whether it is linear.
fn larger<const W: usize, const B: u64>(
    places: &[([u64; W], u64)],
    word: Word,
    key: &[u64; W],
) -> Option<(u64, bool)> {
    if places.is_empty() {
        return Some((0, false));
    }
    let log2 = word.log2();
    for size in [log2 + 1, log2 + 2] {
        if size > MAX_LOG2 {
            continue;
        }
        let mut counts = [0u8; 1 << MAX_LOG2];
        let taken = places.iter().filter(|pair| pair.1 != FREE).map(|pair| &pair.0);
        let fits = taken.chain([key]).all(|key| {
            let count = &mut counts[page_of::<W, B>(key, size)];
            *count += 1;
            *count <= PAGE_PLACES as u8
        });
        if fits {
            return Some((size, false));
        }
    }
    if log2 < MAX_LOG2 {
        return Some((log2 + 1, true));
    }
    let room = places.iter().any(|pair| pair.1 == FREE);
    (!word.linear() && room).then_some((MAX_LOG2, true))
}

trait Numbered<const W: usize> {
    fn numbered(number: u64) -> [u64; W];
}

struct Keys;

impl Numbered<2> for Keys {
    fn numbered(number: u64) -> [u64; 2] {
        let first = number.wrapping_mul(0x9e3779b97f4a7c15);
        [first, number]
    }
}

impl Numbered<5> for Keys {
    fn numbered(number: u64) -> [u64; 5] {
        let first = number.wrapping_mul(0x9e3779b97f4a7c15);
        [first, number, first, number, first]
    }
}

const HITS: u8 = 0;
const MISSES: u8 = 1;
const OVERWRITES: u8 = 2;
const CHURN: u8 = 3;

#[inline(never)]
fn work<const W: usize, const B: u64, const MIX: u8>(
    table: &Table<W, B>,
    caller: &mut Caller<W>,
    pairs: u64,
    calls: u64,
    thread: u64,
) -> u64
where
    Keys: Numbered<W>,
{
    let own = (thread + 2) << 40;
    let mut random = thread;
    let mut found = 0;
    for index in 0..calls {
        random = random.wrapping_mul(6364136223846793005).wrapping_add(1442695040888963407);
        let stored = (random >> 33).wrapping_mul(pairs) >> 31;
        let hit = if MIX == HITS || MIX == OVERWRITES && index % 20 != 0 {
            table.search(caller, &Keys::numbered(stored)).is_some()
        } else if MIX == MISSES {
            table.search(caller, &Keys::numbered(stored.wrapping_add(ABSENT))).is_some()
        } else if MIX == OVERWRITES {
            let change = Change::Set(index);
            matches!(table.update(caller, &Keys::numbered(stored), change), Reply::Changed(Some(_)))
        } else {
            let half = index / 2;
            let (number, change) = if index % 2 == 0 {
                (half % OWN_KEYS, Change::Set(half))
            } else {
                ((half + OWN_KEYS / 2) % OWN_KEYS, Change::Remove)
            };
            let key = Keys::numbered(own.wrapping_add(number));
            matches!(table.update(caller, &key, change), Reply::Changed(Some(_)))
        };
        found += u64::from(hit);
    }
    found
}

fn line<const W: usize, const B: u64, const MIX: u8>(
    table: &Table<W, B>,
    callers: &mut [Caller<W>],
    pairs: u64,
    name: &str,
    mix: &str,
) where
    Keys: Numbered<W>,
{
    let threads = callers.len();
    let calls = CALLS / threads as u64;
    let start = Instant::now();
    let found: u64 = thread::scope(|scope| {
        let (first, others) = callers.split_first_mut().unwrap();
        let run = |(i, caller)| {
            scope.spawn(move || work::<W, B, MIX>(table, caller, pairs, calls, i as u64 + 1))
        };
        let running: Vec<_> = others.iter_mut().enumerate().map(run).collect();
        let found = work::<W, B, MIX>(table, first, pairs, calls, 0);
        running.into_iter().map(|each| each.join().unwrap()).sum::<u64>() + found
    });
    let took = start.elapsed().as_micros();
    println!("{name} {pairs} {mix} {threads} {calls} {took} {found}");
}

fn table<const W: usize, const B: u64>(page_count: u64, pairs: u64, most_threads: usize, name: &str)
where
    Keys: Numbered<W>,
{
    let table = Table::<W, B>::new(page_count);
    let mut callers: Vec<_> = (0..4).map(|_| Caller::new()).collect();
    let refused = (0..pairs).find(|number| {
        let key = Keys::numbered(*number);
        table.update(&mut callers[0], &key, Change::Set(*number)) != Reply::Changed(None)
    });
    let pairs = refused.unwrap_or(pairs);
    for threads in 1..=most_threads {
        line::<W, B, HITS>(&table, &mut callers[..threads], pairs, name, "hit");
    }
    line::<W, B, MISSES>(&table, &mut callers[..1], pairs, name, "absent");
    line::<W, B, OVERWRITES>(&table, &mut callers[..1], pairs, name, "overwrite");
    line::<W, B, CHURN>(&table, &mut callers[..1], pairs, name, "churn");
}

fn main() {
    match std::env::args().nth(1).as_deref() {
        Some("16_8") => {
            table::<2, 12>(16384, 4096, 1, "16_8");
            table::<2, 12>(16384, 10000, 4, "16_8");
        }
        Some("40_8") => {
            table::<5, 10>(4096, 4096, 1, "40_8");
            table::<5, 10>(4096, 10000, 4, "40_8");
        }
        _ => eprintln!("name the bytes of a key and of a value: 16_8 or 40_8"),
    }
}
