//! The packet filter of `racl` in other programs: an Ethernet frame is handed over, and whether it passes is answered.
//!
//! ```
//! use racl::{Filter, Options};
//!
//! let policy = b"mac 02:00:00:00:00:01\nout permit+reflect ipv4 any any\n";
//! let mut filter = Filter::new(policy, &Options::default()).unwrap();
//! let mut worker = filter.split().unwrap();
//! let worker = std::thread::spawn(move || {
//!     let arp = [0xff, 0xff, 0xff, 0xff, 0xff, 0xff, 2, 0, 0, 0, 0, 1, 0x08, 0x06];
//!     assert!(worker.judge(0, 10, &arp).passes());
//!     worker
//! });
//! filter.join(worker.join().unwrap()).unwrap();
//! assert_eq!(filter.counts().not_ip, 1);
//! ```
//!
//! A worker goes to any thread, but two threads don't share one:
//!
//! ```compile_fail
//! fn shared<T: Sync>() {}
//! shared::<racl::Worker>();
//! ```

mod calls;

use calls::{Handle, Made, RawAnswer, RawEnd, RawFlow, RawOptions, RawSession};
use std::cell::Cell;
use std::fmt;
use std::hint::spin_loop;
use std::marker::PhantomData;
use std::mem::{MaybeUninit, size_of};
use std::net::{IpAddr, Ipv6Addr};
use std::ops::{Deref, DerefMut, Range};
use std::ptr::{NonNull, null_mut};
use std::sync::atomic::{AtomicU64, Ordering};

pub use calls::{Counts, Descriptor};

/// How large the session tables are.
#[derive(Clone, Copy, Debug, Default, PartialEq, Eq)]
pub enum Tables {
    #[default]
    Standard,
    Large,
}

/// What a filter is made with. Seconds are how long sessions outlive their last packet; each is at least 1.
#[derive(Clone, Copy, Debug, PartialEq, Eq)]
pub struct Options {
    pub tables: Tables,
    pub established: u32,
    pub transient: u32,
    pub udp: u32,
}

impl Default for Options {
    fn default() -> Options {
        Options { tables: Tables::Standard, established: 86_400, transient: 120, udp: 600 }
    }
}

/// Why a call was not done. Nothing is lost then.
#[derive(Clone, Copy, Debug, PartialEq, Eq)]
pub enum Fault {
    /// Memory was refused.
    Memory,
    /// The policy isn't UTF-8.
    NotUtf8,
    /// This line of the policy is wrong.
    BadLine(u64),
    /// This line of the policy is one rule too many.
    TooMany(u64),
    /// A timeout is 0.
    BadOptions,
    /// The tables had as many workers as they can have.
    Numbers,
    /// Another worker is left, or was dropped and not joined.
    Strangers,
    /// Another worker's hold of the tables was not let go yet.
    Contended,
}

impl fmt::Display for Fault {
    fn fmt(&self, f: &mut fmt::Formatter<'_>) -> fmt::Result {
        match self {
            Fault::Memory => f.write_str("no memory"),
            Fault::NotUtf8 => f.write_str("policy is not UTF-8"),
            Fault::BadLine(line) => write!(f, "policy line {line} is wrong"),
            Fault::TooMany(line) => write!(f, "policy line {line} is one rule too many"),
            Fault::BadOptions => f.write_str("a timeout is 0"),
            Fault::Numbers => f.write_str("too many workers were made"),
            Fault::Strangers => f.write_str("another worker is left"),
            Fault::Contended => f.write_str("another worker holds the tables yet"),
        }
    }
}

impl std::error::Error for Fault {}

/// Another worker stood in the way of a try, and nothing was done.
#[derive(Clone, Copy, Debug, PartialEq, Eq)]
pub struct Contended;

/// What becomes of a frame. Rules of a direction count from 1 in the section of their interface.
#[derive(Clone, Copy, Debug, PartialEq, Eq)]
pub enum Verdict {
    Session,
    Reflect(u32),
    Permit(u32),
    Deny(u32),
    ByDefault,
    Worn,
    Full,
    NoPages,
    NotIp,
    Malformed,
    Short,
}

/// Which way a packet goes at its interface.
#[derive(Clone, Copy, Debug, PartialEq, Eq)]
pub enum Direction {
    Inbound,
    Outbound,
}

/// The answer on a frame.
#[repr(transparent)]
#[derive(Clone, Copy, PartialEq, Eq)]
pub struct Answer(RawAnswer);

impl Answer {
    /// Of no frame yet: what a burst didn't reach.
    pub const NONE: Answer = Answer(RawAnswer { kind: 0, rule: 0, passes: 0, direction: 0 });

    pub fn passes(self) -> bool {
        self.0.passes != 0
    }

    /// `None`: no frame was answered here, or another worker stood in its way.
    pub fn verdict(self) -> Option<Verdict> {
        Some(match self.0.kind {
            16 => Verdict::Session,
            17 => Verdict::Reflect(self.0.rule),
            18 => Verdict::Permit(self.0.rule),
            19 => Verdict::Deny(self.0.rule),
            20 => Verdict::ByDefault,
            21 => Verdict::Worn,
            22 => Verdict::Full,
            23 => Verdict::NoPages,
            24 => Verdict::NotIp,
            25 => Verdict::Malformed,
            26 => Verdict::Short,
            _ => return None,
        })
    }

    /// `None`: the frame shows no packet.
    pub fn direction(self) -> Option<Direction> {
        match self.0.direction {
            1 => Some(Direction::Inbound),
            2 => Some(Direction::Outbound),
            _ => None,
        }
    }
}

impl fmt::Debug for Answer {
    fn fmt(&self, f: &mut fmt::Formatter<'_>) -> fmt::Result {
        f.debug_struct("Answer").field("verdict", &self.verdict()).field("direction", &self.direction()).finish()
    }
}

/// Sessions of IPv4 or of IPv6.
#[derive(Clone, Copy, Debug, PartialEq, Eq)]
pub enum Family {
    V4,
    V6,
}

/// An end of a flow. Without ports its port is 0; the flags that are kept are of TCP.
#[derive(Clone, Copy, Debug, PartialEq, Eq)]
pub struct End {
    pub address: IpAddr,
    pub port: u16,
    pub flags: u8,
}

impl End {
    fn of(family: u8, told: &RawEnd) -> End {
        let [a, b, c, d, ..] = told.address;
        let address = if family == 4 { IpAddr::from([a, b, c, d]) } else { Ipv6Addr::from(told.address).into() };
        End { address, port: told.port, flags: told.flags }
    }
}

/// A session: its flow, the latest second of its frames, and the last one in which it is live.
#[derive(Clone, Copy, Debug, PartialEq, Eq)]
pub struct Session {
    pub interface: u8,
    pub protocol: u8,
    pub first: End,
    pub second: End,
    pub last: u32,
    pub until: u64,
}

/// A frame's flow: the same for both directions at one interface.
#[derive(Clone, Copy, Debug, PartialEq, Eq)]
pub struct Flow {
    pub family: Family,
    pub hash: u64,
}

impl Flow {
    /// Of so many workers, from 0 on, the one to which the flow's frames are dealt.
    pub fn worker(self, workers: u32) -> u32 {
        unsafe { calls::racl_worker_of(RawFlow { family: self.family.number(), hash: self.hash }, workers) }
    }
}

impl Family {
    fn number(self) -> u32 {
        match self {
            Family::V4 => 4,
            Family::V6 => 6,
        }
    }

    /// Of so many workers, from 0 on, the one to which a bucket is dealt, which is that of all flows in it.
    pub fn worker_of(self, bucket: u64, workers: u32) -> u32 {
        unsafe { calls::racl_worker_of_bucket(self.number(), bucket, workers) }
    }
}

/// The library's version: three digits each are the second and the third part.
pub fn version() -> u32 {
    unsafe { calls::racl_version() }
}

/// The flow of a frame that is seen at this interface, by which frames are dealt to workers. `None`: it takes no part in
/// sessions.
pub fn flow_of(interface: u8, frame: &[u8]) -> Option<Flow> {
    let told = unsafe { calls::racl_flow_of(interface, frame.as_ptr(), frame.len()) };
    let family = match told.family {
        4 => Family::V4,
        6 => Family::V6,
        _ => return None,
    };
    Some(Flow { family, hash: told.hash })
}

const CONTENDED: u32 = 7;

fn done(kind: u32, line: u64) -> Result<(), Fault> {
    Err(match kind {
        0 => return Ok(()),
        1 => Fault::Memory,
        2 => Fault::NotUtf8,
        3 => Fault::BadLine(line),
        4 => Fault::TooMany(line),
        5 => Fault::BadOptions,
        6 => Fault::Numbers,
        CONTENDED => Fault::Contended,
        8 => Fault::Strangers,
        _ => unreachable!("an answer of number {kind}"),
    })
}

fn made(told: Made) -> Result<(), Fault> {
    done(told.kind, told.line)
}

/// A policy, timeouts, and session tables that the workers of one filter share. Judging waits for nobody but by trying again.
/// A worker that is dropped and not joined keeps the tables from being renewed.
pub struct Worker {
    handle: Handle,
    filter: u64,
    not_sync: PhantomData<Cell<()>>,
}

unsafe impl Send for Worker {}

impl Drop for Worker {
    fn drop(&mut self) {
        if !self.handle.0.is_null() {
            unsafe { calls::racl_free(&mut self.handle) }
        }
    }
}

impl fmt::Debug for Worker {
    fn fmt(&self, f: &mut fmt::Formatter<'_>) -> fmt::Result {
        f.debug_struct("Worker").finish_non_exhaustive()
    }
}

impl Worker {
    /// The answer on a frame that was seen at this interface in this second, by one try.
    pub fn try_judge(&mut self, interface: u8, second: u32, frame: &[u8]) -> Result<Answer, Contended> {
        let told = unsafe { calls::racl_judge(&mut self.handle, interface, second, frame.as_ptr(), frame.len()) };
        if told.kind == CONTENDED { Err(Contended) } else { Ok(Answer(told)) }
    }

    /// The answer on a frame. It tries again where another worker stood in the way.
    pub fn judge(&mut self, interface: u8, second: u32, frame: &[u8]) -> Answer {
        loop {
            match self.try_judge(interface, second, frame) {
                Ok(answer) => return answer,
                Err(Contended) => spin_loop(),
            }
        }
    }

    /// The answers on frames in an area of memory, in their order, one for each descriptor, as far as there are places for them;
    /// how many.
    pub fn judge_burst(&mut self, memory: &[u8], frames: &[Descriptor], answers: &mut [Answer]) -> usize {
        let count = frames.len().min(answers.len());
        let mut judged = 0;
        while judged < count {
            let (rest, places) = (&frames[judged..count], &mut answers[judged..count]);
            judged += unsafe {
                calls::racl_judge_burst(
                    &mut self.handle,
                    memory.as_ptr(),
                    memory.len(),
                    rest.as_ptr(),
                    rest.len(),
                    places.as_mut_ptr().cast(),
                    places.len(),
                )
            };
            if judged < count {
                spin_loop();
            }
        }
        count
    }

    /// Judges by the policy of this text from now on; sessions and timeouts stay, and other workers keep their policy.
    pub fn set_policy(&mut self, text: &[u8]) -> Result<(), Fault> {
        made(unsafe { calls::racl_set_policy(&mut self.handle, text.as_ptr(), text.len()) })
    }

    /// Judges by the policy and the timeouts of another worker from now on, of this filter or of another one. `Strangers`: its
    /// timeouts are others, which only a worker that is alone over its tables may take.
    pub fn take_policy(&mut self, other: &mut Worker) -> Result<(), Fault> {
        done(unsafe { calls::racl_take_policy(&mut self.handle, &mut other.handle) }, 0)
    }

    /// How many frames were given each verdict, those of workers that were joined into this one too.
    pub fn counts(&mut self) -> Counts {
        let mut counts = Counts::default();
        unsafe { calls::racl_counts(&mut self.handle, &mut counts) }
        counts
    }

    /// One more worker over the same tables, by the same policy.
    pub fn split(&mut self) -> Result<Worker, Fault> {
        let mut fresh = Worker { handle: Handle(null_mut()), filter: self.filter, not_sync: PhantomData };
        loop {
            match unsafe { calls::racl_split(&mut self.handle, &mut fresh.handle) } {
                CONTENDED => spin_loop(),
                told => return done(told, 0).map(|()| fresh),
            }
        }
    }

    /// Takes a worker of the same filter back. `Err`: it is of another filter.
    pub fn join(&mut self, mut other: Worker) -> Result<(), Worker> {
        if other.filter != self.filter {
            return Err(other);
        }
        unsafe { calls::racl_join(&mut self.handle, &mut other.handle) }
        Ok(())
    }

    /// One try of a look at a bucket for a session that has ended by this second; whether one went.
    pub fn try_expire(&mut self, family: Family, bucket: u64, second: u32) -> Result<bool, Contended> {
        let told = unsafe {
            match family {
                Family::V4 => calls::racl_expire_ipv4(&mut self.handle, bucket, second),
                Family::V6 => calls::racl_expire_ipv6(&mut self.handle, bucket, second),
            }
        };
        if told == CONTENDED { Err(Contended) } else { Ok(told == 9) }
    }

    /// Sessions of these buckets that have ended by this second go; how many went.
    pub fn sweep(&mut self, family: Family, buckets: Range<u64>, second: u32) -> u64 {
        let (mut went, mut from) = (0, buckets.start);
        loop {
            let swept = unsafe {
                match family {
                    Family::V4 => calls::racl_sweep_ipv4(&mut self.handle, from, buckets.end, second, u64::MAX),
                    Family::V6 => calls::racl_sweep_ipv6(&mut self.handle, from, buckets.end, second, u64::MAX),
                }
            };
            went += swept.went;
            if swept.kind != CONTENDED {
                return went;
            }
            from = swept.next;
            spin_loop();
        }
    }

    /// How many pages of a family's table no bucket ever had, at some time during the call: a bound at best.
    pub fn unused_pages(&mut self, family: Family) -> u64 {
        unsafe {
            match family {
                Family::V4 => calls::racl_unused_ipv4(&mut self.handle),
                Family::V6 => calls::racl_unused_ipv6(&mut self.handle),
            }
        }
    }

    /// Whether each other worker of the filter was joined into this one.
    pub fn is_lone(&mut self) -> bool {
        unsafe { calls::racl_is_lone(&mut self.handle) == 1 }
    }

    /// Tells two workers of a filter what either knows of its tables. Of two filters nothing is told, and `false` is answered.
    pub fn meet(&mut self, other: &mut Worker) -> bool {
        if other.filter != self.filter {
            return false;
        }
        unsafe { calls::racl_meet(&mut self.handle, &mut other.handle) }
        true
    }
}

/// The first worker of new tables.
#[derive(Debug)]
pub struct Filter {
    first: Worker,
}

impl Filter {
    /// A filter by the policy of this text. What is told of a text is its first fault.
    pub fn new(text: &[u8], options: &Options) -> Result<Filter, Fault> {
        static FILTERS: AtomicU64 = AtomicU64::new(0);
        let raw = RawOptions {
            size: size_of::<RawOptions>() as u32,
            tables: options.tables as u32,
            established: options.established,
            transient: options.transient,
            udp: options.udp,
        };
        let filter = FILTERS.fetch_add(1, Ordering::Relaxed);
        let mut first = Worker { handle: Handle(null_mut()), filter, not_sync: PhantomData };
        made(unsafe {
            calls::racl_new_with(&mut first.handle, text.as_ptr(), text.len(), &raw, NonNull::dangling().as_ptr(), 0)
        })?;
        Ok(Filter { first })
    }

    /// The table of a family begins anew with its sessions. Each other worker was joined before.
    pub fn renew(&mut self, family: Family) -> Result<(), Fault> {
        let told = unsafe {
            match family {
                Family::V4 => calls::racl_renew_ipv4(&mut self.first.handle),
                Family::V6 => calls::racl_renew_ipv6(&mut self.first.handle),
            }
        };
        done(told, 0)
    }

    /// The sessions of a family, in the order of `racl --sessions`; its table begins anew without them. Each other worker was joined
    /// before.
    pub fn close(&mut self, family: Family) -> Result<Vec<Session>, Fault> {
        let mut sessions = Sessions(Handle(null_mut()));
        let told = unsafe {
            match family {
                Family::V4 => calls::racl_close_ipv4(&mut self.first.handle, &mut sessions.0),
                Family::V6 => calls::racl_close_ipv6(&mut self.first.handle, &mut sessions.0),
            }
        };
        done(told, 0)?;
        let count = unsafe { calls::racl_session_count(&mut sessions.0) };
        Ok((0..count).filter_map(|at| sessions.at(at)).collect())
    }
}

struct Sessions(Handle);

impl Sessions {
    fn at(&mut self, at: u64) -> Option<Session> {
        let mut told = MaybeUninit::<RawSession>::zeroed();
        let it = unsafe {
            match calls::racl_session_at(&mut self.0, at, told.as_mut_ptr()) {
                1 => told.assume_init(),
                _ => return None,
            }
        };
        let (first, second) = (End::of(it.family, &it.first), End::of(it.family, &it.second));
        Some(Session { interface: it.interface, protocol: it.protocol, first, second, last: it.last, until: it.until })
    }
}

impl Drop for Sessions {
    fn drop(&mut self) {
        if !self.0.0.is_null() {
            unsafe { calls::racl_free_sessions(&mut self.0) }
        }
    }
}

/// How many frames each rule of a policy decided.
pub struct RuleCounts {
    handle: Handle,
    not_sync: PhantomData<Cell<()>>,
}

unsafe impl Send for RuleCounts {}

impl RuleCounts {
    /// Of no frame, for the rules of this policy.
    pub fn new(text: &[u8]) -> Result<RuleCounts, Fault> {
        let mut counts = RuleCounts { handle: Handle(null_mut()), not_sync: PhantomData };
        let told = unsafe { calls::racl_rule_counts_new(&mut counts.handle, text.as_ptr(), text.len()) };
        made(told).map(|()| counts)
    }

    /// Counts a frame of this interface by its answer; one that no rule decided as one of rule 0.
    pub fn count(&mut self, interface: u8, answer: Answer) {
        unsafe { calls::racl_count_rule(&mut self.handle, interface, answer.0.direction, answer.0.rule) }
    }

    /// How many frames the rule decided.
    pub fn of(&mut self, interface: u8, direction: Direction, rule: u32) -> u64 {
        unsafe { calls::racl_rule_count(&mut self.handle, interface, direction as u32 + 1, rule) }
    }
}

impl Drop for RuleCounts {
    fn drop(&mut self) {
        if !self.handle.0.is_null() {
            unsafe { calls::racl_free_rule_counts(&mut self.handle) }
        }
    }
}

impl fmt::Debug for RuleCounts {
    fn fmt(&self, f: &mut fmt::Formatter<'_>) -> fmt::Result {
        f.debug_struct("RuleCounts").finish_non_exhaustive()
    }
}

/// What `racl check` tells of a policy's text, line by line, and whether it is a policy.
pub fn check(text: &[u8]) -> Result<(bool, String), Fault> {
    let mut lines = Vec::new();
    loop {
        let told = unsafe { calls::racl_check(text.as_ptr(), text.len(), lines.as_mut_ptr(), lines.len()) };
        if told.kind == 1 {
            return Err(Fault::Memory);
        }
        if told.length as usize == lines.len() {
            return Ok((told.kind == 0, String::from_utf8_lossy(&lines).into_owned()));
        }
        lines = vec![0; told.length as usize];
    }
}

/// The line of a policy's text in which a rule stands that an answer names, on a frame of this interface. `None`: the policy has
/// no such rule.
pub fn line_of(text: &[u8], interface: u8, direction: Direction, rule: u32) -> Result<Option<u64>, Fault> {
    let told = unsafe { calls::racl_line_of(text.as_ptr(), text.len(), interface, direction as u32 + 1, rule) };
    done(told.kind, told.line)?;
    Ok(if told.line == 0 { None } else { Some(told.line) })
}

impl Deref for Filter {
    type Target = Worker;

    fn deref(&self) -> &Worker {
        &self.first
    }
}

impl DerefMut for Filter {
    fn deref_mut(&mut self) -> &mut Worker {
        &mut self.first
    }
}
