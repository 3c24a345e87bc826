//! The library's functions as include/racl.h declares them.

/// The one pointer of a handle.
#[repr(transparent)]
pub struct Handle(pub *mut u8);

#[repr(C)]
pub struct Made {
    pub kind: u32,
    pub line: u64,
}

#[repr(C)]
pub struct RawOptions {
    pub size: u32,
    pub tables: u32,
    pub established: u32,
    pub transient: u32,
    pub udp: u32,
}

#[repr(C)]
pub struct RawFlow {
    pub family: u32,
    pub hash: u64,
}

/// The answer on a frame, as it lies in memory.
#[repr(C)]
#[derive(Clone, Copy, PartialEq, Eq)]
pub struct RawAnswer {
    pub kind: u32,
    pub rule: u32,
    pub passes: u32,
    pub direction: u32,
}

/// A frame in an area of memory: its bytes from `at` on, seen at this interface in this second.
#[repr(C)]
#[derive(Clone, Copy, Debug, PartialEq, Eq)]
pub struct Descriptor {
    pub at: u64,
    pub length: u32,
    pub second: u32,
    pub interface: u8,
}

/// How many frames were given each verdict.
#[repr(C)]
#[derive(Clone, Copy, Debug, Default, PartialEq, Eq)]
pub struct Counts {
    pub session: u64,
    pub reflect: u64,
    pub permit: u64,
    pub deny: u64,
    pub by_default: u64,
    pub worn: u64,
    pub full: u64,
    pub no_pages: u64,
    pub not_ip: u64,
    pub malformed: u64,
    pub cut_short: u64,
}

#[repr(C)]
pub struct RawEnd {
    pub address: [u8; 16],
    pub port: u16,
    pub flags: u8,
}

#[repr(C)]
pub struct RawSession {
    pub until: u64,
    pub last: u32,
    pub interface: u8,
    pub family: u8,
    pub protocol: u8,
    pub first: RawEnd,
    pub second: RawEnd,
}

#[repr(C)]
pub struct RawChecked {
    pub kind: u32,
    pub length: u64,
}

#[repr(C)]
pub struct RawSwept {
    pub kind: u32,
    pub next: u64,
    pub went: u64,
}

unsafe extern "C" {
    pub fn racl_version() -> u32;
    pub fn racl_new_with(
        handle: *mut Handle,
        text: *const u8,
        length: usize,
        options: *const RawOptions,
        rest: *const u8,
        rest_length: usize,
    ) -> Made;
    pub fn racl_split(handle: *mut Handle, fresh: *mut Handle) -> u32;
    pub fn racl_join(handle: *mut Handle, other: *mut Handle);
    pub fn racl_free(handle: *mut Handle);
    pub fn racl_set_policy(handle: *mut Handle, text: *const u8, length: usize) -> Made;
    pub fn racl_take_policy(handle: *mut Handle, other: *mut Handle) -> u32;
    pub fn racl_judge(handle: *mut Handle, interface: u8, second: u32, frame: *const u8, length: usize) -> RawAnswer;
    pub fn racl_judge_burst(
        handle: *mut Handle,
        memory: *const u8,
        length: usize,
        descriptors: *const Descriptor,
        count: usize,
        answers: *mut RawAnswer,
        room: usize,
    ) -> usize;
    pub fn racl_flow_of(interface: u8, frame: *const u8, length: usize) -> RawFlow;
    pub fn racl_worker_of(flow: RawFlow, workers: u32) -> u32;
    pub fn racl_worker_of_bucket(family: u32, bucket: u64, workers: u32) -> u32;
    pub fn racl_counts(handle: *mut Handle, counts: *mut Counts);
    pub fn racl_expire_ipv4(handle: *mut Handle, bucket: u64, second: u32) -> u32;
    pub fn racl_expire_ipv6(handle: *mut Handle, bucket: u64, second: u32) -> u32;
    pub fn racl_renew_ipv4(handle: *mut Handle) -> u32;
    pub fn racl_renew_ipv6(handle: *mut Handle) -> u32;
    pub fn racl_check(text: *const u8, length: usize, buffer: *mut u8, room: usize) -> RawChecked;
    pub fn racl_line_of(text: *const u8, length: usize, interface: u8, direction: u32, rule: u32) -> Made;
    pub fn racl_meet(handle: *mut Handle, other: *mut Handle);
    pub fn racl_is_lone(handle: *mut Handle) -> u32;
    pub fn racl_sweep_ipv4(handle: *mut Handle, from: u64, to: u64, second: u32, most: u64) -> RawSwept;
    pub fn racl_sweep_ipv6(handle: *mut Handle, from: u64, to: u64, second: u32, most: u64) -> RawSwept;
    pub fn racl_unused_ipv4(handle: *mut Handle) -> u64;
    pub fn racl_unused_ipv6(handle: *mut Handle) -> u64;
    pub fn racl_close_ipv4(handle: *mut Handle, sessions: *mut Handle) -> u32;
    pub fn racl_close_ipv6(handle: *mut Handle, sessions: *mut Handle) -> u32;
    pub fn racl_session_count(sessions: *mut Handle) -> u64;
    pub fn racl_session_at(sessions: *mut Handle, at: u64, session: *mut RawSession) -> u32;
    pub fn racl_free_sessions(sessions: *mut Handle);
    pub fn racl_rule_counts_new(counts: *mut Handle, text: *const u8, length: usize) -> Made;
    pub fn racl_count_rule(counts: *mut Handle, interface: u8, direction: u32, rule: u32);
    pub fn racl_rule_count(counts: *mut Handle, interface: u8, direction: u32, rule: u32) -> u64;
    pub fn racl_free_rule_counts(counts: *mut Handle);
}
