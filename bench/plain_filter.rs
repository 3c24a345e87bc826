//! The filter written by hand in plain Rust, as one would without proofs: one thread, a hash map of sessions for each
//! family, and rules that are asked only where no session is live. It reads and writes what `racl` does, for inputs
//! without faults (faults end it with a message), so that both can be timed on the same bytes. It reads a window of 256
//! KiB at a time and keeps a verdict of four bytes for each packet; the report is made when all was judged.
//!
//! The policy's grammar, the frames and the report are those of docs/FORMATS.md. Sessions are stored in std's hash map
//! with the table's own hash, so no bucket ever is full or worn.
use std::collections::HashMap;
use std::hash::{BuildHasherDefault, Hash, Hasher};
use std::io::{Read, Write};

#[derive(Default)]
struct Mixer(u64);

impl Hasher for Mixer {
    fn finish(&self) -> u64 {
        self.0
    }

    fn write(&mut self, _: &[u8]) {
        unreachable!()
    }

    fn write_u64(&mut self, word: u64) {
        let mut z = self.0 ^ word;
        z = (z ^ (z >> 30)).wrapping_mul(0xbf58476d1ce4e5b9);
        z = (z ^ (z >> 27)).wrapping_mul(0x94d049bb133111eb);
        self.0 = z ^ (z >> 31);
    }
}

/// The words of a flow's key.
#[derive(PartialEq, Eq)]
struct Words<const N: usize>([u64; N]);

impl<const N: usize> Hash for Words<N> {
    fn hash<H: Hasher>(&self, state: &mut H) {
        for word in self.0 {
            state.write_u64(word);
        }
    }
}

type Sessions<const N: usize> = HashMap<Words<N>, u64, BuildHasherDefault<Mixer>>;

#[derive(Clone, Copy, PartialEq)]
enum Action {
    Deny,
    Permit,
    Reflect,
}

struct Rule {
    action: Action,
    six: bool,
    source: (u128, u8),
    dest: (u128, u8),
    proto: u8,
    first: (u16, u16),
    second: (u16, u16),
    value: u8,
    mask: u8,
}

#[derive(Default)]
struct Policy {
    own: Option<[u8; 6]>,
    inbound: Vec<Rule>,
    outbound: Vec<Rule>,
}

fn range(word: &str) -> (u16, u16) {
    match word.split_once('-') {
        Some((low, high)) => (low.parse().unwrap(), high.parse().unwrap()),
        None => (word.parse().unwrap(), word.parse().unwrap()),
    }
}

fn prefix(word: &str, six: bool) -> (u128, u8) {
    if word == "any" {
        return (0, 0);
    }
    let (address, length) = match word.split_once('/') {
        Some((address, length)) => (address, length.parse().unwrap()),
        None => (word, if six { 128 } else { 32 }),
    };
    let address = if six {
        address.parse::<std::net::Ipv6Addr>().unwrap().into()
    } else {
        u128::from(u32::from(address.parse::<std::net::Ipv4Addr>().unwrap()))
    };
    (address, length)
}

fn rule(words: &[&str]) -> Rule {
    let action = match words[1] {
        "deny" => Action::Deny,
        "permit" => Action::Permit,
        "permit+reflect" => Action::Reflect,
        _ => panic!("no such action"),
    };
    let six = words[2] == "ipv6";
    let proto = match words.get(5) {
        None | Some(&"any") => 0,
        Some(&"tcp") => 6,
        Some(&"udp") => 17,
        Some(&"icmp") => if six { 58 } else { 1 },
        Some(number) => number.parse().unwrap(),
    };
    let mut rule = Rule {
        action,
        six,
        source: prefix(words[3], six),
        dest: prefix(words[4], six),
        proto,
        first: (0, 65535),
        second: (0, 65535),
        value: 0,
        mask: 0,
    };
    for part in words.get(6..).unwrap_or(&[]).chunks(2) {
        match part[0] {
            "sport" | "type" => rule.first = range(part[1]),
            "dport" | "code" => rule.second = range(part[1]),
            "flags" => {
                let (value, mask) = part[1].split_once('/').unwrap();
                rule.value = u8::from_str_radix(value, 16).unwrap();
                rule.mask = u8::from_str_radix(mask, 16).unwrap();
            }
            _ => panic!("no such part"),
        }
    }
    rule
}

/// What a window holds, but for a record that is larger.
const WINDOW: usize = 262_144;

/// Adds to the bytes until there are so many or the input ends, and says whether it ended.
fn read_until(bytes: &mut Vec<u8>, least: usize) -> bool {
    let begin = bytes.len();
    let missing = (least - begin) as u64;
    let read = std::io::stdin().lock().take(missing).read_to_end(bytes).unwrap();
    (read as u64) < missing
}

/// The policy, and where the capture begins, which follows `pcap`; none where the line isn't there yet.
fn read_policy(input: &[u8]) -> Option<(Policy, usize)> {
    let mut policy = Policy::default();
    let mut at = 0;
    loop {
        let end = at + input[at..].iter().position(|b| *b == b'\n')?;
        let line = std::str::from_utf8(&input[at..end]).unwrap().trim_end_matches('\r');
        at = end + 1;
        if line == "pcap" {
            return Some((policy, at));
        }
        let words: Vec<&str> = line.split('#').next().unwrap().split_whitespace().collect();
        match words.first() {
            None => {}
            Some(&"mac") => {
                let mut own = [0; 6];
                for (byte, digits) in own.iter_mut().zip(words[1].split(':')) {
                    *byte = u8::from_str_radix(digits, 16).unwrap();
                }
                policy.own = Some(own);
            }
            Some(&"in") => policy.inbound.push(rule(&words)),
            Some(&"out") => policy.outbound.push(rule(&words)),
            Some(_) => panic!("no such line"),
        }
    }
}

#[derive(Clone, Copy)]
enum Fields {
    Absent,
    Ports(u16, u16),
    Tcp(u16, u16, u8),
    Icmp(u8, u8),
}

struct Tuple {
    six: bool,
    source: u128,
    dest: u128,
    proto: u8,
    fields: Fields,
}

enum Frame {
    NotIp,
    Malformed,
    Short,
    Ip(bool, Tuple),
}

fn two(bytes: &[u8]) -> u16 {
    u16::from_be_bytes([bytes[0], bytes[1]])
}

fn fields(payload: &[u8], proto: u8, six: bool) -> Option<Fields> {
    match proto {
        6 if payload.len() < 14 => None,
        6 => Some(Fields::Tcp(two(payload), two(&payload[2..]), payload[13])),
        17 if payload.len() < 4 => None,
        17 => Some(Fields::Ports(two(payload), two(&payload[2..]))),
        1 | 58 if (proto == 58) == six => match payload {
            [kind, code, ..] => Some(Fields::Icmp(*kind, *code)),
            _ => None,
        },
        _ => Some(Fields::Absent),
    }
}

fn ipv4(packet: &[u8], out: bool) -> Frame {
    if packet.len() < 20 || packet[0] >> 4 != 4 || packet[0] & 15 < 5 {
        return Frame::Malformed;
    }
    let header = usize::from(packet[0] & 15) * 4;
    let total = usize::from(two(&packet[2..]));
    if packet.len() < header || (total != 0 && total < header) {
        return Frame::Malformed;
    }
    let end = if total == 0 { packet.len() } else { total.min(packet.len()) };
    let proto = packet[9];
    let fields = if two(&packet[6..]) & 0x1fff != 0 {
        Some(Fields::Absent)
    } else {
        fields(&packet[header..end], proto, false)
    };
    let Some(fields) = fields else {
        return Frame::Short;
    };
    let source = u128::from(u32::from_be_bytes(packet[12..16].try_into().unwrap()));
    let dest = u128::from(u32::from_be_bytes(packet[16..20].try_into().unwrap()));
    Frame::Ip(out, Tuple { six: false, source, dest, proto, fields })
}

fn ipv6(packet: &[u8], out: bool) -> Frame {
    if packet.len() < 40 || packet[0] >> 4 != 6 {
        return Frame::Malformed;
    }
    let length = usize::from(two(&packet[4..]));
    let end = if length == 0 { packet.len() } else { (40 + length).min(packet.len()) };
    let source = u128::from_be_bytes(packet[8..24].try_into().unwrap());
    let dest = u128::from_be_bytes(packet[24..40].try_into().unwrap());
    let mut rest = &packet[40..end];
    let mut proto = packet[6];
    let mut skipped = 0;
    while matches!(proto, 0 | 43 | 44 | 60) {
        if skipped == 8 || rest.len() < 8 {
            return Frame::Malformed;
        }
        skipped += 1;
        let length = if proto == 44 { 8 } else { (usize::from(rest[1]) + 1) * 8 };
        if rest.len() < length {
            return Frame::Malformed;
        }
        let later = proto == 44 && two(&rest[2..]) >> 3 != 0;
        proto = rest[0];
        rest = &rest[length..];
        if later {
            return Frame::Ip(out, Tuple { six: true, source, dest, proto, fields: Fields::Absent });
        }
    }
    match fields(rest, proto, true) {
        Some(fields) => Frame::Ip(out, Tuple { six: true, source, dest, proto, fields }),
        None => Frame::Short,
    }
}

fn view(frame: &[u8], own: Option<[u8; 6]>) -> Frame {
    if frame.len() < 14 {
        return Frame::Malformed;
    }
    let out = own.is_some_and(|own| frame[6..12] == own);
    let mut at = 14;
    let mut kind = two(&frame[12..]);
    for _ in 0..2 {
        if kind != 0x8100 && kind != 0x88a8 {
            break;
        }
        if frame.len() < at + 4 {
            return Frame::Malformed;
        }
        kind = two(&frame[at + 2..]);
        at += 4;
    }
    match kind {
        0x0800 => ipv4(&frame[at..], out),
        0x86dd => ipv6(&frame[at..], out),
        _ => Frame::NotIp,
    }
}

fn holds(prefix: (u128, u8), address: u128, width: u8) -> bool {
    prefix.1 == 0 || (prefix.0 ^ address) >> (width - prefix.1) == 0
}

fn matches(rule: &Rule, tuple: &Tuple) -> bool {
    let width = if tuple.six { 128 } else { 32 };
    rule.six == tuple.six
        && holds(rule.source, tuple.source, width)
        && holds(rule.dest, tuple.dest, width)
        && (rule.proto == 0 || rule.proto == tuple.proto && in_ranges(rule, tuple.fields))
}

fn in_ranges(rule: &Rule, fields: Fields) -> bool {
    let inside = |range: (u16, u16), n: u16| range.0 <= n && n <= range.1;
    match fields {
        Fields::Absent => true,
        Fields::Ports(from, to) => inside(rule.first, from) && inside(rule.second, to),
        Fields::Tcp(from, to, flags) => {
            inside(rule.first, from) && inside(rule.second, to) && flags & rule.mask == rule.value
        }
        Fields::Icmp(kind, code) => {
            inside(rule.first, u16::from(kind)) && inside(rule.second, u16::from(code))
        }
    }
}

fn first_match(rules: &[Rule], tuple: &Tuple) -> Option<(usize, Action)> {
    let at = rules.iter().position(|rule| matches(rule, tuple))?;
    Some((at, rules[at].action))
}

enum Key {
    Four(Words<2>),
    Six(Words<5>),
}

/// The key of the packet's flow, its sender's side, and whether it may start a session.
fn orient(tuple: &Tuple) -> Option<(Key, u32, bool)> {
    let (from, to, turned, starts) = match tuple.fields {
        Fields::Ports(from, to) | Fields::Tcp(from, to, _) => {
            (from, to, (tuple.dest, to) < (tuple.source, from), true)
        }
        Fields::Icmp(kind, _) if kind == if tuple.six { 128 } else { 8 } => (0, 0, false, true),
        Fields::Icmp(kind, _) if kind == if tuple.six { 129 } else { 0 } => (0, 0, true, false),
        _ => return None,
    };
    let (first, second) = if turned {
        ((tuple.dest, to), (tuple.source, from))
    } else {
        ((tuple.source, from), (tuple.dest, to))
    };
    let side = u32::from((tuple.source, from) != first);
    let ports = u64::from(first.1) << 48 | u64::from(second.1) << 32 | u64::from(tuple.proto) << 24;
    let key = if tuple.six {
        Key::Six(Words([(first.0 >> 64) as u64, first.0 as u64, (second.0 >> 64) as u64, second.0 as u64, ports]))
    } else {
        Key::Four(Words([(first.0 << 32 | second.0) as u64, ports]))
    };
    Some((key, side, starts))
}

const ESTABLISHED: u64 = 86400;
const TRANSIENT: u64 = 120;
const UDP: u64 = 600;

fn is_live(word: u64, moment: u64) -> bool {
    let timeout = if word >> 48 & 1 == 0 {
        UDP
    } else if word >> 32 & 0x17 == 0x12 && word >> 40 & 0x17 == 0x12 {
        ESTABLISHED
    } else {
        TRANSIENT
    };
    moment <= (word & 0xffff_ffff) + timeout
}

#[derive(Clone, Copy)]
enum Verdict {
    Session,
    Reflect(u16),
    Permit(u16),
    Deny(u16),
    Default,
    NotIp,
    Malformed,
    Short,
}

/// The number of the rule at this place.
fn number(at: usize) -> u16 {
    u16::try_from(at + 1).unwrap()
}

fn by_rules(ruling: Option<(usize, Action)>) -> Verdict {
    match ruling {
        None => Verdict::Default,
        Some((at, Action::Deny)) => Verdict::Deny(number(at)),
        Some((at, _)) => Verdict::Permit(number(at)),
    }
}

fn update<const N: usize>(
    sessions: &mut Sessions<N>,
    key: Words<N>,
    (side, starts): (u32, bool),
    rules: &[Rule],
    moment: u64,
    tuple: &Tuple,
) -> Verdict {
    let (flags, tcp) = match tuple.fields {
        Fields::Tcp(_, _, flags) => (u64::from(flags & 0x17), 1),
        _ => (0, 0),
    };
    let mut stored = false;
    if let Some(word) = sessions.get_mut(&key) {
        if is_live(*word, moment) {
            let last = (*word & 0xffff_ffff).max(moment);
            *word = (*word & !0xffff_ffff | last) | flags << (32 + 8 * side);
            return Verdict::Session;
        }
        stored = true;
    }
    let ruling = first_match(rules, tuple);
    match ruling {
        Some((at, Action::Reflect)) if starts => {
            sessions.insert(key, moment | flags << (32 + 8 * side) | tcp << 48);
            Verdict::Reflect(number(at))
        }
        _ => {
            if stored {
                sessions.remove(&key);
            }
            by_rules(ruling)
        }
    }
}

fn judge(
    policy: &Policy,
    four: &mut Sessions<2>,
    six: &mut Sessions<5>,
    moment: u64,
    frame: &[u8],
) -> Verdict {
    let (out, tuple) = match view(frame, policy.own) {
        Frame::NotIp => return Verdict::NotIp,
        Frame::Malformed => return Verdict::Malformed,
        Frame::Short => return Verdict::Short,
        Frame::Ip(out, tuple) => (out, tuple),
    };
    let rules = if out { &policy.outbound } else { &policy.inbound };
    match orient(&tuple) {
        None => by_rules(first_match(rules, &tuple)),
        Some((Key::Four(key), side, starts)) => update(four, key, (side, starts), rules, moment, &tuple),
        Some((Key::Six(key), side, starts)) => update(six, key, (side, starts), rules, moment, &tuple),
    }
}

fn push_number(out: &mut Vec<u8>, number: u64) {
    let mut digits = [0; 20];
    let mut at = digits.len();
    let mut left = number;
    loop {
        at -= 1;
        digits[at] = b'0' + (left % 10) as u8;
        left /= 10;
        if left == 0 {
            break;
        }
    }
    out.extend_from_slice(&digits[at..]);
}

/// Writes the verdict, and says whether the packet passes.
fn push_verdict(out: &mut Vec<u8>, verdict: Verdict) -> bool {
    let (text, rule, rest, passes): (&[u8], _, &[u8], _) = match verdict {
        Verdict::Session => (b" pass session", None, b"\n", true),
        Verdict::Reflect(n) => (b" pass rule ", Some(n), b" reflect\n", true),
        Verdict::Permit(n) => (b" pass rule ", Some(n), b"\n", true),
        Verdict::Deny(n) => (b" drop rule ", Some(n), b"\n", false),
        Verdict::Default => (b" drop default", None, b"\n", false),
        Verdict::NotIp => (b" pass not-ip", None, b"\n", true),
        Verdict::Malformed => (b" drop malformed", None, b"\n", false),
        Verdict::Short => (b" drop short", None, b"\n", false),
    };
    out.extend_from_slice(text);
    if let Some(number) = rule {
        push_number(out, u64::from(number));
    }
    out.extend_from_slice(rest);
    passes
}

/// The report on the verdicts.
fn report(verdicts: &[Verdict], truncated: bool) -> Vec<u8> {
    let mut out = Vec::new();
    let mut passed = 0;
    for (at, verdict) in verdicts.iter().enumerate() {
        push_number(&mut out, at as u64 + 1);
        passed += usize::from(push_verdict(&mut out, *verdict));
    }
    if truncated {
        out.extend_from_slice(b"truncated after ");
        push_number(&mut out, verdicts.len() as u64);
        out.push(b'\n');
    }
    let dropped = verdicts.len() - passed;
    for (text, number) in [(&b"packets "[..], verdicts.len()), (b" pass ", passed), (b" drop ", dropped)] {
        out.extend_from_slice(text);
        push_number(&mut out, number as u64);
    }
    out.push(b'\n');
    out
}

fn main() {
    let mut window = Vec::new();
    let mut ended = false;
    let (policy, begin) = loop {
        assert!(!ended, "no pcap line");
        let least = window.len() + WINDOW;
        ended = read_until(&mut window, least);
        match read_policy(&window) {
            Some((_, begin)) if window.len() < begin + 24 && !ended => {}
            Some(found) => break found,
            None => {}
        }
    };
    let little = match window[begin..begin + 4] {
        [0xd4, 0xc3, 0xb2, 0xa1] | [0x4d, 0x3c, 0xb2, 0xa1] => true,
        [0xa1, 0xb2, 0xc3, 0xd4] | [0xa1, 0xb2, 0x3c, 0x4d] => false,
        _ => panic!("not a pcap capture"),
    };
    let four = |bytes: &[u8]| {
        let bytes = bytes[..4].try_into().unwrap();
        if little { u32::from_le_bytes(bytes) } else { u32::from_be_bytes(bytes) }
    };
    let (mut v4, mut v6) = (Sessions::<2>::default(), Sessions::<5>::default());
    let mut verdicts = Vec::new();
    let mut from = begin + 24;
    let truncated = loop {
        let mut rest = &window[from..];
        while rest.len() >= 16 {
            let (moment, kept) = (four(rest), four(&rest[8..]) as usize);
            assert!(kept <= 262_144, "record {} is too long", verdicts.len() + 1);
            if rest.len() < 16 + kept {
                break;
            }
            verdicts.push(judge(&policy, &mut v4, &mut v6, u64::from(moment), &rest[16..16 + kept]));
            rest = &rest[16 + kept..];
        }
        let left = rest.len();
        if ended {
            break left > 0;
        }
        let judged = window.len() - left;
        window.drain(..judged);
        from = 0;
        ended = read_until(&mut window, left + WINDOW);
    };
    std::io::stdout().write_all(&report(&verdicts, truncated)).unwrap();
    std::process::exit(if truncated { 3 } else { 0 });
}
