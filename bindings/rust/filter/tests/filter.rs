//! Threads that judge the flows of one filter, and policies that are replaced meanwhile.
use racl::{
    Answer, Descriptor, Direction, End, Family, Fault, Filter, Options, RuleCounts, Session, Tables, Verdict, Worker,
    check, flow_of, line_of, version,
};
use std::thread;

const OUTWARD: &[u8] = b"mac 02:00:00:00:00:01\nout permit+reflect ipv4 any any\n";
const CLOSED: &[u8] = b"in deny ipv4 any any\n";

/// A frame of UDP over IPv4 between a port of 10.0.0.1 and port 53 of 10.0.0.2.
fn frame(is_outward: bool, port: u16) -> [u8; 42] {
    let mut frame = [0; 42];
    let ends = if is_outward { [2, 1] } else { [1, 2] };
    let ports = if is_outward { [port, 53] } else { [53, port] };
    for (at, end) in [(0, ends[0]), (6, ends[1])] {
        frame[at..at + 6].copy_from_slice(&[2, 0, 0, 0, 0, end]);
    }
    frame[12..34]
        .copy_from_slice(&[8, 0, 0x45, 0, 0, 28, 0, 0, 0, 0, 64, 17, 0, 0, 10, 0, 0, ends[1], 10, 0, 0, ends[0]]);
    frame[34..36].copy_from_slice(&ports[0].to_be_bytes());
    frame[36..38].copy_from_slice(&ports[1].to_be_bytes());
    frame[39] = 8;
    frame
}

#[test]
fn threads_share_sessions() {
    for tables in [Tables::Standard, Tables::Large] {
        let mut filter = Filter::new(OUTWARD, &Options { tables, ..Options::default() }).unwrap();
        for port in 1..=50 {
            let answer = filter.judge(0, 10, &frame(true, port));
            assert_eq!((answer.verdict(), answer.direction()), (Some(Verdict::Reflect(1)), Some(Direction::Outbound)));
        }
        let workers: Vec<Worker> = (0..4).map(|_| filter.split().unwrap()).collect();
        let work = |mut worker: Worker| {
            for port in 1..=50 {
                assert_eq!(worker.judge(0, 10, &frame(false, port)).verdict(), Some(Verdict::Session));
            }
            worker
        };
        let threads: Vec<_> = workers.into_iter().map(|it| thread::spawn(move || work(it))).collect();
        assert_eq!(filter.renew(Family::V4), Err(Fault::Strangers));
        for it in threads {
            filter.join(it.join().unwrap()).unwrap();
        }
        assert_eq!(filter.counts().session, 200);
        filter.renew(Family::V4).unwrap();
        assert_eq!(filter.sweep(Family::V4, 0..65_536, 610), 0);
        assert_eq!(filter.sweep(Family::V4, 0..65_536, 611), 50);
    }
}

#[test]
fn policies_are_replaced() {
    let mut filter = Filter::new(OUTWARD, &Options::default()).unwrap();
    let mut worker = filter.split().unwrap();
    filter.judge(0, 10, &frame(true, 1));
    worker.set_policy(CLOSED).unwrap();
    assert_eq!(worker.judge(0, 10, &frame(false, 1)).verdict(), Some(Verdict::Session));
    assert_eq!(worker.judge(0, 10, &frame(false, 2)).verdict(), Some(Verdict::Deny(1)));
    assert_eq!(filter.judge(0, 10, &frame(false, 2)).verdict(), Some(Verdict::ByDefault));
    let mut brief = Filter::new(CLOSED, &Options { udp: 10, ..Options::default() }).unwrap();
    assert_eq!(filter.take_policy(&mut brief), Err(Fault::Strangers));
    filter.take_policy(&mut worker).unwrap();
    assert_eq!(filter.judge(0, 10, &frame(false, 2)).verdict(), Some(Verdict::Deny(1)));
    assert_eq!(filter.set_policy(b"\nin\n"), Err(Fault::BadLine(2)));
    let other = Filter::new(CLOSED, &Options::default()).unwrap().split().unwrap();
    assert!(filter.join(other).is_err());
    let none = Options { udp: 0, ..Options::default() };
    assert_eq!(Filter::new(CLOSED, &none).unwrap_err(), Fault::BadOptions);
}

#[test]
fn bursts_and_flows() {
    let mut filter = Filter::new(OUTWARD, &Options::default()).unwrap();
    let (out, back) = (frame(true, 7), frame(false, 7));
    let area = [out, back].concat();
    let at = |at, length| Descriptor { at, length, second: 10, interface: 0 };
    let mut answers = [Answer::NONE; 4];
    assert_eq!(filter.judge_burst(&area, &[at(0, 42), at(42, 42), at(60, 42)], &mut answers), 3);
    let told = answers.map(Answer::verdict);
    assert_eq!(told, [Some(Verdict::Reflect(1)), Some(Verdict::Session), Some(Verdict::Malformed), None]);
    assert_eq!(flow_of(0, &out), flow_of(0, &back));
    assert_ne!(flow_of(0, &out), flow_of(1, &out));
    assert_eq!(flow_of(0, &out[..20]), None);
    let flow = flow_of(0, &out).unwrap();
    for workers in 1..=17 {
        assert_eq!(flow.worker(workers), flow.family.worker_of(flow.hash % 4096, workers));
        assert_eq!(flow.worker(workers), flow.family.worker_of(flow.hash % 65_536, workers));
    }
    assert_eq!(flow.worker(0), 0);
    let parts = env!("CARGO_PKG_VERSION").split('.').map(|it| it.parse::<u32>().unwrap());
    assert_eq!(version(), parts.fold(0, |before, part| before * 1000 + part));
}

#[test]
fn workers_meet() {
    let mut filter = Filter::new(OUTWARD, &Options::default()).unwrap();
    let mut other = Filter::new(OUTWARD, &Options::default()).unwrap();
    let mut worker = filter.split().unwrap();
    worker.judge(0, 10, &frame(true, 4000));
    assert!(filter.meet(&mut worker) && !filter.meet(&mut other) && !filter.is_lone());
    filter.join(worker).unwrap();
    assert!(filter.is_lone() && filter.unused_pages(Family::V4) < 16_384);
}

#[test]
fn sessions_and_rules_are_told() {
    let mut filter = Filter::new(OUTWARD, &Options::default()).unwrap();
    let worker = filter.split().unwrap();
    let mut counts = RuleCounts::new(OUTWARD).unwrap();
    for is_outward in [true, false] {
        let answer = filter.judge(0, 10, &frame(is_outward, 4000));
        counts.count(0, answer);
    }
    assert_eq!((counts.of(0, Direction::Outbound, 1), counts.of(0, Direction::Inbound, 0)), (1, 1));
    assert_eq!(filter.close(Family::V4), Err(Fault::Strangers));
    filter.join(worker).unwrap();
    let end = |last, port| End { address: [10, 0, 0, last].into(), port, flags: 0 };
    let session = Session { interface: 0, protocol: 17, first: end(1, 4000), second: end(2, 53), last: 10, until: 610 };
    assert_eq!(filter.close(Family::V4), Ok(vec![session]));
    assert_eq!((filter.close(Family::V4), filter.close(Family::V6)), (Ok(vec![]), Ok(vec![])));
    assert_eq!(RuleCounts::new(b"in\n").unwrap_err(), Fault::BadLine(1));
}

#[test]
fn texts_are_told() {
    assert_eq!(check(OUTWARD).unwrap().0, true);
    let told = check(b"in permits ipv4 any any\n").unwrap();
    assert!(!told.0 && told.1.starts_with("line 1: `permits` is no action"));
    assert_eq!(line_of(OUTWARD, 0, Direction::Outbound, 1), Ok(Some(2)));
    assert_eq!(line_of(OUTWARD, 0, Direction::Inbound, 1), Ok(None));
}
