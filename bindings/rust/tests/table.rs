//! Threads over one table, and what the library would be owed where callers are safe.
use bihash::{Answer, Expiry, Family, Fault, NO_VALUE, Table, V4, V6};
use std::thread;

const THREADS: u64 = 4;
const KEYS: u64 = 500;

fn four_threads<F: Family>(made: Result<Table<F>, Fault>, key: fn(u64) -> F::Key)
where
    F::Key: Send + PartialEq + std::fmt::Debug,
{
    let mut table = made.unwrap();
    let callers: Vec<_> = (0..THREADS).map(|_| table.split().unwrap()).collect();
    assert!(!table.is_lone());
    let added = thread::scope(|scope| {
        let work = |number: u64, mut caller: bihash::Caller<F>| {
            let answers = (0..KEYS).map(|it| caller.add_if_absent(&key(it), 1000 + number));
            let added = answers.filter(|it| *it == Answer::Added).count() as u64;
            for it in 0..KEYS {
                assert!(matches!(caller.search(&key(it)), Answer::Found(1000..1004)));
            }
            (caller, added)
        };
        let numbered = (0..).zip(callers);
        let threads: Vec<_> = numbered.map(|(it, caller)| scope.spawn(move || work(it, caller))).collect();
        let mut added = 0;
        for it in threads {
            let (mut caller, more) = it.join().unwrap();
            assert!(table.meet(&mut caller));
            table.join(caller).unwrap();
            added += more;
        }
        added
    });
    assert_eq!(added, KEYS);
    assert!(table.is_lone());
    table.renew().unwrap();
    assert_eq!(table.stamp(), None);
    assert!(matches!(table.remove(&key(0)), Answer::Replaced(1000..1004)));
    assert_eq!(table.search(&key(0)), Answer::Absent);
    assert!(table.stamp().is_some());
    let pairs = table.close().unwrap();
    assert_eq!(pairs.iter().map(|it| it.0).collect::<Vec<_>>(), (1..KEYS).map(key).collect::<Vec<_>>());
}

#[test]
fn four_threads_share_a_table() {
    four_threads::<V4>(Table::new(), |it| [it, 7]);
    four_threads::<V6>(Table::new(), |it| [it, 1, 2, 3, 4]);
    four_threads::<V4>(Table::large(), |it| [it, 7]);
    four_threads::<V6>(Table::large(), |it| [it, 1, 2, 3, 4]);
}

#[test]
fn callers_of_other_tables_come_back() {
    let (mut one, mut other) = (Table::<V4>::new().unwrap(), Table::<V4>::new().unwrap());
    let mut stranger = other.split().unwrap();
    assert!(!one.meet(&mut stranger));
    let stranger = one.join(stranger).unwrap_err();
    let (fault, mut other) = other.close().unwrap_err();
    assert_eq!(fault, Fault::Strangers);
    assert_eq!(other.renew(), Err(Fault::Strangers));
    other.join(stranger).unwrap();
    assert!(other.close().unwrap().is_empty());
}

#[test]
fn each_call_has_its_answer() {
    let mut table = Table::<V6>::new().unwrap();
    let (key, expiry) = ([1, 2, 3, 4, 5], Expiry::at(100, 60));
    assert_eq!(table.touch(&key, 7), Answer::Absent);
    assert_eq!(table.remove(&key), Answer::Absent);
    assert_eq!(table.add_or_recycle(&key, 7, expiry), Answer::Added);
    assert_eq!(table.add_if_absent_or_recycle(&key, 8, expiry), Answer::Found(7));
    assert_eq!(table.add_if_absent(&key, 8), Answer::Found(7));
    assert_eq!(table.touch(&key, 8), Answer::Replaced(7));
    assert_eq!(table.try_search(&key), Ok(Answer::Found(8)));
    assert_eq!(table.stamp(), Some((V6::bucket_of(&key), 2)));
    table.look_ahead(&[key; 70]);
    table.look_ahead(&[]);
    assert_eq!(table.stamp(), Some((V6::bucket_of(&key), 2)));
    assert_eq!(table.replace_if(&key, 7, 9), Answer::Found(8));
    assert_eq!(table.replace_if(&key, 8, 9), Answer::Replaced(8));
    assert_eq!(table.replace_if(&[0; 5], 0, 9), Answer::Absent);
    assert_eq!(table.add(&[5, 4, 3, 2, 1], 90), Answer::Added);
    assert_eq!(table.expire(1 << 20, expiry), Answer::Absent);
    assert_eq!(table.sweep(0..1024, expiry), 1);
    assert_eq!(table.search(&key), Answer::Absent);
    assert_eq!(table.search(&[5, 4, 3, 2, 1]), Answer::Found(90));
    assert_eq!(table.sweep(0..1024, Expiry::of_deadlines(89)), 0);
    assert_eq!(table.sweep(0..1024, Expiry::of_deadlines(90)), 1);
}

#[test]
#[should_panic]
fn the_value_of_all_ones_is_refused() {
    Table::<V4>::new().unwrap().add(&[1, 2], NO_VALUE);
}
