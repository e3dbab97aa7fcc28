//! Sets that threads share, and pass on.

use std::thread;

use range_set::RangeSet;

fn runs_of_two(count: u64) -> RangeSet<u64> {
    (0..count).map(|place| 4 * place..=4 * place + 1).collect()
}

#[test]
fn threads_read_a_set_at_the_same_time() {
    let (set, other) = (runs_of_two(500), runs_of_two(400));
    thread::scope(|scope| {
        for _ in 0..4 {
            scope.spawn(|| {
                assert_eq!(
                    set.iter().filter(|value| other.contains(*value)).count(),
                    800
                );
                assert_eq!((&set & &other).len(), 800);
                assert!(other.is_subset(&set) && set != other);
            });
        }
    });
}

#[test]
fn a_set_passes_to_another_thread_and_back() {
    let mut set = runs_of_two(500);
    let set = thread::spawn(move || {
        set.remove_range(10..);
        set
    });
    assert_eq!(set.join().unwrap().to_string(), "0..=1, 4..=5, 8..=9");
}

#[test]
fn sets_of_other_types_are_shared_and_sent() {
    let letters = RangeSet::from(['a'..='z', 'A'..='Z']);
    let sites: RangeSet<std::net::Ipv6Addr> = "::1, 2001:db8::..=2001:db8::ff".parse().unwrap();
    let found = thread::scope(|scope| {
        let workers = ["Hello, world", "1234", "xyz"].map(|text| {
            let (letters, sites) = (&letters, &sites);
            scope.spawn(move || {
                let found = text.chars().filter(|value| letters.contains(*value));
                found.count() + sites.runs().len()
            })
        });
        workers.map(|worker| worker.join().unwrap())
    });
    assert_eq!(found, [12, 2, 5]);
    let mut walk = sites.into_iter();
    walk.next();
    let rest = thread::spawn(move || walk.count());
    assert_eq!(rest.join().unwrap(), 256);
}
