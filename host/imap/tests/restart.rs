//! A server that starts again is empty, and says so by another UIDVALIDITY: a client would take its own copies for deleted else.

mod support;

use support::Server;

const NAMES: [&str; 3] = ["INBOX", "work", "Shared/a"];

/// The UIDVALIDITY of each name.
fn validities(server: &Server) -> Vec<u32> {
    let mut alice = server.log_in("alice");
    let mut validity = |name: &str| {
        alice.run(&format!("CREATE {name}"));
        let lines = alice.ok(&format!("STATUS {name} (UIDVALIDITY)"));
        let number = lines[0].trim_end_matches(')').rsplit(' ').next();
        number.and_then(|n| n.parse().ok()).expect("a number")
    };
    NAMES.iter().map(|name| validity(name)).collect()
}

fn of_start(start: Option<u64>) -> Vec<u32> {
    let server = Server::started(start, &[]);
    let all = validities(&server);
    server.end();
    all
}

#[test]
fn a_later_start_has_higher_ones() {
    let first = of_start(Some(221_000_000));
    assert_eq!(of_start(Some(221_000_000)), first);
    let later = of_start(Some(221_000_001));
    assert!(first.iter().zip(&later).all(|(a, b)| a < b));
    // one name's is not another's, which may be renamed to it
    let mut all = [first, later].concat();
    all.sort_unstable();
    all.dedup();
    assert_eq!(all.len(), 2 * NAMES.len());
}

#[test]
fn without_a_given_start_the_clock_decides() {
    let first = of_start(None);
    // a start in the same eighth of a second may have the same
    let rises = |_| {
        let next = of_start(None);
        let pairs = || first.iter().zip(&next);
        assert!(pairs().all(|(a, b)| a <= b), "{first:?} {next:?}");
        pairs().all(|(a, b)| a < b)
    };
    assert!((0..1000).any(rises));
}
