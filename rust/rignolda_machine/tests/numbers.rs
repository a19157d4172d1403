//! Which bodies are newer, by numbers that go round, and what is done with them.
use rignolda_machine::settings::{furthest, is_newer, older, Heard, Meaning, Publisher, Taker};

/// The last number, and half of all of them.
const LAST: u64 = 18_446_744_073_709_551_615;
const HALF: u64 = 9_223_372_036_854_775_808;

#[test]
fn numbers_go_round() {
    for (number, than, expected) in [
        (8, 7, true),
        (7, 7, false),
        (7, 8, false),
        // (past the last one, 1 follows)
        (1, LAST, true),
        (5, LAST - 5, true),
        (LAST, 1, false),
        // (less than half of them ahead)
        (HALF - 1 + 7, 7, true),
        (HALF + 7, 7, false),
        (HALF + 8, 7, false),
        (7, HALF + 7, false),
        (7, HALF + 8, true),
        (3, HALF + 4, true),
        (3, HALF + 3, false),
        // (0 is no number)
        (1, 0, true),
        (LAST, 0, true),
        (HALF, 0, true),
    ] {
        assert_eq!(is_newer(number, than), expected, "{number} {than}");
    }
    let pairs = [(7, 8), (8, 7), (LAST, 2), (2, LAST), (0, 9), (9, 0), (0, LAST), (LAST, 0)];
    let olders = pairs.map(|(one, other)| older(one, other));
    assert_eq!(olders, [7, 7, LAST, LAST, 0, 0, 0, 0]);
}

#[test]
fn the_furthest_is_counted_from_the_own_number_on() {
    for (own, others, expected) in [
        (10, vec![], 10),
        (10, vec![9, 12, 11], 12),
        (10, vec![0, 9], 10),
        (LAST - 1, vec![0, 2, LAST], 2),
        // (what is half of all ahead, or more, is behind)
        (10, vec![HALF + 9, HALF + 10, HALF + 11], HALF + 9),
        (HALF, vec![0, 5, LAST], LAST),
        (0, vec![7, 9], 9),
    ] {
        assert_eq!(furthest(own, others.clone()), expected, "{own} {others:?}");
    }
}

/// What an agent with this number and floor does with a body: whether it takes it, and whether it
/// applies it; and its number and floor then.
fn hears(number: u64, floor: u64, kind: u8, body: u64) -> (bool, bool, u64, u64) {
    let mut taker = Taker::new(floor);
    taker.number = number;
    let Heard { takes, applies, .. } = taker.hears(kind, body);
    (takes, applies, taker.number, taker.floor)
}

#[test]
fn what_is_newer_is_taken_and_applied_where_the_files_are_not_from_later() {
    for kind in *b"CTH" {
        for (number, floor, body, expected) in [
            (0, 0, 7, (true, true, 7, 7)),
            (7, 7, 8, (true, true, 8, 8)),
            (7, 7, 20, (true, true, 20, 20)),
            (7, 7, 7, (false, false, 7, 7)),
            (7, 7, 6, (false, false, 7, 7)),
            // (it has begun anew)
            (0, 9, 7, (true, false, 7, 9)),
            (7, 9, 8, (true, false, 8, 9)),
            (8, 9, 9, (true, true, 9, 9)),
            (8, 9, 12, (true, true, 12, 12)),
            // (what comes after the last number)
            (LAST, LAST, 1, (true, true, 1, 1)),
            (LAST - 3, 2, LAST, (true, false, LAST, 2)),
            (LAST, 2, 2, (true, true, 2, 2)),
            // (numbers that are half of all ahead, or more, are not newer)
            (7, 7, HALF + 7, (false, false, 7, 7)),
            (0, HALF + 8, 7, (true, true, 7, 7)),
            (0, HALF + 7, 7, (true, true, 7, 7)),
            (0, HALF + 6, 7, (true, false, 7, HALF + 6)),
        ] {
            let found = hears(number, floor, kind, body);
            assert_eq!(found, expected, "{number} {floor} {body} {kind:?}");
        }
    }
}

fn numbers(publisher: &mut Publisher) -> Vec<(u64, bool)> {
    let all = std::iter::from_fn(|| publisher.next(100)).map(|it| {
        let (number, meaning) = it.body.meaning().unwrap();
        (number, matches!(meaning, Meaning::Table(_)))
    });
    all.collect()
}

#[test]
fn a_publisher_goes_on_above_a_number_with_the_whole_table() {
    let mut publisher = Publisher::new(100);
    publisher.set("a", vec![1]);
    assert_eq!(numbers(&mut publisher), [(101, true)]);
    assert!(!publisher.go_above(101) && !publisher.go_above(99) && !publisher.waits());
    assert!(publisher.go_above(500));
    assert_eq!(numbers(&mut publisher), [(501, true)]);
    publisher.set("a", vec![2]);
    assert_eq!(numbers(&mut publisher), [(502, false)]);
    // (half of all is neither ahead nor behind, and a quarter is as far as it goes at once)
    let far = 501 + HALF;
    assert!(!publisher.go_above(far + 1) && publisher.go_above(far));
    assert_eq!(numbers(&mut publisher), [(503 + HALF / 2, true)]);
    assert!(publisher.go_above(far) && !publisher.go_above(far));
    assert_eq!(numbers(&mut publisher), [(far + 1, true)]);
    // (past 0, which is no number)
    assert!(publisher.go_above(LAST) && publisher.go_above(LAST));
    assert_eq!(numbers(&mut publisher), [(1, true)]);
    // (in a round too: it goes on behind that table)
    publisher.begin_round(2);
    assert_eq!(publisher.next(100).unwrap().body.meaning().unwrap(), (2, Meaning::Harmless));
    assert!(publisher.go_above(9));
    assert_eq!(numbers(&mut publisher), [(10, true), (11, false), (12, true)]);
}
