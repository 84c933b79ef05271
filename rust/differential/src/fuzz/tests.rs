//! The search finds artificial mistakes, and makes their inputs as small as they go.

use crate::fuzz::any_list::any_list;
use crate::fuzz::bytes::RowBytes;
use crate::fuzz::list::{Call, List};
use crate::fuzz::search;
use crate::fuzz::shrink::{lower, parts, Input};
use crate::port::batches::FRESH;
use crate::port::rows::Row;
use crate::rng::Rng;
use crate::support::Check;

fn fails(mistaken: bool) -> Check {
    match mistaken {
        true => Err("planted".into()),
        false => Ok(()),
    }
}

/// The smallest random list with this mistake.
fn found(mistaken: fn(&List) -> bool) -> List {
    let mut rng = Rng::for_suite(1, "tests");
    let searched = search(&mut rng, 100_000, any_list, |list| fails(mistaken(list)));
    searched.expect_err("the mistake is planted").0
}

fn batch_rows(call: &Call) -> Vec<&Row> {
    match call {
        Call::Batch(offer, _) => offer.rows.iter().map(|lent| &lent.row).collect(),
        _ => Vec::new(),
    }
}

/// A row with a payload of two bytes and a dependency, in a batch call after a floor setting.
#[test]
fn one_row_after_a_floor() {
    let list = found(|list| {
        let floor = |call: &Call| matches!(call, Call::Floor((wall, ..), _) if *wall >= 7);
        let after = list.calls.iter().skip_while(|call| !floor(call));
        let mut rows = after.flat_map(batch_rows);
        rows.any(|row| row.payload.len() >= 2 && row.seq >= 2 && !row.deps.is_empty())
    });
    let [Call::Floor(floor, _), Call::Batch(offer, _)] = &list.calls[..] else {
        panic!("{}", list.shown());
    };
    let [lent] = &offer.rows[..] else {
        panic!("{}", list.shown());
    };
    assert_eq!(*floor, (7, 0, 0));
    let smallest = Row {
        stamp: (0, 0, 0),
        author: 0,
        seq: 2,
        deps: vec![(0, 0)],
        payload: vec![0, 0],
        signature: Vec::new(),
    };
    assert_eq!(lent.row, smallest, "{}", list.shown());
    assert_eq!((offer.time, list.capacity), (0, 1));
    assert_eq!(offer.limits, Default::default());
    assert_eq!(offer.clock, FRESH);
}

/// The same row in two batch calls: both stay equal while they grow smaller.
#[test]
fn a_row_and_its_duplicate() {
    let list = found(|list| {
        let mut calls = list.calls.iter().enumerate();
        calls.any(|(at, call)| {
            let later = list.calls[at + 1..].iter().flat_map(batch_rows);
            let later: Vec<&Row> = later.collect();
            let mut rows = batch_rows(call).into_iter();
            rows.any(|row| row.author % 3 == 2 && !row.payload.is_empty() && later.contains(&row))
        })
    });
    let rows: Vec<Vec<&Row>> = list.calls.iter().map(batch_rows).collect();
    assert_eq!(rows.len(), 2, "{}", list.shown());
    assert_eq!(rows[0], rows[1], "{}", list.shown());
    let [row] = rows[0][..] else {
        panic!("{}", list.shown());
    };
    assert_eq!((row.author, row.seq, &row.payload[..]), (2, 0, &[0][..]));
    assert_eq!((row.deps.len(), row.signature.len()), (0, 0));
}

#[test]
fn bytes_around_a_mark() {
    let mut rng = Rng::for_suite(1, "tests");
    let marked = |row: &RowBytes| fails(row.bytes().windows(2).any(|pair| pair == [0x80, 0]));
    let searched = search(&mut rng, 1_000, RowBytes::any, marked);
    let (row, difference) = searched.expect_err("the mark is common");
    assert_eq!(row.bytes(), [0x80, 0]);
    assert_eq!(difference, "planted");
}

/// What agrees is not told.
#[test]
fn nothing_to_find() {
    let mut rng = Rng::for_suite(1, "tests");
    assert!(search(&mut rng, 100, any_list, |_| Ok(())).is_ok());
}

#[test]
fn numbers_and_parts_in_order() {
    assert_eq!(lower(0).count(), 0);
    assert_eq!(lower(9).collect::<Vec<_>>(), [0, 5, 7, 8]);
    assert_eq!(parts(3).collect::<Vec<_>>(), [0..3, 0..1, 1..2, 2..3]);
}
