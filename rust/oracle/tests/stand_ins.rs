//! The stand-ins against what is publicly documented of the things they stand for.

use std::{
    cell::Cell,
    pin::pin,
    task::{Context, Poll, Waker},
};

use heapless::index_set::FnvIndexSet;

/// The examples of heapless's documentation of `insert` and `remove`.
#[test]
fn set_documentation() {
    let mut set: FnvIndexSet<_, 16> = FnvIndexSet::new();
    assert!(set.insert(2).unwrap());
    assert!(!set.insert(2).unwrap());
    assert_eq!(set.len(), 1);

    let mut set: FnvIndexSet<_, 16> = FnvIndexSet::new();
    set.insert(2).unwrap();
    assert!(set.remove(&2));
    assert!(!set.remove(&2));

    let mut set: FnvIndexSet<_, 16> = FnvIndexSet::new();
    assert!(set.is_empty());
    set.insert("a").unwrap();
    set.insert("b").unwrap();
    assert!(set.contains(&"a") && set.contains(&"b") && !set.contains(&"c"));
    let mut values: Vec<_> = set.iter().copied().collect();
    values.sort();
    assert_eq!(values, ["a", "b"]);
}

#[test]
fn full_set() {
    let mut set: FnvIndexSet<usize, 4> = FnvIndexSet::new();
    for value in [10, 20, 30, 40] {
        assert_eq!(set.insert(value), Ok(true));
    }
    // A value that is there is no new one; another does not fit and comes back.
    assert_eq!(set.insert(30), Ok(false));
    assert_eq!(set.insert(50), Err(50));
    assert!(!set.contains(&50));
    assert_eq!(set.len(), 4);
    // A removal makes room for one, wherever it was.
    assert!(set.remove(&20));
    assert_eq!(set.len(), 3);
    assert_eq!(set.insert(50), Ok(true));
    assert_eq!(set.insert(20), Err(20));
    let mut values: Vec<_> = set.iter().copied().collect();
    values.sort();
    assert_eq!(values, [10, 30, 40, 50]);
}

/// Every run of four calls over five values, against the standard library's set.
#[test]
fn set_is_a_set() {
    use std::collections::BTreeSet;

    let calls: Vec<(bool, u8)> = (0..10).map(|call| (call < 5, call % 5)).collect();
    for number in 0..calls.len().pow(4) {
        let mut set: FnvIndexSet<u8, 2> = FnvIndexSet::new();
        let mut model = BTreeSet::new();
        let mut rest = number;
        for _ in 0..4 {
            let (insert, value) = calls[rest % calls.len()];
            rest /= calls.len();
            if insert {
                let expected = if model.contains(&value) {
                    Ok(false)
                } else if model.len() == 2 {
                    Err(value)
                } else {
                    model.insert(value);
                    Ok(true)
                };
                assert_eq!(set.insert(value), expected);
            } else {
                assert_eq!(set.remove(&value), model.remove(&value));
            }
            assert_eq!(set.iter().copied().collect::<BTreeSet<_>>(), model);
            assert_eq!(set.len(), model.len());
        }
    }
}

#[test]
fn timer_is_an_order() {
    let mut context = Context::from_waker(Waker::noop());
    let mut timer = pin!(embassy_time::Timer::after_millis(800));
    assert_eq!(embassy_time::take_started(), None);
    assert_eq!(timer.as_mut().poll(&mut context), Poll::Pending);
    assert_eq!(embassy_time::take_started(), Some(800));
    assert_eq!(embassy_time::take_started(), None);
    assert_eq!(timer.as_mut().poll(&mut context), Poll::Ready(()));
    assert_eq!(embassy_time::take_started(), None);
}

#[test]
fn log_lines_are_not_evaluated() {
    let evaluated = Cell::new(false);
    let argument = || evaluated.set(true);
    embedded_services::trace!("{:?}", argument());
    embedded_services::debug!("{:?}", argument());
    embedded_services::info!("{:?}", argument());
    embedded_services::error!("{:?}", argument());
    assert!(!evaluated.get());
}
