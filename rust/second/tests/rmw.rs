//! Read-modify-writes: each is a load and a store with no silent step between.

mod searches;

use corpus::plain;
use second::{replay, Event, Log, Operation, Replayed, Step};

const FORMS: [Operation; 3] = [Operation::LRmw, Operation::RRmw, Operation::MRmw];

fn event(operation: Operation, machine: u8, value: u32, written: u32) -> Event {
    Event { operation, machine, location: 0, value, written }
}

fn rmw(operation: Operation, value: u32, written: u32) -> Event {
    event(operation, 1, value, written)
}

fn load(machine: u8, value: u32) -> Event {
    event(Operation::Load, machine, value, 0)
}

fn crash(machine: u8) -> Event {
    event(Operation::Crash, machine, 0, 0)
}

/// Three persistent machines and one location of machine 2.
fn log(events: &[Event]) -> Log {
    Log { machines: 3, persistent: 7, homes: vec![plain(7, 2, 0)], events: events.to_vec(), ..Log::default() }
}

/// The first impossible event of these.
fn first_impossible(events: &[Event]) -> Option<u8> {
    searches::first_impossible(&log(events))
}

#[test]
fn codes_and_parts() {
    for (form, (code, store)) in
        FORMS.into_iter().zip([(8, Operation::LStore), (9, Operation::RStore), (10, Operation::MStore)])
    {
        assert_eq!((form.code(), form.tag(), Operation::from_code(code)), (code, 5, Some(form)));
        let [first, second] = rmw(form, 3, 4).load_and_store().unwrap();
        assert_eq!([first, second], [load(1, 3), event(store, 1, 4, 0)]);
    }
    assert_eq!(load(1, 3).load_and_store(), None);
}

#[test]
fn it_reads_what_a_load_would_and_the_value_is_there_afterwards() {
    for form in FORMS {
        assert_eq!(first_impossible(&[rmw(form, 0, 5), load(3, 5)]), None, "{form:?}");
        assert_eq!(first_impossible(&[rmw(form, 0, 5), load(3, 0)]), Some(2), "{form:?}");
        assert_eq!(first_impossible(&[rmw(form, 1, 5)]), Some(1), "{form:?}");
        assert_eq!(first_impossible(&[rmw(form, 0, 5), rmw(form, 5, 6), rmw(form, 5, 7)]), Some(3), "{form:?}");
    }
}

/// Where each form stores shows in whose crash loses the value.
#[test]
fn each_form_stores_where_its_store_does() {
    let lost = |form, machine| first_impossible(&[rmw(form, 0, 5), crash(machine), load(3, 0)]).is_none();
    assert!(lost(Operation::LRmw, 1) && !lost(Operation::LRmw, 3));
    assert!(!lost(Operation::RRmw, 1) && lost(Operation::RRmw, 2));
    assert!(!lost(Operation::MRmw, 1) && !lost(Operation::MRmw, 2));
    let kept = |form, machine| first_impossible(&[rmw(form, 0, 5), crash(machine), load(3, 5)]).is_none();
    assert!(FORMS.into_iter().all(|form| kept(form, 1) && kept(form, 2)));
}

/// The copy that its load makes is gone with all others once it has stored.
#[test]
fn no_copy_of_what_was_read_stays() {
    let store = event(Operation::LStore, 3, 1, 0);
    for form in FORMS {
        assert_eq!(first_impossible(&[store, load(1, 1), rmw(form, 1, 2), crash(3), load(1, 1)]), Some(5), "{form:?}");
    }
    let flushed = event(Operation::LFlush, 1, 0, 0);
    assert_eq!(replay(&log(&[store, rmw(Operation::RRmw, 1, 2), flushed]), &[]), Replayed::Yes);
    assert_eq!(replay(&log(&[store, rmw(Operation::LRmw, 1, 2), flushed]), &[]), Replayed::No(2));
}

#[test]
fn replay_follows_it_in_one_piece() {
    let log = log(&[event(Operation::LStore, 3, 1, 0), crash(3), rmw(Operation::MRmw, 1, 2)]);
    let moved = Step { before: 1, location: 0, machine: 3 };
    assert_eq!(replay(&log, &[moved]), Replayed::Yes);
    // What cannot be read is not overwritten either: the event does not pass.
    assert_eq!(replay(&log, &[]), Replayed::No(2));
    // The copy in the owner's cache is gone with the store to memory.
    assert_eq!(replay(&log, &[moved, Step { before: 3, location: 0, machine: 0 }]), Replayed::No(3));
}

#[test]
fn each_counts_as_a_store_in_the_bound() {
    let steps_most = |events: &[Event]| log(events).steps_most();
    assert_eq!(steps_most(&FORMS.map(|form| rmw(form, 0, 0))), 6);
    assert_eq!(steps_most(&[rmw(Operation::LRmw, 0, 1), load(2, 1), crash(1)]), 3);
}
