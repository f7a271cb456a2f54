//! Resolvers and readers in what a program keeps them in: locks, structs that go elsewhere, statics, threads that panic.
use kuvteleg::{Kind, Moment, Reader, Refusal, Resolver, Tie};
use std::panic::{self, AssertUnwindSafe};
use std::sync::{mpsc, Arc, Mutex, OnceLock};
use std::thread;

const NEW_YEAR: Moment = Moment::new(1_704_067_200, 0);
static LATEST: OnceLock<Mutex<Reader>> = OnceLock::new();

#[derive(Debug)]
struct Desk {
    resolver: Resolver,
    latest: Arc<Mutex<Reader>>,
}

fn desk() -> Result<Desk, Refusal> {
    let mut resolver = Resolver::new(Tie::Newest)?;
    resolver.create(NEW_YEAR, Kind::Program, "p1", r#"{"programName":"P"}"#)?;
    resolver.create(NEW_YEAR, Kind::Ven, "v1", r#"{"venName":"V"}"#)?;
    resolver.create(NEW_YEAR, Kind::Resource, "r1", r#"{"resourceName":"R","venID":"v1"}"#)?;
    let event = r#"{"programID":"p1","intervals":[{"intervalPeriod":{"start":"2024-01-01T00:00:00Z","duration":"PT1H"},
        "payloads":[{"type":"PRICE","values":[17]}]}]}"#;
    resolver.create(NEW_YEAR, Kind::Event, "e1", event)?;
    resolver.publish()?;
    let latest = Arc::new(Mutex::new(resolver.reader()?));
    Ok(Desk { resolver, latest })
}

fn price(reader: &mut Reader) -> String {
    reader.at("r1", "PRICE", NEW_YEAR).unwrap().values.as_json().to_owned()
}

#[test]
fn both_are_send_and_print_without_what_they_hold() {
    fn is_send<T: Send>() {}
    is_send::<Resolver>();
    is_send::<Reader>();
    let desk = desk().unwrap();
    assert_eq!(format!("{desk:?}"), "Desk { resolver: Resolver { .. }, latest: Mutex { data: Reader { .. }, poisoned: false, .. } }");
}

#[test]
fn a_reader_outlives_a_resolver_that_another_thread_drops() {
    let desk = desk().unwrap();
    let latest = desk.latest.clone();
    thread::spawn(move || drop(desk)).join().unwrap();
    assert_eq!(price(&mut latest.lock().unwrap()), "[17]");
}

#[test]
fn threads_that_share_a_resolver_by_a_lock() {
    let shared = Arc::new(Mutex::new(desk().unwrap().resolver));
    let edits = || {
        for _ in 0..100 {
            let mut reader = {
                let mut resolver = shared.lock().unwrap();
                resolver.publish().unwrap();
                resolver.reader().unwrap()
            };
            assert_eq!(price(&mut reader), "[17]");
        }
    };
    thread::scope(|threads| {
        for _ in 0..4 {
            threads.spawn(edits);
        }
    });
    assert_eq!(shared.lock().unwrap().publish().unwrap().number, 402);
}

#[test]
fn a_static_reader_and_clones_in_messages() {
    let desk = desk().unwrap();
    LATEST.set(Mutex::new(desk.latest.lock().unwrap().clone())).unwrap();
    let (sender, receiver) = mpsc::channel::<Reader>();
    let asks = thread::spawn(move || receiver.into_iter().map(|mut it| price(&mut it)).collect::<Vec<_>>());
    for _ in 0..3 {
        sender.send(LATEST.get().unwrap().lock().unwrap().clone()).unwrap();
    }
    drop(sender);
    assert_eq!(asks.join().unwrap(), ["[17]"; 3]);
}

#[test]
fn after_a_panic_both_are_as_before() {
    let Desk { resolver, latest } = desk().unwrap();
    let shared = Arc::new(Mutex::new(resolver));
    let held = shared.clone();
    let ended = thread::spawn(move || {
        let _held = held.lock().unwrap();
        panic!("while the resolver is held");
    });
    assert!(ended.join().is_err());
    let mut resolver = shared.lock().unwrap_or_else(|poisoned| poisoned.into_inner());
    assert_eq!(resolver.publish().unwrap().number, 2);
    let mut reader = latest.lock().unwrap();
    let asked = panic::catch_unwind(AssertUnwindSafe(|| {
        let state = reader.at("r1", "PRICE", NEW_YEAR).unwrap();
        panic!("while an answer of {:?} is borrowed", state.event);
    }));
    assert!(asked.is_err());
    assert_eq!(price(&mut reader), "[17]");
}
