//! Readers in threads beside an editor, a million looks in all.
use kuvteleg::{Kind, Moment, Reader, Refusal, Resolver, Tie};
use std::sync::atomic::{AtomicU64, Ordering};
use std::sync::Mutex;

const NEW_YEAR: Moment = Moment::new(1_704_067_200, 0);
const LOOKS: u64 = 1_000_000;

/// Writes the event with its version as its price, and publishes it.
fn publish(resolver: &mut Resolver, version: u64) -> Result<Reader, Refusal> {
    let body = format!(
        r#"{{"programID":"p1","intervals":[{{"intervalPeriod":{{"start":"2024-01-01T00:00:00Z","duration":"PT1H"}},"payloads":[{{"type":"PRICE","values":[{version}]}}]}}]}}"#
    );
    if version == 4 {
        resolver.create(NEW_YEAR, Kind::Event, "e1", body)?;
    } else {
        resolver.change(NEW_YEAR, Kind::Event, "e1", body)?;
    }
    if resolver.publish()?.number % 100 == 0 {
        resolver.condense()?;
    }
    resolver.reader()
}

/// Looks, and sees no publication older than the last one, and of each the price that it was published with.
fn look(latest: &Mutex<Reader>, last: &mut u64) -> Result<(), Refusal> {
    let mut mine = latest.lock().unwrap().share()?;
    let seen = mine.seen()?;
    assert!(*last <= seen.number);
    *last = seen.number;
    let state = mine.at("r1", "PRICE", NEW_YEAR)?;
    assert_eq!(state.values.as_json(), format!("[{}]", seen.version));
    Ok(())
}

#[test]
fn readers_beside_an_editor() -> Result<(), Refusal> {
    let mut resolver = Resolver::new(Tie::Newest)?;
    resolver.create(NEW_YEAR, Kind::Program, "p1", r#"{"programName":"P"}"#)?;
    resolver.create(NEW_YEAR, Kind::Ven, "v1", r#"{"venName":"V"}"#)?;
    resolver.create(NEW_YEAR, Kind::Resource, "r1", r#"{"resourceName":"R","venID":"v1"}"#)?;
    let latest = Mutex::new(publish(&mut resolver, 4)?);
    let looks = AtomicU64::new(0);
    std::thread::scope(|threads| {
        for _ in 0..3 {
            threads.spawn(|| {
                let mut last = 0;
                while looks.fetch_add(1, Ordering::Relaxed) < LOOKS {
                    look(&latest, &mut last).unwrap();
                }
            });
        }
        let mut version = 5;
        while looks.load(Ordering::Relaxed) < LOOKS {
            let fresh = publish(&mut resolver, version).unwrap();
            *latest.lock().unwrap() = fresh;
            version += 1;
        }
    });
    Ok(())
}
