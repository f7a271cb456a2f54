//! Calls in words: edits, publications, and what readers are told.
use kuvteleg::{Kind, Moment, Published, Reader, Refusal, Resolver, Tie, Value};
use std::time::{Duration, UNIX_EPOCH};

const NEW_YEAR: Moment = Moment::new(1_704_067_200, 0);
const ONE: Moment = Moment::new(1_704_070_800, 0);

fn event(payload_type: &str, values: &str) -> String {
    format!(
        r#"{{"programID":"p1","intervals":[{{"id":7,"intervalPeriod":{{"start":"2024-01-01T00:00:00Z","duration":"PT1H"}},"payloads":[{{"type":"{payload_type}","values":[{values}]}}]}}]}}"#
    )
}

fn filled(payload_type: &str, values: &str) -> Resolver {
    let mut resolver = Resolver::new(Tie::Newest).unwrap();
    assert_eq!(resolver.create(NEW_YEAR, Kind::Program, "p1", r#"{"programName":"P"}"#), Ok(1));
    assert_eq!(resolver.create(NEW_YEAR, Kind::Ven, "v1", r#"{"venName":"V"}"#), Ok(2));
    assert_eq!(resolver.create(NEW_YEAR, Kind::Resource, "r1", r#"{"resourceName":"R","venID":"v1"}"#), Ok(3));
    assert_eq!(resolver.create(NEW_YEAR, Kind::Event, "e1", event(payload_type, values)), Ok(4));
    resolver
}

fn reader(payload_type: &str, values: &str) -> Reader {
    let mut resolver = filled(payload_type, values);
    resolver.publish().unwrap();
    resolver.reader().unwrap()
}

#[test]
fn states() {
    let mut reader = reader("PRICE", "0.170,-3");
    let state = reader.at("r1", "PRICE", UNIX_EPOCH + Duration::from_secs(1_704_069_000)).unwrap();
    assert_eq!((state.event, state.interval, state.until), (Some("e1"), Some(7), Some(ONE)));
    assert_eq!(state.values.as_json(), "[0.17,-3]");
    let state = reader.at("r1", "PRICE", Moment::new(1_704_067_199, 999_999_999)).unwrap();
    assert_eq!((state.event, state.interval, state.until), (None, None, Some(NEW_YEAR)));
    assert_eq!(state.values.read(), []);
    assert_eq!(reader.at("r1", "PRICE", ONE).unwrap().until, None);
    assert_eq!(reader.line("types r1"), Ok("version 4\nPRICE\n.\n"));
}

#[test]
fn values_of_every_kind() {
    let mut reader = reader("a \\\"type\\\"", r#""a \"b\" \u0001 é 😀",true,false,{"x":0,"y":-1.50},12345678901234567890.5"#);
    let state = reader.at("r1", "a \"type\"", NEW_YEAR).unwrap();
    let point = Value::Point("0".into(), "-1.5".into());
    let wanted = [
        Value::Text("a \"b\" \u{1} é 😀".into()),
        Value::Truth(true),
        Value::Truth(false),
        point,
        Value::Number("12345678901234567890.5".into()),
    ];
    assert_eq!(state.values.read(), wanted);
}

#[test]
fn texts_that_are_no_arrays_of_values() {
    assert_eq!(Value::read_all(r#" [ "\ud83d\ude00\n" , 1e2 ] "#), Some(vec![Value::Text("😀\n".into()), Value::Number("1e2".into())]));
    for text in [
        "",
        "[",
        "[1",
        "[1 2]",
        "[]]",
        "[nil]",
        r#"["a]"#,
        r#"["\x"]"#,
        r#"["\ud83d"]"#,
        r#"[{"y":1,"x":2}]"#,
        "[[1]]",
        "[-]",
        r#"["\u00é"]"#,
    ] {
        assert_eq!(Value::read_all(text), None, "{text}");
    }
}

#[test]
fn refusals_change_nothing() {
    let mut resolver = filled("PRICE", "17");
    assert_eq!(resolver.create(NEW_YEAR, Kind::Ven, "v1", r#"{"venName":"V"}"#), Err(Refusal::Exists));
    assert_eq!(resolver.change(NEW_YEAR, Kind::Event, "e1", event("PRICE", "true")), Err(Refusal::BadShape));
    assert_eq!(resolver.create(Moment::new(0, 1_000_000_000), Kind::Ven, "v2", "{}"), Err(Refusal::BadMoment));
    assert_eq!(resolver.create(NEW_YEAR, Kind::Ven, "", ""), Err(Refusal::BadId));
    let refusal = resolver.delete(Kind::Ven, "v1").unwrap_err();
    assert_eq!((refusal.number(), refusal.name(), refusal.to_string()), (26, "InUse", "26 InUse".into()));
    assert_eq!(resolver.publish(), Ok(Published { number: 1, version: 4 }));
    let mut reader = resolver.reader().unwrap();
    assert_eq!(reader.line("publish"), Err(Refusal::BadLine));
    assert_eq!(reader.at("r2", "PRICE", NEW_YEAR), Err(Refusal::UnknownResource));
    assert_eq!(reader.at("r1", "", NEW_YEAR), Err(Refusal::BadText));
    assert_eq!(reader.seen(), Ok(Published { number: 1, version: 4 }));
}

#[test]
fn a_reader_sees_one_publication_and_may_outlive_the_resolver() {
    let mut resolver = filled("PRICE", "17");
    let mut early = resolver.reader().unwrap();
    resolver.publish().unwrap();
    assert_eq!(early.line("types r1"), Err(Refusal::UnknownResource));
    assert_eq!(early.seen(), Ok(Published { number: 0, version: 0 }));
    early.look(&mut resolver).unwrap();
    assert_eq!(resolver.condense(), Ok(4));
    assert_eq!(resolver.delete(Kind::Event, "e1"), Ok(5));
    resolver.publish().unwrap();
    drop(resolver);
    let mut other = early.clone();
    drop(early);
    assert_eq!(other.at("r1", "PRICE", NEW_YEAR).unwrap().event, Some("e1"));
}

#[test]
fn a_long_reply() {
    let mut resolver = filled("PRICE", "17");
    for i in 2..1000 {
        resolver.create(NEW_YEAR, Kind::Resource, &format!("r{i}"), r#"{"resourceName":"R","venID":"v1"}"#).unwrap();
    }
    resolver.publish().unwrap();
    assert_eq!(resolver.line("roll PRICE 2024-01-01T00:30:00Z").unwrap().lines().count(), 1001);
    assert_eq!(resolver.reader().unwrap().line("roll PRICE 2024-01-01T00:30:00Z").unwrap().lines().count(), 1001);
}

#[test]
fn moments() {
    for (moment, text) in [
        (Moment::new(1_718_818_205, 250_000_000), "2024-06-19T17:30:05.25Z"),
        (Moment::new(-377_705_023_201, 0), "-009999-01-02T01:59:59Z"),
        (Moment::new(253_402_207_200, 999_999_999), "9999-12-30T22:00:00.999999999Z"),
        (Moment::new(-62_167_219_200, 0), "0000-01-01T00:00:00Z"),
        (Moment::new(-1, 1), "1969-12-31T23:59:59.000000001Z"),
    ] {
        assert_eq!(moment.to_string(), text);
        assert_eq!(Moment::from(moment.to_system_time().unwrap()), moment);
    }
}
