//! `list`, `roll` and `types` as data, against the text of the same query: printed as a reply it is the same bytes.
use kuvteleg::{Kind, Moment, OwnedState, Reader, Refusal, Resolver, Segment, Tie, Value};
use std::collections::BTreeSet;
use std::fs;
use std::path::Path;

const NEW_YEAR: Moment = Moment::new(1_704_067_200, 0);
const FIRST: Moment = Moment::new(-377_705_023_201, 0);
const LAST: Moment = Moment::new(253_402_207_200, 999_999_999);

fn quoted(text: &str) -> String {
    let letters = text.chars().map(|it| match it {
        '"' | '\\' => format!("\\{it}"),
        '\0'..='\u{1f}' => format!("\\u{:04x}", it as u32),
        _ => it.to_string(),
    });
    format!("\"{}\"", letters.collect::<String>())
}

fn values_told(values: &[Value]) -> String {
    let told = values.iter().map(|it| match it {
        Value::Number(number) => format!(" {number}"),
        Value::Text(text) => format!(" {}", quoted(text)),
        Value::Truth(truth) => format!(" {truth}"),
        Value::Point(x, y) => format!(" ({x},{y})"),
    });
    format!("values{}", told.collect::<String>())
}

fn segment_told(it: &Segment) -> String {
    format!("{} {} event {} interval {} {}", it.start, it.end, it.event, it.interval, values_told(&it.values))
}

fn state_told((resource, state): &(String, OwnedState)) -> String {
    let until = state.until.map_or("end".into(), |it| it.to_string());
    match (&state.event, state.interval) {
        (Some(event), Some(interval)) => {
            format!("{resource} event {event} interval {interval} until {until} {}", values_told(&state.values))
        }
        _ => {
            assert_eq!((&state.event, state.interval, &state.values), (&None, None, &vec![]));
            format!("{resource} none until {until}")
        }
    }
}

fn type_told(it: &str) -> String {
    let is_bare = it.chars().all(|it| ('!'..='~').contains(&it) && it != '"');
    if is_bare {
        it.to_owned()
    } else {
        quoted(it)
    }
}

/// The reply that an answer is printed as, or why it was refused.
fn told<T>(reader: &mut Reader, answer: Result<Vec<T>, Refusal>, line_of: impl Fn(&T) -> String) -> Result<String, Refusal> {
    let version = reader.seen()?.version;
    let lines = answer?.iter().map(|it| line_of(it) + "\n").collect::<String>();
    Ok(format!("version {version}\n{lines}.\n"))
}

/// Compares a list, and answers it.
fn list(reader: &mut Reader, resource: &str, payload_type: &str, from: Moment, to: Moment) -> Vec<Segment> {
    let answer = reader.list(resource, payload_type, from, to);
    let line = format!("list {resource} {payload_type} {from} {to}");
    let same = told(reader, answer.clone(), segment_told);
    assert_eq!(same.as_deref(), reader.line(&line).as_deref(), "{line}");
    answer.unwrap_or_default()
}

/// Compares a roll, and its states with those of `at`, and answers it.
fn roll(reader: &mut Reader, payload_type: &str, moment: Moment) -> Vec<(String, OwnedState)> {
    let answer = reader.roll(payload_type, moment);
    let line = format!("roll {payload_type} {moment}");
    let same = told(reader, answer.clone(), state_told);
    assert_eq!(same.as_deref(), reader.line(&line).as_deref(), "{line}");
    let answer = answer.unwrap_or_default();
    for (resource, state) in &answer {
        let at = reader.at(resource, payload_type, moment).unwrap();
        assert_eq!((at.event, at.interval, at.until), (state.event.as_deref(), state.interval, state.until), "{line}");
        assert_eq!(at.values.read(), state.values, "{line}");
    }
    answer
}

/// Compares types, and answers them.
fn types(reader: &mut Reader, resource: &str) -> Vec<String> {
    let answer = reader.types(resource);
    let line = format!("types {resource}");
    let same = told(reader, answer.clone(), |it| type_told(it));
    assert_eq!(same.as_deref(), reader.line(&line).as_deref(), "{line}");
    answer.unwrap_or_default()
}

fn is_word(text: &str) -> bool {
    !text.is_empty() && !text.contains([' ', '\n', '\r'])
}

/// Queries at the moments where something begins or ends, and at the instants before; answers how many moments there are.
fn query(reader: &mut Reader, resource: &str, payload_type: &str) -> usize {
    let mut moments = BTreeSet::from([FIRST, NEW_YEAR, LAST]);
    for segment in list(reader, resource, payload_type, FIRST, LAST).iter().take(20) {
        for it in [segment.start, segment.end] {
            let before = if it.nanoseconds() > 0 { (0, it.nanoseconds() - 1) } else { (1, 999_999_999) };
            moments.extend([it, Moment::new(it.seconds() - before.0, before.1).max(FIRST)]);
        }
    }
    let moments: Vec<Moment> = moments.into_iter().collect();
    for pair in moments.windows(2) {
        roll(reader, payload_type, pair[0]);
        list(reader, resource, payload_type, pair[0], pair[1]);
        list(reader, resource, payload_type, pair[0], LAST);
        list(reader, resource, payload_type, pair[1], pair[0]);
    }
    moments.len()
}

/// Queries about the first resources and one that isn't there, under their types and others; answers how many moments were asked for.
fn queries(reader: &mut Reader) -> usize {
    let mut resources: Vec<String> = roll(reader, "PRICE", NEW_YEAR).into_iter().map(|it| it.0).take(4).collect();
    resources.push("nobody".into());
    let mut count = 0;
    for resource in resources {
        let mut asked: BTreeSet<String> = ["PRICE", "SIMPLE", "price", "\"PRICE\"", "."].map(String::from).into();
        asked.extend(types(reader, &resource).into_iter().take(30));
        for payload_type in asked {
            if is_word(&payload_type) {
                count += query(reader, &resource, &payload_type);
            } else {
                assert_eq!(reader.list(&resource, &payload_type, FIRST, LAST), Err(Refusal::BadLine));
                assert_eq!(reader.roll(&payload_type, FIRST), Err(Refusal::BadLine));
            }
        }
    }
    count
}

/// Queries about each publication of a script, until there were many, and about the last; answers how many moments were asked for.
fn script(path: &Path, tie: Tie) -> usize {
    let whole = fs::read(path).unwrap();
    let mut resolver = Resolver::new(tie).unwrap();
    let mut count = 0;
    for line in whole.split(|it| *it == b'\n').filter(|it| !it.starts_with(b"> ")) {
        let line = line.strip_suffix(b"\r").unwrap_or(line);
        let is_published = resolver.line(line).is_ok_and(|it| it.starts_with("published "));
        if is_published && count < 20_000 {
            count += queries(&mut resolver.reader().unwrap());
        }
    }
    resolver.publish().unwrap();
    count + queries(&mut resolver.reader().unwrap())
}

fn scripts(folder: &str, ending: &str, ties: &[Tie]) {
    let top = Path::new(env!("CARGO_MANIFEST_DIR")).join("../../..").join(folder);
    let all = fs::read_dir(&top).unwrap_or_else(|fault| panic!("{}: {fault}", top.display()));
    let paths: Vec<_> = all.map(|it| it.unwrap().path()).filter(|it| it.to_string_lossy().ends_with(ending)).collect();
    assert!(!paths.is_empty());
    for tie in ties {
        assert!(paths.iter().map(|it| script(it, *tie)).sum::<usize>() > 30);
    }
}

#[test]
fn of_stored_scripts() {
    let both = [Tie::Newest, Tie::LatestStart];
    for folder in ["transcripts/both", "transcripts/newest", "transcripts/latest-start"] {
        scripts(folder, ".txt", &both);
    }
    scripts("examples", ".adr", &both);
}

/// A reader of two resources, of which `r1` has an endless interval with these payloads.
fn reader(payloads: &str) -> Reader {
    let mut resolver = Resolver::new(Tie::Newest).unwrap();
    resolver.create(NEW_YEAR, Kind::Program, "p1", r#"{"programName":"P"}"#).unwrap();
    resolver.create(NEW_YEAR, Kind::Ven, "v1", r#"{"venName":"V"}"#).unwrap();
    for id in ["r2", "r1"] {
        let body = format!(r#"{{"resourceName":"{id}","venID":"v1"}}"#);
        resolver.create(NEW_YEAR, Kind::Resource, id, body).unwrap();
    }
    let targets = r#""targets":[{"type":"RESOURCE_NAME","values":["r1"]}]"#;
    let period = format!(r#""intervalPeriod":{{"start":"{FIRST}","duration":"P9999Y"}}"#);
    let body = format!(r#"{{"programID":"p1",{targets},"intervals":[{{"id":-9223372036854775808,{period},"payloads":[{payloads}]}}]}}"#);
    resolver.create(NEW_YEAR, Kind::Event, "e1", body).unwrap();
    resolver.publish().unwrap();
    resolver.reader().unwrap()
}

#[test]
fn states_and_segments() {
    let mut reader = reader(r#"{"type":"PRICE","values":[0.170]}"#);
    let values = vec![Value::Number("0.17".into())];
    let state = OwnedState { event: Some("e1".into()), interval: Some(i64::MIN), until: None, values: values.clone() };
    let none = OwnedState { event: None, interval: None, until: None, values: vec![] };
    assert_eq!(roll(&mut reader, "PRICE", NEW_YEAR), [("r2".into(), none), ("r1".into(), state)]);
    let segment = Segment { start: FIRST, end: LAST, event: "e1".into(), interval: i64::MIN, values };
    assert_eq!(list(&mut reader, "r1", "PRICE", FIRST, LAST), [segment]);
    assert_eq!(list(&mut reader, "r2", "PRICE", FIRST, LAST), []);
    assert_eq!(types(&mut reader, "r1"), ["PRICE"]);
    assert_eq!(types(&mut reader, "r2"), [""; 0]);
}

#[test]
fn values_of_every_kind() {
    let number = "-123456789012345678.901234567890123456";
    let json = format!(
        r#""", " a  b ", "\"\\(\u0001\u001f\u007f\u2028\n\r é 😀", true, false, {{"x":0,"y":-1.50}}, {number}, "true", "1", "(1,2)", "{}""#,
        "long \\\\ ".repeat(100_000)
    );
    let mut reader = reader(&format!(r#"{{"type":"mine","values":[{json}]}},{{"type":"less","values":[]}}"#));
    let text = |it: &str| Value::Text(it.into());
    let mut wanted =
        vec![text(""), text(" a  b "), text("\"\\(\u{1}\u{1f}\u{7f}\u{2028}\n\r é 😀"), Value::Truth(true), Value::Truth(false)];
    wanted.extend([Value::Point("0".into(), "-1.5".into()), Value::Number(number.into()), text("true"), text("1"), text("(1,2)")]);
    wanted.push(text(&"long \\ ".repeat(100_000)));
    assert_eq!(list(&mut reader, "r1", "mine", FIRST, LAST)[0].values, wanted);
    assert_eq!(roll(&mut reader, "mine", NEW_YEAR)[1].1.values, wanted);
    assert_eq!(list(&mut reader, "r1", "less", FIRST, LAST)[0].values, []);
    assert_eq!(roll(&mut reader, "less", NEW_YEAR)[1].1.values, []);
}

#[test]
fn types_of_every_name() {
    let long = "\u{1f600}".repeat(128);
    let names =
        ["CURVE", "!", "\"", "\"PRICE\"", ".", "\\", "a b", "a\nb", "a\rb", "price", "version", "\u{1}", "\u{7f}", "é", "\u{2028}", &long];
    let payloads = names.map(|it| format!(r#"{{"type":{},"values":[{{"x":1,"y":2}}]}}"#, quoted(it)));
    let mut reader = reader(&payloads.join(","));
    let mut wanted = names.map(str::to_owned);
    wanted[1..].sort();
    assert_eq!(types(&mut reader, "r1"), wanted);
    queries(&mut reader);
}

#[test]
fn words_of_no_line() {
    let mut reader = reader(r#"{"type":"PRICE","values":[17]},{"type":"r1","values":[]}"#);
    for word in ["", " ", "r1 ", " r1", "r1 PRICE", "r1\n", "r1\r", "\nr1", "r\r1"] {
        assert_eq!(reader.list(word, "PRICE", FIRST, LAST), Err(Refusal::BadLine));
        assert_eq!(reader.list("r1", word, LAST, Moment::new(i64::MAX, 0)), Err(Refusal::BadLine));
        assert_eq!(reader.roll(word, FIRST), Err(Refusal::BadLine));
        assert_eq!(reader.types(word), Err(Refusal::BadLine));
    }
    let long = "a".repeat(129);
    assert_eq!(reader.list("nobody", "PRICE", LAST, FIRST), Err(Refusal::BadWindow));
    assert_eq!(reader.list("nobody", "PRICE", FIRST, LAST), Err(Refusal::UnknownResource));
    assert_eq!(reader.list("r.1", &long, LAST, FIRST), Err(Refusal::BadId));
    assert_eq!(reader.list("r1", &long, LAST, FIRST), Err(Refusal::BadText));
    assert_eq!(reader.roll(&long, FIRST), Err(Refusal::BadText));
    assert_eq!(reader.types(&long), Err(Refusal::BadId));
    assert_eq!(reader.types("nobody"), Err(Refusal::UnknownResource));
}

#[test]
fn long_lines() {
    let mut reader = reader(r#"{"type":"PRICE","values":[17]}"#);
    let at_most = "a".repeat(4_194_304 - "roll  2024-01-01T00:00:00Z".len());
    assert_eq!(reader.roll(&at_most, NEW_YEAR), Err(Refusal::BadText));
    assert_eq!(reader.roll(&at_most.replace('a', " "), NEW_YEAR), Err(Refusal::BadLine));
    let long = at_most + "a";
    let line = format!("roll {long} {NEW_YEAR}");
    assert_eq!((reader.line(line).err(), reader.roll(&long, NEW_YEAR).err()), (Some(Refusal::LongLine), Some(Refusal::LongLine)));
    assert_eq!(reader.roll(&long.replace('a', " "), NEW_YEAR), Err(Refusal::LongLine));
    assert_eq!(reader.roll(&long, Moment::new(NEW_YEAR.seconds(), u32::MAX)), Err(Refusal::LongLine));
}

#[test]
fn moments_that_calls_refuse() {
    let mut reader = reader(r#"{"type":"PRICE","values":[17]}"#);
    let mut seconds = vec![i64::MIN, i64::MAX, FIRST.seconds() - 1, FIRST.seconds(), LAST.seconds(), LAST.seconds() + 1];
    seconds.extend((0..63).flat_map(|it| [1 << it, -1 << it]));
    for moment in seconds.into_iter().flat_map(|it| [0, 999_999_999, 1_000_000_000, u32::MAX].map(|parts| Moment::new(it, parts))) {
        let refusal = reader.at("r1", "PRICE", moment).err();
        assert_eq!(refusal.is_none(), (FIRST..=LAST).contains(&moment) && moment.nanoseconds() < 1_000_000_000);
        assert_eq!(reader.roll("PRICE", moment).err(), refusal, "{moment:?}");
        if refusal.is_some() {
            assert_eq!(reader.list("r.1", "PRICE", moment, NEW_YEAR), Err(Refusal::BadMoment));
            assert_eq!(reader.list("r1", "PRICE", NEW_YEAR, moment), Err(Refusal::BadMoment));
        }
    }
}

#[test]
fn moments_of_all_years() {
    let mut reader = reader(r#"{"type":"PRICE","values":[17]}"#);
    let days = (FIRST.seconds()..LAST.seconds()).step_by(86_400 * 61 + 12_345);
    let leaps = (-25..25).flat_map(|it| (-1..=1).map(move |day| (it * 146_097 + 11_016 + day) * 86_400)); // about 29 February 2000
    let mut places = 0;
    for seconds in days.chain(leaps).filter(|it| FIRST.seconds() <= *it && *it < LAST.seconds()) {
        places += 1;
        let from = Moment::new(seconds, [0, 1, 250_000_000, 999_999_999, 10][places % 5]);
        let to = Moment::new(seconds + 1, [0, 100_000_000, 999_999_990][places % 3]);
        let segments = list(&mut reader, "r1", "PRICE", from, to);
        assert_eq!((segments[0].start, segments[0].end), (from, to));
    }
    assert!(places > 100_000);
}
