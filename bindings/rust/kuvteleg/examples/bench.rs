//! What an `at` costs: the least of 15 rounds of 4,096 calls, over 1,000 resources and 50 events of 24 intervals.
use kuvteleg::{Kind, Moment, Refusal, Resolver, Tie};
use std::hint::black_box;
use std::time::{Duration, Instant};

const NEW_YEAR: i64 = 1_704_067_200;

fn filled() -> Result<Resolver, Refusal> {
    let mut resolver = Resolver::new(Tie::Newest)?;
    let then = Moment::new(NEW_YEAR, 0);
    resolver.create(then, Kind::Program, "p", r#"{"programName":"P"}"#)?;
    resolver.create(then, Kind::Ven, "v", r#"{"venName":"V"}"#)?;
    for i in 0..1000 {
        resolver.create(then, Kind::Resource, &format!("r{i}"), r#"{"resourceName":"R","venID":"v"}"#)?;
    }
    for i in 0..50 {
        let hours: Vec<String> = (0..24).map(|hour| format!(r#"{{"payloads":[{{"type":"PRICE","values":[{i}.{hour:02}]}}]}}"#)).collect();
        let period = format!(r#"{{"start":"2024-01-{:02}T00:00:00Z","duration":"PT1H"}}"#, i % 28 + 1);
        let body = format!(r#"{{"programID":"p","priority":{},"intervalPeriod":{period},"intervals":[{}]}}"#, i % 7, hours.join(","));
        resolver.create(then, Kind::Event, &format!("e{i}"), body)?;
    }
    resolver.publish()?;
    Ok(resolver)
}

fn measure<T>(name: &str, mut call: impl FnMut(usize) -> Result<T, Refusal>) -> Result<(), Refusal> {
    let mut least = Duration::MAX;
    for _ in 0..15 {
        let start = Instant::now();
        for i in 0..4096 {
            black_box(call(i)?);
        }
        least = least.min(start.elapsed());
    }
    println!("{name:<24} {:8.1} ns", least.as_secs_f64() * 1e9 / 4096.0);
    Ok(())
}

fn main() -> Result<(), Refusal> {
    let mut reader = filled()?.reader()?;
    let place = |i: usize| (i * 7_919 % 1000, Moment::new(NEW_YEAR + (i as i64 * 104_729 * 60) % (28 * 86_400), 0));
    let asked: Vec<(String, Moment)> = (0..4096).map(place).map(|(resource, moment)| (format!("r{resource}"), moment)).collect();
    let lines: Vec<String> = asked.iter().map(|(resource, moment)| format!("at {resource} PRICE {moment}")).collect();
    measure("at by its line", |i| reader.line(&lines[i]).map(str::len))?;
    measure("at, typed", |i| reader.at(&asked[i].0, "PRICE", asked[i].1).map(|it| it.interval))?;
    measure("at, its values read", |i| reader.at(&asked[i].0, "PRICE", asked[i].1).map(|it| it.values.read()))?;
    measure("a share", |_| reader.share())
}
