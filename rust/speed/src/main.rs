//! usage: speed [--hold RATIO] [ROUNDS [PREFIX]]
//!
//! Times the C functions of the archive beside the plain implementation (rust/plain), and whole events also beside the original Rust. All make the same
//! calls in turn, so many rounds each (200 if not given). A line for each list of calls: nanoseconds a call, or an event with its opening and all
//! its answers, of the fastest round, and the archive's ratio to each other. Images are laid out before the time starts. Then a line for each function
//! with the most stack that one of all these calls used. With PREFIX only the lines that begin so are measured.
//!
//! With `--hold` the readers, the page and the takes that apply no notices are held at that ratio to plain Rust: what is above it in the best of five
//! measurements ends the program with status 1.
//!
//! The original runs on its own structs, with devices that answer at once (original/src/lib.rs).
//!
//! Before anything is timed every call is compared: results, images and buffers of the archive with those of the plain implementation, and the orders and
//! closes of the original with its. If they differ, the program ends with status 1.
//!
//! `run.sh` builds and runs this, without the original where its sources are not there, and adds the size of the archive.

mod functions;
mod runs;
#[cfg(all(target_arch = "x86_64", unix))]
mod stack;

use std::{
    env,
    hint::black_box,
    process::ExitCode,
    time::{Duration, Instant},
};

use functions::{BUFFER, Functions, Lent, PLAIN};
use runs::{List, Run, Stream};

/// Ports and chargers.
const SIZES: [(u32, u32); 6] = [(1, 0), (1, 8), (4, 0), (4, 8), (16, 0), (16, 8)];

/// Events of a run, and of the run that a follower is handed.
const EVENTS: usize = 200;
const LONG: usize = 2000;

/// What a call left.
#[derive(PartialEq, Eq)]
struct After {
    result: u64,
    image: Vec<u8>,
    buffer: [u8; BUFFER],
}

/// Makes each call of a list, and hands on its place, its image before it, and what it left.
fn each_call(
    functions: &Functions,
    list: &List,
    mut then: impl FnMut(usize, Vec<u8>, After) -> Result<(), String>,
) -> Result<(), String> {
    let mut next = list.calls[0].0.clone();
    for (place, (own, lent)) in list.calls.iter().enumerate() {
        if !list.goes_on {
            next.clone_from(own);
        }
        let mut image = next.clone();
        let mut buffer = [0xEE; BUFFER];
        let result = functions.call(list.function, &mut image, lent, &mut buffer);
        let before = std::mem::replace(&mut next, image.clone());
        let after = After {
            result,
            image,
            buffer,
        };
        then(place, before, after)
            .map_err(|what| format!("{}: call {place} of {}: {what}", list.name, functions.name))?;
    }
    Ok(())
}

/// Every implementation does in a list what the plain one does, and refuses nothing.
fn same(list: &List) -> Result<(), String> {
    let mut wanted = Vec::new();
    each_call(&PLAIN, list, |_, _, after| {
        wanted.push(after);
        Ok(())
    })?;
    for functions in functions::all() {
        each_call(functions, list, |place, _, after| {
            let result = after.result;
            if result as u8 == 0 {
                return Err(format!("refused, {result:#x}"));
            }
            if after != wanted[place] {
                return Err(format!("not as plain, {result:#x}"));
            }
            Ok(())
        })?;
    }
    Ok(())
}

/// Opens each event and answers until it closes.
fn make_events(functions: &Functions, lent: &[Lent], image: &mut [u8], mut then: impl FnMut(u64)) {
    let mut calls = lent.iter();
    while let Some(open) = calls.next() {
        let [kind, port, detail] = open.numbers;
        let image = black_box(&mut *image);
        let mut result = functions.open(image, open.psus, open.chargers, kind, port, detail);
        then(result);
        while result as u8 == 1 {
            let Some(next) = calls.next() else { break };
            result = functions.answer(image, next.psus, next.chargers, next.numbers[0]);
            then(result);
        }
    }
}

/// The run as the original takes it.
#[cfg(feature = "original")]
fn original_events(run: &Run) -> Box<dyn original::Events> {
    let call = |call: &runs::Call| (call.numbers[0], call.records);
    let event = |event: &Vec<runs::Call>| {
        let [kind, port, detail] = event[0].numbers;
        original::Event {
            kind,
            port,
            detail,
            calls: event.iter().map(call).collect(),
        }
    };
    let events: Vec<_> = run.events.iter().map(event).collect();
    original::events(run.ports, run.chargers, &run.records, &events).expect("a size that is built")
}

/// Every implementation, the original too, gives in a run the orders and closes that it was made with.
fn same_events(run: &Run) -> Result<(), String> {
    let wanted: Vec<u64> = run
        .events
        .iter()
        .flatten()
        .map(|call| call.result)
        .collect();
    let differs = |name: &str, results: &[u64]| {
        let place = results.iter().zip(&wanted).position(|(a, b)| a != b);
        if place.is_none() && results.len() == wanted.len() {
            return Ok(());
        }
        let place = place.unwrap_or(wanted.len().min(results.len()));
        Err(format!(
            "events, {}: call {place} of {name}: {:x?}, not {:x?}",
            run.size(),
            results.get(place),
            wanted.get(place)
        ))
    };
    let lent = run.all_lent();
    for functions in functions::all() {
        let (mut image, mut results) = (run.start.clone(), Vec::new());
        make_events(functions, &lent, &mut image, |result| results.push(result));
        differs(functions.name, &results)?;
        if Some(&image) != run.closed.last() {
            return Err(format!("events of {}: another image", functions.name));
        }
    }
    #[cfg(feature = "original")]
    differs("original", &original_events(run).results())?;
    Ok(())
}

type Round<'a> = (&'a str, Box<dyn FnMut() -> Duration + 'a>);

/// Runs all in turn and prints the fastest round of each, in nanoseconds by `count`, and the ratio of the archive to the others.
/// Returns the ratio to the next.
fn report(name: &str, count: usize, rounds: usize, mut all: Vec<Round>) -> f64 {
    let mut least = vec![f64::INFINITY; all.len()];
    for _ in 0..rounds {
        for (least, (_, round)) in least.iter_mut().zip(&mut all) {
            *least = least.min(round().as_nanos() as f64 / count as f64);
        }
    }
    let times = all.iter().zip(&least);
    let mut parts: Vec<_> = times
        .map(|((name, _), time)| format!("{name} {time:.1} ns"))
        .collect();
    if all[0].0 == "archive" {
        let others = all.iter().zip(&least).skip(1);
        parts.extend(
            others.map(|((name, _), time)| format!("archive/{name} {:.2}", least[0] / time)),
        );
    }
    println!("{name}: {}", parts.join(", "));
    least[0] / least.get(1).unwrap_or(&f64::INFINITY)
}

/// Times a list, again while it is above what it is held at, at most five times.
fn hold_list(list: &List, rounds: usize, hold: f64) -> Result<(), String> {
    let tries = if list.held { 5 } else { 1 };
    let mut least = f64::INFINITY;
    for _ in 0..tries {
        least = least.min(time_list(list, rounds));
        if least <= hold {
            break;
        }
    }
    if list.held && least > hold {
        return Err(format!(
            "{}: {least:.2} times plain Rust, above {hold}",
            list.name
        ));
    }
    Ok(())
}

fn time_list(list: &List, rounds: usize) -> f64 {
    let fresh: Vec<u8> = list
        .calls
        .iter()
        .flat_map(|(image, _)| image.clone())
        .collect();
    let length = list.calls[0].0.len();
    let round = |functions: &'static Functions| -> Round<'_> {
        let fresh = &fresh;
        let mut images = fresh.clone();
        let mut buffer = [0; BUFFER];
        let round = move || {
            images.copy_from_slice(fresh);
            let start = Instant::now();
            let mut left = images.chunks_exact_mut(length);
            let mut image = left.next().expect("a call");
            for (_, lent) in &list.calls {
                let present = black_box(&mut *image);
                black_box(functions.call(list.function, present, lent, &mut buffer));
                if !list.goes_on {
                    image = left.next().unwrap_or(image);
                }
            }
            start.elapsed()
        };
        (functions.name, Box::new(round))
    };
    let all = functions::all().into_iter().map(round).collect();
    report(&list.name, list.calls.len(), rounds, all)
}

fn time_events(run: &Run, rounds: usize) {
    let lent = run.all_lent();
    let round = |functions: &'static Functions| -> Round<'_> {
        let lent = &lent;
        let mut image = run.start.clone();
        let round = move || {
            image.copy_from_slice(&run.start);
            let start = Instant::now();
            make_events(functions, lent, &mut image, |result| {
                black_box(result);
            });
            start.elapsed()
        };
        (functions.name, Box::new(round))
    };
    #[allow(unused_mut)]
    let mut all: Vec<Round> = functions::all().into_iter().map(round).collect();
    #[cfg(feature = "original")]
    {
        let events = original_events(run);
        let round = move || {
            let start = Instant::now();
            events.run();
            start.elapsed()
        };
        all.push(("original", Box::new(round)));
    }
    report(&run.name(), run.events.len(), rounds, all);
}

/// The most stack that each function used in all lists.
#[cfg(all(target_arch = "x86_64", unix))]
fn report_stack(lists: &[List], prefix: &str) -> Result<(), String> {
    use functions::Function;

    let mut stack = stack::Stack::new();
    for (function, name) in Function::ALL {
        let name = format!("stack, {name}");
        if !name.starts_with(prefix) {
            continue;
        }
        let mut parts = Vec::new();
        for functions in functions::all() {
            let mut most = 0;
            for list in lists.iter().filter(|list| list.function == function) {
                each_call(functions, list, |place, mut image, after| {
                    let mut buffer = [0xEE; BUFFER];
                    let lent = &list.calls[place].1;
                    let (address, words) = functions.words(function, &mut image, lent, &mut buffer);
                    // Safety: this is the call that was just made, on the image as it was before.
                    let (result, used) = unsafe { stack.call(address, &words) };
                    let painted = After {
                        result,
                        image,
                        buffer,
                    };
                    if painted != after {
                        return Err("another result on the painted stack".to_owned());
                    }
                    most = most.max(used.ok_or("more stack than is painted")?);
                    Ok(())
                })?;
            }
            parts.push(format!("{} {most} bytes", functions.name));
        }
        println!("{name}: {}", parts.join(", "));
    }
    Ok(())
}

#[cfg(not(all(target_arch = "x86_64", unix)))]
fn report_stack(_lists: &[List], _prefix: &str) -> Result<(), String> {
    println!("stack: not measured on this machine");
    Ok(())
}

fn all(rounds: usize, prefix: &str, hold: f64) -> Result<(), String> {
    let runs = SIZES.map(|(ports, chargers)| Run::new(ports, chargers, EVENTS, false));
    let long = Run::new(4, 8, LONG, true);
    let stream = Stream::new(&long);
    let mut lists: Vec<List> = runs.iter().map(runs::open_calls).collect();
    lists.extend(runs.iter().map(|run| runs::answer_calls(run, EVENTS)));
    lists.extend(runs::service_calls(&long, EVENTS));
    lists.extend(stream.calls(EVENTS));
    let timed = lists.len();
    let runs_and_long = runs.iter().chain([&long]);
    lists.extend(runs_and_long.map(|run| runs::answer_calls(run, usize::MAX)));

    lists.iter().try_for_each(same)?;
    runs.iter().try_for_each(same_events)?;
    for list in &lists[..timed] {
        if list.name.starts_with(prefix) {
            hold_list(list, rounds, hold)?;
        }
    }
    for run in &runs {
        if run.name().starts_with(prefix) {
            time_events(run, rounds);
        }
    }
    report_stack(&lists, prefix)
}

fn main() -> ExitCode {
    let mut arguments: Vec<_> = env::args().skip(1).collect();
    let mut hold = Ok(f64::INFINITY);
    if arguments.len() > 1 && arguments[0] == "--hold" {
        hold = arguments[1].parse();
        arguments.drain(..2);
    }
    let rounds = arguments.first().map_or(Ok(200), |text| text.parse());
    let prefix = arguments.get(1).map_or("", |text| text);
    let result = match (rounds, hold) {
        (Ok(rounds), Ok(hold)) if rounds > 0 && arguments.len() <= 2 => all(rounds, prefix, hold),
        _ => {
            eprintln!("usage: speed [--hold RATIO] [ROUNDS [PREFIX]]");
            return ExitCode::from(2);
        }
    };
    match result {
        Ok(()) => ExitCode::SUCCESS,
        Err(what) => {
            eprintln!("speed: {what}");
            ExitCode::FAILURE
        }
    }
}
