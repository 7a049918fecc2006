//! The generator's scripts are accepted from end to end and reach what they are meant to reach.

use std::collections::BTreeSet;

use oracle::{
    call::{parse, Call, Region, FIRST_REGION},
    driver::run,
    exhaustive::FAMILIES,
    generate::script,
    questions::MAX_HELD,
};

#[test]
fn random_scripts_are_accepted() {
    for seed in 1000..1200 {
        let run = run(script(seed, 300).as_bytes());
        assert_eq!(run.stopped, None, "seed {seed}");
        assert_eq!(run.answers.len(), 300);
    }
}

#[test]
fn first_and_last_parts_are_accepted() {
    for family in &FAMILIES {
        for part in [0, family.parts - 1] {
            assert_eq!(run((family.script)(part).as_bytes()).stopped, None, "{} {part}", family.name);
        }
    }
}

/// The regions that the writes of a log are in.
fn regions_written(text: &str, low: Region, high: Region) -> BTreeSet<&'static str> {
    let touch = low.end() == u128::from(high.base) || high.end() == u128::from(low.base);
    let holds = |region: Region, address: u64| u128::from(address) < region.end() && address >= region.base;
    let addresses = text.lines().filter_map(|line| {
        let fields: Vec<&str> = line.split(' ').collect();
        (fields[0] == "1" && fields[6] != "0").then(|| u64::from_str_radix(fields[5], 16).unwrap())
    });
    addresses
        .map(|address| match (holds(low, address), touch && low.length != 0 && high.length != 0) {
            (true, false) => "low",
            (true, true) => "low, touching,",
            (false, false) => "high",
            (false, true) => "high, touching,",
        })
        .collect()
}

/// What a script's calls meet, as short texts.
fn seen(script: &str) -> BTreeSet<String> {
    let mut seen = BTreeSet::new();
    let mut answers = run(script.as_bytes()).answers.into_iter();
    let mut before = vec![];
    let (mut low, mut high) = (FIRST_REGION, Region::NONE);
    let mut request_length = 0;
    for line in script.lines() {
        let call = parse(line).unwrap();
        if let Call::Window { low: lower, high: higher } = call {
            (low, high) = (lower, higher.unwrap_or(Region::NONE));
        }
        if let Call::MakeUpControl { length, .. } = call {
            request_length = length;
        }
        if !call.is_answered() {
            // What was made up is not known here.
            before = if matches!(call, Call::Window { .. } | Call::Buffers { .. }) { before } else { vec![] };
            continue;
        }
        let text = answers.next().unwrap().text;
        let state: Vec<String> = text.lines().last().unwrap().split(' ').map(str::to_string).collect();
        let awaited = |fields: &[String]| {
            let place = if fields[1] == "in" { 2 } else { 3 };
            fields[place].split(':').next().unwrap().to_string()
        };
        if !before.is_empty() {
            match call {
                Call::Submit(trb) if before[1] == "control" => {
                    seen.insert(format!("control {} {:?}", before[2], trb.kind));
                }
                Call::Submit(trb) => {
                    seen.insert(format!("in {:?}", trb.kind));
                }
                Call::CompleteWithResult { status, .. } if before[1] == "control" => {
                    seen.insert(format!("control {} {status:?}", before[5]));
                }
                Call::CompleteWithResult { status, .. } => {
                    seen.insert(format!("in {status:?}"));
                }
                Call::Cancel => {
                    seen.insert(format!("{} cancel in {}", before[1], awaited(&before)));
                }
                _ => {}
            }
        }
        let held = if state[1] == "in" { &state[3] } else { &state[4] };
        if *held == MAX_HELD.to_string() {
            seen.insert(format!("{} {} full", state[1], awaited(&state)));
        }
        if text.contains("\nout 11\n") {
            seen.insert(format!("{} out 11", state[1]));
        }
        if text.contains("\nout 0\n") {
            for region in regions_written(&text, low, high) {
                seen.insert(format!("write in the {region} region"));
            }
            if text.contains("\n1 ") && low.end().max(high.end()) > 1 << 64 {
                seen.insert("write with a region past 2^64".to_string());
            }
        }
        if state[1] == "control" {
            if state[7] == "65535" {
                seen.insert("collected 65535".to_string());
            }
            let length: u32 = state[6].parse().unwrap();
            let adds_to_it = matches!(call, Call::Submit(trb) if trb.kind.has_length());
            if adds_to_it && length < request_length {
                seen.insert("request length past 2^32".to_string());
            }
            request_length = length;
        }
        before = state;
    }
    seen
}

#[test]
fn random_scripts_reach_every_case() {
    let seen: BTreeSet<String> = (1..=150).flat_map(|seed| seen(&script(seed, 3000))).collect();
    let kinds = ["Unrecognized", "Normal", "SetupStage", "DataStage", "StatusStage", "Isoch", "EventData", "NoOp"];
    let statuses = ["Success", "Stall", "TransactionError", "Disconnect"];
    let mut wanted: Vec<String> = vec![];
    for kind in kinds {
        wanted.push(format!("in {kind}"));
        let phases = ["setup", "maybe", "more", "status", "final"];
        wanted.extend(phases.map(|phase| format!("control {phase} {kind}")));
    }
    for status in statuses.into_iter().chain(["SuccessfulControlOut"]) {
        wanted.extend(["in", "out"].map(|direction| format!("control {direction} {status}")));
    }
    wanted.extend(statuses.map(|status| format!("in {status}")));
    wanted.extend(["submit", "collecting", "real", "local", "unsupported"].map(|due| format!("in cancel in {due}")));
    let control_due = ["submit", "collecting", "parser", "unexpected", "request"];
    wanted.extend(control_due.map(|due| format!("control cancel in {due}")));
    wanted.extend(["in collecting full", "in real full", "control request full"].map(str::to_string));
    wanted.extend(
        ["in out 11", "control out 11", "collected 65535", "write with a region past 2^64"].map(str::to_string),
    );
    wanted.extend(
        ["low", "high", "low, touching,", "high, touching,"].map(|region| format!("write in the {region} region")),
    );
    wanted.push("request length past 2^32".to_string());
    let missing: Vec<_> = wanted.iter().filter(|case| !seen.contains(*case)).collect();
    assert!(missing.is_empty(), "never reached: {missing:?}");
}
