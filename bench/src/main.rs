//! Times the product beside the Rust, on the same work in one run, and prints tables.

mod in_place;
mod measure;
mod product;
mod work;

use measure::{Calls, Dumps, Instructions, Measure, Nanoseconds, RUNS};
use product::Lent;
use work::{bytes, End, InWork, RowWork, CONTROL_LENGTH, CONTROL_TRBS, FRAME_TRBS, TRANSFER_LENGTH};

#[global_allocator]
static ALLOCATOR: lending::LendingAllocator = lending::LendingAllocator;

type InCalls = fn(&mut Lent, &InWork, bool, u32) -> u64;

/// Those that submit and complete a TD, the two baselines first.
const SIDES: [(&str, InCalls); 5] = [
    ("Rust unchanged", |_, work, completes, repeats| unchanged_rows(work, work, 1).run(completes, repeats)),
    ("Rust, capture left out", |_, work, completes, repeats| {
        capture_left_out_rows(work, work, 1).run(completes, repeats)
    }),
    ("in place", in_place::decoded),
    ("in place, raw TRBs", in_place::raw),
    ("by value", product::in_by_value),
];
const BASELINES: usize = 2;

macro_rules! rows_on_the_rust {
    ($name:ident, $rust:ident) => {
        /// Rows of TDs on the Rust by single calls.
        fn $name(others: &InWork, last: &InWork, tds: u32) -> $rust::calls::InRows {
            let [first, second] = [others, last].map(|td| $rust::calls::Given { data: td.data, status: td.status });
            $rust::calls::InRows::new(first, second, tds, last.trbs, last.transfer_length)
        }
    };
}

rows_on_the_rust!(unchanged_rows, unchanged);
rows_on_the_rust!(capture_left_out_rows, capture_left_out);

fn main() {
    let argument = std::env::args().nth(1).unwrap_or_default();
    let nanoseconds = format!("nanoseconds, the best of {RUNS} runs");
    match argument.as_str() {
        "" => {
            println!("In {nanoseconds}.\n");
            main_tables(&mut Nanoseconds);
            tables(&mut Nanoseconds);
        }
        "--main" => {
            println!("In {nanoseconds}.\n");
            main_tables(&mut Nanoseconds);
            println!("In instructions, counted by callgrind.\n");
            main_tables(&mut Instructions::by_callgrind("--dump-main"));
        }
        "--count" => {
            println!("In instructions, counted by callgrind.\n");
            let mut instructions = Instructions::by_callgrind("--dump");
            main_tables(&mut instructions);
            tables(&mut instructions);
        }
        "--dump-main" => main_tables(&mut Dumps),
        "--dump" => {
            main_tables(&mut Dumps);
            tables(&mut Dumps);
        }
        _ => panic!("usage: bench [--main | --count]"),
    }
}

/// The block in place beside the Rust with its capture left out: a whole TD; a row of TDs beside both; and a control transfer on every side.
fn main_tables(measure: &mut dyn Measure) {
    let bytes = bytes();
    println!("In place beside the Rust with its capture left out, per TRB\n");
    print_line("TRBs", [SIDES[1].0, SIDES[2].0, "ratio", SIDES[3].0, "ratio"].iter());
    print_rule(5);
    for work in InWork::all(bytes) {
        agree(&work);
        let mut sides: Vec<Calls> = SIDES[1..4].iter().map(|(_, calls)| side(*calls, &work, true)).collect();
        let costs = measure.measure(work.trbs, &mut sides);
        let [rust, decoded, raw] = costs[..] else { panic!("three sides") };
        let cells = [format!("{rust:.0}"), format!("{decoded:.0}"), format!("{:.2}", decoded / rust)];
        print_line(&work.name(), cells.iter().chain(&[format!("{raw:.0}"), format!("{:.2}", raw / rust)]));
    }
    println!();
    row_table(bytes, measure);
    control_table(bytes, measure);
}

fn tables(measure: &mut dyn Measure) {
    let bytes = bytes();
    let mut submissions = Vec::new();
    let mut wholes = Vec::new();
    let mut completions = Vec::new();
    for work in InWork::all(bytes) {
        let [submission, whole, completion] = rows(&work, measure);
        if work.end == End::Full {
            submissions.push(submission);
        }
        wholes.push(whole);
        completions.push(completion);
    }
    let names = SIDES.map(|(name, _)| name);
    print_tables("A whole TD, per TRB", &names, &wholes);
    print_tables("Submissions, per TRB", &names, &submissions);
    print_tables("The TD's completion, per TRB", &names, &completions);
    carry_out_table(bytes, measure);
    raw_table(measure);
    compact_table(measure);
}

/// All sides answer the same.
fn agree(work: &InWork) {
    for completes in [false, true] {
        let sums = SIDES.map(|(_, calls)| calls(&mut Lent::new(), work, completes, 2));
        assert!(sums.iter().all(|sum| *sum == sums[0]), "{}: the answers differ: {sums:?}", work.name());
    }
}

/// One side's calls, with buffers of its own.
fn side<'a>(calls: InCalls, work: &'a InWork, completes: bool) -> Calls<'a> {
    let mut lent = Lent::new();
    Box::new(move |repeats| calls(&mut lent, work, completes, repeats))
}

/// What one piece of work costs on each side, by TRB.
struct Row {
    name: String,
    costs: Vec<f64>,
}

/// The TD's submissions, which end with a cancel, the whole TD, and the difference.
fn rows(work: &InWork, measure: &mut dyn Measure) -> [Row; 3] {
    let mut calls: Vec<Calls> = SIDES.iter().map(|(_, calls)| side(*calls, work, false)).collect();
    calls.extend(SIDES.iter().map(|(_, calls)| side(*calls, work, true)));
    let mut submissions = measure.measure(work.trbs, &mut calls);
    let wholes = submissions.split_off(SIDES.len());
    let completions = submissions.iter().zip(&wholes).map(|(part, whole)| whole - part).collect();
    [submissions, wholes, completions].map(|costs| Row { name: work.name(), costs })
}

/// Costs, and then the ratios of the product's to the baselines.
fn print_tables(title: &str, sides: &[&str], rows: &[Row]) {
    println!("{title}\n");
    print_line("TRBs", sides.iter());
    print_rule(sides.len());
    for Row { name, costs } in rows {
        print_line(name, costs.iter().map(|cost| format!("{cost:.0}")));
    }
    println!("\n{title}: ratios\n");
    let product = &sides[BASELINES..];
    print_line("TRBs", product.iter().flat_map(|side| [format!("{side} to unchanged"), "to capture left out".into()]));
    print_rule(BASELINES * product.len());
    for Row { name, costs } in rows {
        let (baselines, product) = costs.split_at(BASELINES);
        let ratios =
            product.iter().flat_map(|cost| baselines.iter().map(move |baseline| format!("{:.2}", cost / baseline)));
        print_line(name, ratios);
    }
    println!();
}

fn print_line(first: &str, cells: impl Iterator<Item = impl std::fmt::Display>) {
    print!("| {first} |");
    cells.for_each(|cell| print!(" {cell} |"));
    println!();
}

fn print_rule(columns: usize) {
    println!("|---|{}", "---|".repeat(columns));
}

/// Rows of frames in place, each completed in one call, beside the same TDs on the Rust by single calls.
fn row_table(bytes: &'static [u8], measure: &mut dyn Measure) {
    println!("A row of TDs of {FRAME_TRBS} Normals, per TRB\n");
    let names = [SIDES[0].0, SIDES[1].0, "row in place", "to unchanged", "to capture left out"];
    print_line("TDs", names.iter());
    print_rule(names.len());
    for work in RowWork::all(bytes) {
        let RowWork { others, last, tds } = &work;
        let mut unchanged = unchanged_rows(others, last, *tds);
        let mut capture_left_out = capture_left_out_rows(others, last, *tds);
        let mut row = in_place::Row::new(&work);
        let mut sides: [Calls; 3] = [
            Box::new(|repeats| unchanged.run(true, repeats)),
            Box::new(|repeats| capture_left_out.run(true, repeats)),
            Box::new(|repeats| row.run(repeats)),
        ];
        let sums: Vec<u64> = sides.iter_mut().map(|calls| calls(2)).collect();
        assert!(sums.iter().all(|sum| *sum == sums[0]), "a row, {}: the answers differ: {sums:?}", work.name());
        let costs = measure.measure(work.trbs(), &mut sides);
        let ratios = [costs[2] / costs[0], costs[2] / costs[1]].map(|ratio| format!("{ratio:.2}"));
        print_line(&work.name(), costs.iter().map(|cost| format!("{cost:.0}")).chain(ratios));
    }
    println!();
}

/// A control transfer on each side, in the order of `SIDES` as far as a side has one; all answer the same.
fn control_sides(bytes: &'static [u8]) -> Vec<Calls<'static>> {
    let data = &bytes[..CONTROL_LENGTH as usize];
    let (mut decoded, mut raw, mut by_value) =
        (in_place::Control::new(), in_place::Control::new(), product::Control::new());
    let mut sides: Vec<Calls> = vec![
        Box::new(move |repeats| unchanged::calls::control_transfer(data, CONTROL_LENGTH, repeats)),
        Box::new(move |repeats| capture_left_out::calls::control_transfer(data, CONTROL_LENGTH, repeats)),
        Box::new(move |repeats| decoded.decoded(data, repeats)),
        Box::new(move |repeats| raw.raw(data, repeats)),
        Box::new(move |repeats| by_value.transfer(bytes, data, repeats)),
    ];
    let sums: Vec<u64> = sides.iter_mut().map(|calls| calls(2)).collect();
    assert!(sums.iter().all(|sum| *sum == sums[0]), "control: the answers differ: {sums:?}");
    sides
}

fn control_table(bytes: &'static [u8], measure: &mut dyn Measure) {
    let mut sides = control_sides(bytes);
    let costs = measure.measure(CONTROL_TRBS, &mut sides);
    let names: Vec<&str> = SIDES.iter().take(sides.len()).map(|(name, _)| *name).collect();
    print_tables(
        "A control transfer, per TRB",
        &names,
        &[Row { name: format!("Setup, Data IN of {CONTROL_LENGTH} bytes, Status"), costs }],
    );
}

fn carry_out_table(bytes: &'static [u8], measure: &mut dyn Measure) {
    let frame = InWork::new(bytes, FRAME_TRBS, End::Full);
    let log = in_place::log_of(&frame);
    let records = &log[..];
    let mut memory = vec![0; frame.data.len()];
    in_place::carry_out(records, frame.data, &mut memory, HIGH_BASE, &mut [], 1);
    assert!(memory == frame.data, "carry-out has not moved the frame");
    let alternating = in_turns(records);
    let (mut low, mut high) = (vec![0; frame.data.len()], vec![0; frame.data.len()]);
    in_place::carry_out(&alternating, frame.data, &mut low, HIGH_BASE, &mut high, 1);
    assert!(
        interleaved(&low, &high)[..frame.data.len()] == *frame.data,
        "carry-out has not moved the frame to two regions"
    );
    let mut copy = memory.clone();
    let mut sides: [Calls; 3] = [
        Box::new(|repeats| copy_frame(frame.data, &mut copy, repeats)),
        Box::new(|repeats| in_place::carry_out(records, frame.data, &mut memory, HIGH_BASE, &mut [], repeats)),
        Box::new(|repeats| in_place::carry_out(&alternating, frame.data, &mut low, HIGH_BASE, &mut high, repeats)),
    ];
    let costs = measure.measure(FRAME_TRBS, &mut sides);
    let (copied, carried_out, in_two) = (costs[0], costs[1], costs[2]);
    println!("Carry-out of a frame of {FRAME_TRBS} writes of {TRANSFER_LENGTH} bytes, per write\n");
    println!(
        "| memcpy | carry_out | memcpy to carry_out | carry_out, alternating between two regions |\n|---|---|---|---|"
    );
    println!("| {copied:.0} | {carried_out:.0} | {:.2} | {in_two:.0} |", copied / carried_out);
}

/// Where the high region starts: behind the 4 GiB hole.
const HIGH_BASE: u64 = 1 << 32;

/// The log with every other write in the high region; in each the writes lie end to end.
fn in_turns(log: &[u8]) -> Vec<u8> {
    let mut log = log.to_vec();
    let writes = log.chunks_mut(32).filter(|record| record[0] == 1);
    for (k, record) in (0..).zip(writes) {
        let address = k / 2 * u64::from(TRANSFER_LENGTH) + k % 2 * HIGH_BASE;
        record[8..16].copy_from_slice(&address.to_le_bytes());
    }
    log
}

/// What two regions have, a write from each in turn.
fn interleaved(low: &[u8], high: &[u8]) -> Vec<u8> {
    let length = TRANSFER_LENGTH as usize;
    low.chunks(length).zip(high.chunks(length)).flat_map(|(a, b)| [a, b].concat()).collect()
}

fn copy_frame(data: &[u8], memory: &mut [u8], repeats: u32) -> u64 {
    for _ in 0..repeats {
        let length = TRANSFER_LENGTH as usize;
        for (from, to) in std::hint::black_box(data).chunks(length).zip(memory.chunks_mut(length)) {
            to.copy_from_slice(from);
        }
        std::hint::black_box(&mut *memory);
    }
    u64::from(repeats)
}

/// Raw TRBs of one type, or of all in turn, that both sides take: no reserved bit is set.
fn raw_trbs(types: &[u8]) -> Vec<u8> {
    let word = |k: usize| {
        let mut word = [0; 16];
        let kind = types[k % types.len()];
        if ![4, 8].contains(&kind) {
            word[..8].copy_from_slice(&(k as u64 * 0x1_0000).to_le_bytes());
        }
        if [1, 2, 3].contains(&kind) {
            word[9] = 2;
        }
        word[12] = (k % 2) as u8 | 0x20;
        word[13] = kind << 2;
        word
    };
    (0..RAW_TRBS as usize).flat_map(word).collect()
}

const RAW_TRBS: u32 = 64;

fn raw_table(measure: &mut dyn Measure) {
    println!("\nRaw TRBs decoded, per TRB\n\n| TRBs | the Rust's parser | decode | ratio |\n|---|---|---|---|");
    let rows: [(&str, &[u8]); 3] = [
        ("Normal", &[1]),
        ("Setup, Data, Status", &[2, 3, 4]),
        ("of every type, and one unknown", &[1, 2, 3, 4, 5, 7, 8, 6]),
    ];
    for (name, types) in rows {
        let trbs = raw_trbs(types);
        let mut sides: [Calls; 2] = [
            Box::new(|repeats| unchanged::calls::parse(&trbs, repeats)),
            Box::new(|repeats| in_place::decode(&trbs, repeats)),
        ];
        let sums: Vec<u64> = sides.iter_mut().map(|calls| calls(2)).collect();
        assert!(sums[0] == sums[1], "{name}: the answers differ: {sums:?}");
        let costs = measure.measure(RAW_TRBS, &mut sides);
        println!("| {name} | {:.1} | {:.1} | {:.2} |", costs[0], costs[1], costs[1] / costs[0]);
    }
}

const LOG_RECORDS: u32 = 2048;

/// Record number k of a log.
type LogRecord = fn(u32) -> [u8; 32];

fn log_record(kind: u8, address: u64, length: u32, start: u32) -> [u8; 32] {
    let mut record = [0; 32];
    record[0] = kind;
    record[3..5].copy_from_slice(&[3, 2]);
    record[8..16].copy_from_slice(&address.to_le_bytes());
    record[16..20].copy_from_slice(&length.to_le_bytes());
    record[20..24].copy_from_slice(&start.to_le_bytes());
    record
}

/// Of frames one behind the other: the writes of twenty full Normals, and the last one's event.
fn frame_record(k: u32) -> [u8; 32] {
    let k = k % (FRAME_TRBS + 1);
    if k == FRAME_TRBS {
        return log_record(2, 0x1000, 0, 0);
    }
    log_record(1, 0x8000 + u64::from(k * TRANSFER_LENGTH), TRANSFER_LENGTH, k * TRANSFER_LENGTH)
}

fn compact_table(measure: &mut dyn Measure) {
    println!("\nCompacting a log of {LOG_RECORDS} records, per record\n\n| Records | kept | memcpy | laid and compacted |\n|---|---|---|---|");
    let frames = LOG_RECORDS.div_ceil(FRAME_TRBS + 1) + LOG_RECORDS / (FRAME_TRBS + 1);
    let rows: [(&str, LogRecord, u32); 5] = [
        ("frames of twenty writes and an event", frame_record, frames),
        ("writes that go on, all joined", |k| log_record(1, 0x8000 + 512 * u64::from(k), 512, 512 * k), 1),
        ("writes that do not", |k| log_record(1, 0x8000 + 1024 * u64::from(k), 512, 512 * k), LOG_RECORDS),
        ("writes of 0 bytes", |_| log_record(1, 0x8000, 0, 0), 0),
        ("events", |k| log_record(2, 0x1000 + 16 * u64::from(k), 0, 0), LOG_RECORDS),
    ];
    for (name, record, kept) in rows {
        let log: Vec<u8> = (0..LOG_RECORDS).flat_map(record).collect();
        let mut buffer = log.clone();
        assert!(in_place::compact(&log, &mut buffer, 1) == u64::from(kept), "{name}: another number is kept");
        let mut copy = log.clone();
        let mut sides: [Calls; 2] = [
            Box::new(|repeats| copy_log(&log, &mut copy, repeats)),
            Box::new(|repeats| in_place::compact(&log, &mut buffer, repeats)),
        ];
        let costs = measure.measure(LOG_RECORDS, &mut sides);
        println!("| {name} | {kept} | {:.1} | {:.1} |", costs[0], costs[1]);
    }
}

fn copy_log(log: &[u8], buffer: &mut [u8], repeats: u32) -> u64 {
    for _ in 0..repeats {
        buffer.copy_from_slice(std::hint::black_box(log));
        std::hint::black_box(&mut *buffer);
    }
    u64::from(repeats)
}
