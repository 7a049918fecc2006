//! Two ways to measure a piece of work: nanoseconds, the best of several runs; or instructions, counted by callgrind.

use std::{fs, path::Path, process::Command, time::Instant};

pub const RUNS: u32 = 25;

/// One side's calls: does its work so many times, and answers a checksum.
pub type Calls<'a> = Box<dyn FnMut(u32) -> u64 + 'a>;

pub trait Measure {
    /// What one unit of work costs on each side, whose calls do `units` of them at a time.
    fn measure(&mut self, units: u32, sides: &mut [Calls]) -> Vec<f64>;
}

pub struct Nanoseconds;

/// Units of work in one run, about: enough that what a run does once, as creating the endpoint, does not count: the Rust's records are 64 KiB to clear.
const UNITS: u32 = 10_240;

impl Measure for Nanoseconds {
    /// The sides take turns, so that what else the machine does falls on all of them.
    fn measure(&mut self, units: u32, sides: &mut [Calls]) -> Vec<f64> {
        let repeats = (UNITS / units).max(1);
        let mut best = vec![f64::INFINITY; sides.len()];
        for _ in 0..RUNS {
            for (side, best) in sides.iter_mut().zip(&mut best) {
                let begin = Instant::now();
                std::hint::black_box(side(repeats));
                *best = best.min(begin.elapsed().as_nanos() as f64);
            }
        }
        best.iter().map(|time| time / f64::from(repeats * units)).collect()
    }
}

/// Under callgrind: each piece of work is dumped to a file of its own, and its cost is read later.
pub struct Dumps;

/// Fewer are enough where instructions are counted, since what is done once takes few.
fn repeats_counted(units: u32) -> u32 {
    (UNITS_COUNTED / units).max(20)
}

const UNITS_COUNTED: u32 = 600;

impl Measure for Dumps {
    fn measure(&mut self, units: u32, sides: &mut [Calls]) -> Vec<f64> {
        for side in sides.iter_mut() {
            side(1);
            callgrind(ZERO_STATS);
            std::hint::black_box(side(repeats_counted(units)));
            callgrind(DUMP_STATS);
        }
        vec![0.0; sides.len()]
    }
}

/// Reads what `Dumps` made in a first run of the same program.
pub struct Instructions {
    counts: std::vec::IntoIter<u64>,
}

impl Measure for Instructions {
    fn measure(&mut self, units: u32, sides: &mut [Calls]) -> Vec<f64> {
        let counts = self.counts.by_ref().take(sides.len());
        let costs: Vec<f64> = counts.map(|count| count as f64 / f64::from(repeats_counted(units) * units)).collect();
        assert!(costs.len() == sides.len(), "a dump for each side");
        costs
    }
}

impl Instructions {
    /// Runs this program once more, under callgrind, with the argument `counted`.
    pub fn by_callgrind(counted: &str) -> Self {
        let program = std::env::current_exe().expect("the program's own path");
        let folder = program.with_file_name("callgrind");
        let _ = fs::remove_dir_all(&folder);
        fs::create_dir_all(&folder).expect("a folder for callgrind's files");
        let status = Command::new("valgrind")
            .args(["--quiet", "--tool=callgrind"])
            .arg(format!("--callgrind-out-file={}/out", folder.display()))
            .arg(&program)
            .arg(counted)
            .stdout(std::process::Stdio::null())
            .status()
            .expect("valgrind runs");
        assert!(status.success(), "the counted run failed");
        let counts = (1..).map_while(|number| count_of(&folder.join(format!("out.{number}"))));
        Self { counts: counts.collect::<Vec<_>>().into_iter() }
    }
}

fn count_of(dump: &Path) -> Option<u64> {
    let text = fs::read_to_string(dump).ok()?;
    let summary = text.lines().find_map(|line| line.strip_prefix("summary:").or(line.strip_prefix("totals:")));
    Some(summary.expect("a dump has a summary").trim().parse().expect("a count"))
}

const DUMP_STATS: u64 = 0x4354_0000;
const ZERO_STATS: u64 = 0x4354_0001;

/// A client request, as valgrind/valgrind.h has it; without valgrind it does nothing.
fn callgrind(request: u64) {
    let arguments = [request, 0, 0, 0, 0, 0];
    // SAFETY: the rotations add up to 128, and the exchange changes nothing.
    unsafe {
        std::arch::asm!(
            "rol rdi, 3",
            "rol rdi, 13",
            "rol rdi, 61",
            "rol rdi, 51",
            "xchg rbx, rbx",
            inout("rdx") 0u64 => _,
            in("rax") arguments.as_ptr(),
        );
    }
}
