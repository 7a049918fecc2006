//! Compares the product's decoder with the Rust's parser, word by word. Where they differ, a reserved bit has to be set.

use std::{
    env,
    io::{self, Write},
    path::PathBuf,
    process::{exit, Command, Stdio},
    thread,
};

use oracle::{
    call::{digits_of, raw_bytes, Kind, Trb},
    device::xhci::trb::{RawTrb, RawTrbBuffer},
    random::Random,
    raw_trb::{has_reserved_bit, kind_of, parsed, with_unheld, without_reserved},
};

const USAGE: &str = "\
compare_raw SEED COUNT    every type, every single bit flipped, and COUNT random words
The product's program is named by RAW_TRBS.
";

const ADDRESS: u64 = 0;

fn of_type(mut word: RawTrbBuffer, number: u8) -> RawTrbBuffer {
    word[13] = word[13] & 3 | number << 2;
    word
}

fn any_word(random: &mut Random) -> RawTrbBuffer {
    let mut word = [0; 16];
    word[..8].copy_from_slice(&random.number().to_le_bytes());
    word[8..].copy_from_slice(&random.number().to_le_bytes());
    word
}

fn flipped(mut word: RawTrbBuffer, bit: usize) -> RawTrbBuffer {
    word[bit / 8] ^= 1 << (bit % 8);
    word
}

/// Each type's number with zeros, with ones and with anything, each as it is and without reserved bits, with every single bit flipped.
fn systematic(random: &mut Random) -> Vec<RawTrbBuffer> {
    let mut words = Vec::new();
    for number in 0..64 {
        for word in [[0; 16], [0xff; 16], any_word(random)] {
            let word = of_type(word, number);
            for base in [word, without_reserved(&word)] {
                words.push(base);
                words.extend((0..128).map(|bit| flipped(base, bit)));
            }
        }
    }
    words
}

/// Half of them any word at all; of the others, of a known type, half have no reserved bit set and half at most one.
fn random_words(random: &mut Random, count: u64) -> impl Iterator<Item = RawTrbBuffer> + '_ {
    (0..count).map(|_| {
        let word = any_word(random);
        if random.percent(50) {
            return word;
        }
        let clear = without_reserved(&of_type(word, random.below(9) as u8));
        let clear = with_unheld(&clear, random);
        if random.percent(50) {
            return clear;
        }
        flipped(clear, random.below(128) as usize)
    })
}

fn answers(program: &PathBuf, lines: String) -> io::Result<String> {
    let mut child = Command::new(program).stdin(Stdio::piped()).stdout(Stdio::piped()).spawn()?;
    let mut input = child.stdin.take().expect("standard input is piped");
    let writer = thread::spawn(move || input.write_all(lines.as_bytes()));
    let output = child.wait_with_output()?;
    let _ = writer.join().expect("the writer does not panic");
    Ok(String::from_utf8_lossy(&output.stdout).into_owned())
}

/// `KIND FLAGS A B`
fn fields_of(trb: &Trb) -> String {
    format!("{:x} {:x} {:x} {:x}", trb.kind.number(), trb.flags, trb.a, trb.length)
}

fn differs(what: &str, word: &RawTrbBuffer, by_rust: &str, by_product: &str) -> ! {
    println!("{what} {}: the Rust {by_rust}, the product {by_product}", digits_of(word));
    exit(1)
}

fn main() -> io::Result<()> {
    let wrong = || -> ! {
        eprint!("{USAGE}");
        exit(2)
    };
    let arguments: Vec<u64> = env::args().skip(1).map(|text| text.parse().unwrap_or_else(|_| wrong())).collect();
    let [seed, count] = arguments[..] else { wrong() };
    let program = PathBuf::from(env::var_os("RAW_TRBS").unwrap_or_else(|| wrong()));
    let mut random = Random::new(seed);
    let mut words = systematic(&mut random);
    let flips = words.len();
    words.extend(random_words(&mut random, count));

    let lines = words.iter().map(|word| format!("d {}\n", digits_of(word))).collect();
    let decoded = answers(&program, lines)?;
    let mut by_product = decoded.lines();
    let (mut equal, mut reserved) = (0, 0);
    let mut encodable = Vec::new();
    for word in &words {
        let rust = parsed(&RawTrb { address: ADDRESS, buffer: *word });
        let by_rust = fields_of(&rust);
        let product = by_product.next().unwrap_or("nothing");
        if has_reserved_bit(word) {
            let unrecognized = Trb { kind: Kind::Unrecognized, flags: word[12] & 1, a: 0, length: 0, ..rust };
            if product != fields_of(&unrecognized) || kind_of(word) == Kind::Unrecognized {
                differs("reserved bit of", word, &by_rust, product);
            }
            reserved += 1;
        } else if product == by_rust {
            equal += 1;
        } else {
            differs("decoded", word, &by_rust, product);
        }
        if !matches!(rust.kind, Kind::Unrecognized | Kind::Isoch) {
            encodable.push(rust);
        }
    }

    // What the product encodes, the Rust parses back; a Setup has transfer length 8 and immediate data.
    let lines = encodable.iter().map(|trb| format!("e {}\n", fields_of(trb))).collect();
    let encoded = answers(&program, lines)?;
    let mut by_product = encoded.lines();
    for trb in &encodable {
        let product = by_product.next().unwrap_or("nothing");
        let back = raw_bytes(product).map(|buffer| (buffer, parsed(&RawTrb { address: ADDRESS, buffer })));
        match back {
            Some((word, parsed)) if parsed == *trb && !has_reserved_bit(&word) => {}
            _ => differs("encoded", &[0; 16], &fields_of(trb), product),
        }
    }
    println!(
        "{} words, {flips} of them by type and flipped bit: {equal} equal, {reserved} with a reserved bit, which the Rust takes and the product does not; \
         {} encoded and parsed back",
        words.len(),
        encodable.len()
    );
    Ok(())
}
