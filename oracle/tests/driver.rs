//! What the driver does not ask of the Rust: bad lines, and calls that document 01 refuses.

use oracle::{
    driver::{run, Stop},
    questions::{MAX_HELD, MAX_ROW},
};

fn stop(script: &str) -> Option<(usize, Stop)> {
    run(script.as_bytes()).stopped
}

fn unasked(line: usize, reason: &str) -> Option<(usize, Stop)> {
    Some((line, Stop::Unasked(reason.to_string())))
}

#[test]
fn bad_lines() {
    let after_in = [
        "",
        "x ",
        " x",
        "X",
        "s",
        "d 4 0",
        "d 5 0",
        "d 0 140001",
        "l 140001",
        "p 4",
        "p 0 0 0 0",
        "i 3",
        "i 100 1",
        "c 3 2 3",
        "c 3 2 6",
        "c 3 2 05",
        "c 3 2 4 4",
        "i 3 2 2",
        "i 3 2 01",
        "i 3 2 0 0",
        "w 0 140001",
        "w 0 1 2 140000",
        "w 0 1 2",
        "w 00 1",
        "w 0A 1",
        "w 10000000000000000 1",
        "b c001 0",
        "b 0 10001",
        "s 6 0 0 0 0",
        "s 1 0 20 0 0",
        "s 2 0 2 0 0",
        "s 2 0 0 0 1",
        "s 4 0 10 0 0",
        "s 4 0 0 1 0",
        "s 7 0 8 0 0",
        "s 8 0 0 1 0",
        "s 0 0 2 0 0",
        "s 5 0 4 0 0",
        "s 1 0 0 0 100000000",
        "h 1 0 40 0 0",
        "u 0",
        "u 0 0000000000000000000000000020000",
        "u 0 000000000000000000000000002000000",
        "u 0 0000000000000000000000000020000A",
        "u 00 00000000000000000000000000200000",
        "u 00000000000000000000000000200000",
        "u 0 0 00000000000000000000000000200000",
        "q 6 0 0 0 0",
        "e 4 0",
        "e 0 100000000",
        "r 140001",
        "t 0",
        "t 100000000 0",
        "t 0 100000000",
        "t 0 0 0",
        "t 00 0",
        "m 1 1",
        "m 10000 1 3",
        "m 1 100 3",
        "m 1 1 0",
        "m 1 1 2",
        "m 1 1 4",
        "m 1 1 03",
        "m 1 1 3 0",
        "x\r",
        "d 0",
        "l",
        "w 0",
        "+1",
    ];
    for line in after_in {
        assert_eq!(stop(&format!("i 3 2\n{line}\nx\n")), Some((2, Stop::BadLine)), "{line:?}");
    }
    for line in ["p 0", "p 5 0 0 0", "p 0 3 0 0", "p 0 0 2 0", "p 0 0 0 100000000"] {
        assert_eq!(stop(&format!("c 3 2\n{line}\n")), Some((2, Stop::BadLine)), "{line:?}");
    }
    for line in ["x", "l 0", "d 0 0", "s 8 0 0 0 0", "h 8 0 0 0 0", "p 0"] {
        assert_eq!(stop(&format!("w 0 0\n{line}\n")), Some((2, Stop::BadLine)), "{line:?} before creation");
    }
    assert_eq!(stop("i 3 2\nx"), Some((2, Stop::BadLine)), "no line feed at the end");
    assert_eq!(run(b"i 3 2\n\xff\n").stopped, Some((2, Stop::BadLine)));
    let full = format!("i 3 2\n{}", "h 8 0 0 0 0\n".repeat(MAX_HELD + 1));
    assert_eq!(stop(&full), Some((MAX_HELD + 2, Stop::BadLine)), "one made-up TRB too many");
    let long = format!("i 3 2\n{}", "q 8 0 0 0 0\n".repeat(MAX_ROW + 2));
    assert_eq!(stop(&long), Some((MAX_ROW + 3, Stop::BadLine)), "a row of two TRBs too many");
    for line in ["q 8 0 0 0 0", "e 0 0", "r 0"] {
        assert_eq!(stop(&format!("c 3 2\n{line}\n")), Some((2, Stop::BadLine)), "{line:?} on control");
    }
    assert_eq!(stop(""), None);
}

#[test]
fn refused_calls() {
    let cases = [
        ("i 0 2\n", 1, "question 12"),
        ("i 20 2\n", 1, "question 12"),
        ("c 3 0\n", 1, "question 12"),
        ("i 3 2 0\ni 3 2 1\n", 2, "the Rust has no strict mode"),
        ("c 3 2 4\nc 3 2 5\n", 2, "the Rust has the rule of release 4 alone"),
        ("i 3 2\nb 7fff ffff\ns 8 0 0 0 0\n", 3, "question 1"),
        ("c 3 2\nb 8000 fffe\ns 8 0 0 0 0\n", 3, "question 1"),
        ("i 3 2\ns 8 0 0 0 0\nb 7fff ffff\nl 0\n", 4, "question 1"),
        ("i 3 2\np 2\nd 0 0\n", 3, "question 2"),
        ("i 3 2\np 2\ns 8 0 0 0 0\n", 3, "question 2"),
        ("i 3 2\nb bfff ffff\nr 0\n", 3, "question 1"),
        ("i 3 2\np 1\nr 0\n", 3, "question 3"),
        ("i 3 2\nq 8 0 2 0 0\ne 0 0\nr 0\n", 4, "question 15"),
        ("i 3 2\nq 8 0 0 0 0\nr 0\n", 3, "question 15"),
        ("i 3 2\nq 8 0 0 0 0\ne 1 0\nr 0\n", 4, "question 15"),
        ("i 3 2\nq 1 0 0 7fff 1\nq 1 0 0 8000 20000\ne 0 0\ne 0 0\nr 0\n", 6, "question 6"),
        ("i 3 2\nl 0\n", 2, "question 3"),
        ("c 3 2\nd 0 0\n", 2, "question 3"),
        ("i 3 2\ns 8 0 2 0 0\ns 8 0 2 0 0\n", 3, "question 3"),
        ("c 3 2\ns 8 0 0 0 0\ns 8 0 0 0 0\n", 3, "question 3"),
        ("i 3 2\ns 1 0 0 8000 20000\n", 2, "question 4"),
        ("i 3 2\ns 3 0 0 8000 20000\n", 2, "question 4"),
        ("i 3 2\ns 1 0 0 7fff 1\n", 2, "question 6"),
        ("i 3 2\ns 1 0 10 48000 1\n", 2, "question 21"),
        ("i 3 2\ns 1 0 10 8000 0\n", 2, "question 21"),
        ("c 3 2\np 2 0 1 0\ns 1 0 10 8000 1\n", 3, "question 21"),
        ("c 3 2\np 1 0 1 0\ns 3 0 10 8000 1\n", 3, "question 21"),
        ("i 3 2\nw ffffffffffffffff 2\ns 1 0 0 0 1\n", 3, "question 6"),
        ("i 3 2\nw 8000 100 8100 100\ns 1 0 0 80ff 2\n", 3, "question 6"),
        ("i 3 2\nw 8000 100 80ff 100\ns 1 0 0 8000 1\n", 3, "question 13"),
        ("i 3 2\nw 80ff 100 8000 100\ns 8 0 0 0 0\n", 3, "question 13"),
        ("i 3 2\nw 8000 1 8000 1\nb 7fff 0\ns 8 0 0 0 0\n", 4, "question 1"),
        ("i 3 2\nw 8000 1 8000 1\np 2\ns 8 0 0 0 0\n", 4, "question 13"),
        ("c 3 2\np 2 0 0 0\ns 1 0 0 8000 10000\n", 3, "question 7"),
        ("i 3 2\ns 8 0 0 0 0\nd 0 0\n", 3, "question 8"),
        ("i 3 2\ns 1 0 0 8000 1\nl 0\n", 3, "question 8"),
        ("c 3 2\np 0 2 0 0\nl 0\n", 3, "question 8"),
        ("i 3 2\nh 2 0 0 0 0\n", 2, "the Rust cannot hold this TRB in this state"),
        ("c 3 2\nh 8 0 0 0 0\n", 2, "the Rust cannot hold this TRB in this state"),
        ("i 3 2\ns 0 0 0 0 0\nh 8 0 0 0 0\n", 3, "the Rust cannot hold this TRB in this state"),
        ("i 3 2\nh 1 0 0 0 20000\n", 2, "the Rust decodes no such length"),
        ("i 3 2\nu 0 00000000000000000000000080200000\n", 2, "the Rust asks no reserved bit"),
        ("i 3 2\nu 0 00700000000000000100000000040000\n", 2, "question 6"),
    ];
    for (script, line, reason) in cases {
        assert_eq!(stop(script), unasked(line, reason), "{script:?}");
    }
    let full = "h 8 0 0 0 0\n".repeat(MAX_HELD);
    assert_eq!(stop(&format!("i 3 2\n{full}s 8 0 0 0 0\n")), unasked(MAX_HELD + 2, "question 5"));
    assert_eq!(stop(&format!("i 3 2\n{full}s 0 0 0 0 0\n")), None, "not held, so not one too many");
}

#[test]
fn accepted_at_the_limits() {
    let cases = [
        "i 1f ff\n",
        "i 3 2\ns 1 0 0 8000 1ffff\n",
        "i 3 2\ns 1 0 0 47fff 1\n",
        "i 3 2\ns 1 0 0 0 0\n",
        "i 3 2\nw ffffffffffffffff 2\ns 1 0 0 ffffffffffffffff 2\nd 0 2\n",
        "c 3 2\np 2 0 0 0\ns 1 0 0 8000 ffff\n",
        "c 3 2\np 2 0 0 0\ns 1 0 10 0 1ffff\n",
        "i 3 2\ns 3 0 30 8000 1\n",
        "c 3 2\np 0 0 1 0\ns 3 0 10 8000 1\n",
        "i 3 2\nh 1 0 10 8000 8\np 2\nd 0 8\n",
        "i 3 2\nb 0 0\nx\n",
        "i 3 2\nb 8000 0\ns 8 0 0 0 0\n",
        "t ffffffff ffffffff\nm ffff ff 1\nm 0 0 3\ni 3 2\nt 0 f423f\nm 1 1 1\nc 3 2\nm 2 2 3\n",
    ];
    for script in cases {
        assert_eq!(stop(script), None, "{script:?}");
    }
}

/// Carry-out performs all writes or none. What was written is seen by collecting it.
#[test]
fn carry_out() {
    let sum_after = |completion: &str| {
        let script =
            format!("i 3 2\nh 1 0 2 8000 4\nh 1 10 0 48000 4\np 2\n{completion}\nc 3 2\np 2 0 0 0\ns 1 0 0 8000 3\n");
        run(script.as_bytes()).answers.into_iter().map(|answer| answer.text).collect::<Vec<_>>()
    };
    let written = sum_after("d 0 4");
    let refused = sum_after("d 0 8");
    let untouched = sum_after("d 0 0");
    assert!(written[1].contains("\nout 0\n") && refused[1].contains("\nout 11\n"));
    assert_eq!(refused[3], untouched[3]);
    assert_ne!(written[3], untouched[3]);
    // The device's bytes 5, 16 and 27: 5 + 2 * 16 + 3 * 27.
    assert_eq!(written[3], "ok 0 - - -\nst control status collecting 1 out 0 3 76 0 000000000000\n");
}

/// A raw TRB is what the Rust's own parser makes of it: a submission answers the same either way.
#[test]
fn raw_trbs() {
    let decoded = run(b"i 3 2\ns 1 1000 d 8000 200\nd 0 258\n");
    let raw = run(b"i 3 2\nu 1000 0080000000000000000240ff2f060000\nd 0 258\n");
    assert_eq!(raw.stopped, None);
    assert_eq!(raw.answers, decoded.answers);
}
