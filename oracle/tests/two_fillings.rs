//! Two fillings differ in every byte, and two answers are alike where nothing but SUM differs.

use std::{fs, path::Path};

use oracle::{
    asked_rust::AskedRust,
    call::FIRST_REGION,
    filling::Filling,
    two_fillings::{alike, sum_differs, Alike},
};

#[test]
fn no_byte_is_the_same() {
    let bytes = |filling: Filling| [filling.of_region(FIRST_REGION), filling.of_device(1000)].concat();
    let (first, second) = (bytes(Filling::OfScripts), bytes(Filling::Complement));
    assert_eq!(first.len(), second.len());
    assert!(first.iter().zip(&second).all(|(first, second)| first ^ second == 0xff));
}

#[test]
fn sum_alone_may_differ() {
    let answer = "ok 1 - - -\n2 1 0 3 2 8000 0 0 0000000000000000\nst control status submit 2 out 64 64 1f0a 1000 000900010000\n";
    assert_eq!(sum_differs(answer, answer), Some(false));
    assert_eq!(sum_differs(answer, &answer.replace("1f0a", "1f0b")), Some(true));
    for (word, other) in [("ok 1", "ok 2"), ("8000", "8001"), ("64 64", "64 63"), ("64 64", "63 64"), ("1000", "1f0a")]
    {
        assert_eq!(sum_differs(answer, &answer.replace(word, other)), None, "{word} and {other}");
    }
    assert_eq!(sum_differs(answer, &answer[..answer.len() - 1]), None);
    assert_eq!(sum_differs("no 6\nst in submit 0\n", "no 6\nst in submit 1\n"), None);
}

#[test]
fn the_rust_shows_no_byte() {
    let list = Path::new(env!("CARGO_MANIFEST_DIR")).join("lists/limits.calls");
    let Alike { answers, sums, passed_over } = alike::<AskedRust>(&fs::read(list).unwrap()).unwrap();
    assert_eq!((answers, passed_over), (3138, 0));
    assert!(sums > 0);
}
