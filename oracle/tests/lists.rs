//! The lists give the answers that are kept beside them.

use std::{fs, path::Path};

use oracle::driver::run;

fn answers_as_kept(name: &str) {
    let lists = Path::new(env!("CARGO_MANIFEST_DIR")).join("lists");
    let answered = run(&fs::read(lists.join(name).with_extension("calls")).unwrap());
    assert_eq!(answered.stopped, None);
    let text: String = answered.answers.iter().map(|answer| answer.text.as_str()).collect();
    assert_eq!(text, fs::read_to_string(lists.join(name).with_extension("answers")).unwrap());
}

#[test]
fn bench() {
    answers_as_kept("bench");
}

#[test]
fn limits() {
    answers_as_kept("limits");
}
