//! The comparison finds a product that answers otherwise, and cuts the script down.

use std::{fs, os::unix::fs::PermissionsExt, path::PathBuf};

use oracle::compare::{Outcome, Product};

const T: &str = "s 1 1000 a 8000 200\nl 0\ns 1 1010 a 8200 200\nl 0\ns 1 1020 c 8400 200\nd 0 258\n";

/// A product that is a line of shell, in which `oracle` is the oracle itself.
fn product(name: &str, shell: &str) -> Product {
    let program = PathBuf::from(env!("CARGO_TARGET_TMPDIR")).join(name);
    let oracle = env!("CARGO_BIN_EXE_oracle");
    fs::write(&program, format!("#!/bin/sh\noracle() {{ '{oracle}'; }}\n{shell}\n")).unwrap();
    fs::set_permissions(&program, fs::Permissions::from_mode(0o755)).unwrap();
    Product { program }
}

#[test]
fn equal_products_are_equal() {
    let outcome = product("equal", "oracle").compare(&format!("i 3 2\n{T}")).unwrap();
    assert!(matches!(outcome, Outcome::Equal(7)), "{outcome:?}");
}

#[test]
fn a_wrong_residual_is_found() {
    let product = product("residual", "oracle | sed 's/1020 424/1020 512/'");
    let script = format!("c 3 2\ns 0 0 0 0 0\nl 0\ni 3 2\n{T}s 8 0 0 0 0\nx\nx\n");
    let Outcome::Differ { equal: 9, difference } = product.compare(&script).unwrap() else { panic!("not found") };
    assert_eq!(difference.line, 10);
    let (shortest, difference) = product.cut_down(&script, difference).unwrap();
    assert_eq!(shortest, "i 3 2\ns 1 1010 a 8200 200\nl 0\ns 1 1020 c 8400 200\nd 0 258\n");
    assert_eq!(difference.line, 5);
}

/// The product says nothing at all once a script has two cancels: the lines through the first difference do not show it.
#[test]
fn a_silent_end_is_found() {
    let shell = "script=$(cat; echo .); script=${script%.}; \
                 [ $(echo \"$script\" | grep -c x) -ge 2 ] || printf %s \"$script\" | oracle";
    let product = product("silent", shell);
    let script = "i 3 2\nx\ni 3 1\nx\nx\n";
    let Outcome::Differ { equal: 0, difference } = product.compare(script).unwrap() else { panic!("not found") };
    let (shortest, _) = product.cut_down(script, difference).unwrap();
    assert_eq!(shortest, "i 3 2\nx\nx\n");
}

#[test]
fn lines_too_many_are_found() {
    let outcome = product("more", "oracle; echo more").compare("i 3 2\n").unwrap();
    assert!(matches!(outcome, Outcome::Differ { equal: 1, .. }), "{outcome:?}");
}

#[test]
fn what_cannot_be_asked_is_not_compared() {
    let outcome = product("unasked", "oracle").compare("i 3 2\nl 0\n").unwrap();
    assert!(matches!(outcome, Outcome::Unasked(_)), "{outcome:?}");
}
