//! The program as it is called: its last line and its exit code.

use std::process::{Command, Output};

fn differential(arguments: &[&str]) -> Output {
    Command::new(env!("CARGO_BIN_EXE_differential")).args(arguments).output().expect("the program runs")
}

fn last_line(output: &Output) -> String {
    String::from_utf8_lossy(&output.stdout).lines().last().unwrap_or_default().to_string()
}

#[test]
fn a_copy_of_the_reference_passes() {
    let output = differential(&["--self", "--seed", "21", "--steps", "300000", "--texts", "1500"]);
    let line = last_line(&output);
    assert!(line.starts_with("differential: ") && line.ends_with(" comparisons, 0 differences"), "{line}");
    assert_eq!(output.status.code(), Some(0));
    assert!(String::from_utf8_lossy(&output.stdout).contains("seed 21"));
}

#[test]
fn a_broken_copy_fails() {
    let output = differential(&["--broken", "5", "--steps", "50000", "--texts", "0"]);
    assert!(!last_line(&output).ends_with(" 0 differences"));
    assert_eq!(output.status.code(), Some(1));
}

/// A run too short to meet every number is no success.
#[test]
fn a_number_never_met_fails() {
    let output = differential(&["--self", "--steps", "10", "--texts", "0"]);
    assert!(last_line(&output).ends_with(" 0 differences"));
    assert!(String::from_utf8_lossy(&output.stdout).contains("never met: program 15"));
    assert_eq!(output.status.code(), Some(1));
}

#[test]
fn wrong_arguments_are_told_apart() {
    for arguments in [&["--broken", "0"][..], &["--broken", "999"], &["--seed"], &["--nonsense"]] {
        assert_eq!(differential(arguments).status.code(), Some(2));
    }
}

#[cfg(not(feature = "archive"))]
#[test]
fn without_the_archive_nothing_is_claimed() {
    let output = differential(&[]);
    assert_eq!(output.status.code(), Some(2));
    assert!(output.stdout.is_empty());
}
