//! The comparison fails desks that answer wrongly, stop early, say too much or hang, and lets right answers pass.

use std::process::Command;

const DESK: &str = env!("CARGO_BIN_EXE_desk");

/// Compares a program; whether all passed, and what was printed.
fn compare(program: &[&str], options: &[&str]) -> (bool, String) {
    let mut command = Command::new(env!("CARGO_BIN_EXE_compare"));
    command.arg("--replay").args(program).args(["--scripts", "16", "--lines", "150", "--seed-from", "6"]).args(options);
    let output = command.output().unwrap();
    (output.status.success(), String::from_utf8(output.stdout).unwrap())
}

fn last_line(printed: &str) -> &str {
    printed.lines().last().unwrap()
}

/// The desk with its answers changed by a command.
fn changed(command: &str) -> (bool, String) {
    compare(&["sh", "-c", &format!("'{DESK}' | {command}")], &[])
}

/// What is expected comes from the same code, so this says nothing about a desk: only that right answers are let pass.
#[test]
fn right_answers_pass() {
    let (passed, printed) = compare(&[DESK], &[]);
    assert!(passed, "{printed}");
    assert_eq!(printed, "16 passed, 0 failed\n");
}

#[test]
fn a_wrong_answer_fails() {
    let folder = std::env::temp_dir().join(format!("compare-{}", std::process::id()));
    let (passed, printed) = compare(&["sh", "-c", &format!("'{DESK}' | sed '20s/^/1/'")], &["--save", folder.to_str().unwrap()]);
    assert!(!passed);
    assert_eq!(last_line(&printed), "0 passed, 16 failed");
    assert!(printed.contains("line 20\n  script "), "{printed}");
    let saved = std::fs::read(folder.join("seed-6.script")).unwrap();
    assert_eq!(saved.iter().filter(|&&byte| byte == b'\n').count(), 20);
    std::fs::remove_dir_all(folder).unwrap();
}

#[test]
fn other_output_fails() {
    for command in ["head -n 100", "head -c -1", "sed '$s/$/ /'", "sed '7d'", "tr a-f A-F | sed 's/BAD/bad/'", "(cat; echo)", "(cat; exit 3)"] {
        let (passed, printed) = changed(command);
        assert!(!passed, "{command}: {printed}");
    }
}

#[test]
fn a_program_that_hangs_or_is_not_there_fails() {
    let (passed, printed) = compare(&["sleep", "60"], &["--seconds", "0"]);
    assert!(!passed);
    assert_eq!(last_line(&printed), "0 passed, 16 failed");
    let (passed, _) = compare(&["/no/such/program"], &[]);
    assert!(!passed);
}
