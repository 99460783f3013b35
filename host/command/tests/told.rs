//! Every refusal's words with its figures, held to stored lines, so that none changes unseen. The lines are what the command printed when they
//! were stored, and were read then; that their figures are right is for `truth.rs` to tell, by the second working.

use std::fs;
use std::path::{Path, PathBuf};
use std::process::Command;

fn told() -> PathBuf {
    Path::new(env!("CARGO_MANIFEST_DIR")).join("tests/told")
}

/// What is printed, and the exit status behind it.
fn printed(text: &Path) -> String {
    let run = Command::new(env!("CARGO_BIN_EXE_ravundesk"))
        .arg("run")
        .arg(text)
        .output()
        .expect("the command starts");
    let status = run.status.code().expect("it ends by itself");
    let lines = String::from_utf8(run.stdout).expect("lines are text");
    format!("{lines}exit status {status}\n")
}

#[test]
fn as_stored() {
    let mut texts: Vec<PathBuf> = fs::read_dir(told())
        .expect("the texts are there")
        .map(|entry| entry.expect("a folder can be read").path())
        .filter(|path| path.extension().map_or(false, |ending| ending == "txt"))
        .collect();
    texts.sort();
    assert!(17 < texts.len());
    for text in texts {
        let stored = fs::read_to_string(text.with_extension("out")).expect("stored lines");
        assert_eq!(printed(&text), stored, "{}", text.display());
    }
}

/// Each refusal that a run can give is among the stored lines.
#[test]
fn every_refusal() {
    let stored: String = fs::read_dir(told())
        .expect("the texts are there")
        .map(|entry| entry.expect("a folder can be read").path())
        .filter(|path| path.extension().map_or(false, |ending| ending == "out"))
        .map(|path| fs::read_to_string(path).expect("stored lines"))
        .collect();
    let in_no_run = [17, 18, 22, 23];
    for refusal in ravundesk::refusals::REFUSALS {
        let word = if refusal.number < 4 {
            "STOPPED"
        } else {
            "REFUSED"
        };
        let line = format!("  {word} {}: {}; ", refusal.number, refusal.meaning);
        let given = !in_no_run.contains(&refusal.number);
        assert_eq!(stored.contains(&line), given, "{line}");
    }
}
