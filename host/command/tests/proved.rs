//! What `book` and `expiry` make of a program's lines and of how it ends. The programs here are scripts, since a proved one does not go wrong.

use std::path::{Path, PathBuf};
use std::process::{Command, Stdio};
use std::time::{Duration, Instant};
use std::{fs, str};

/// The two verbs, and where each finds its program.
const VERBS: [(&str, &str); 2] = [("book", "RAVUNDESK_BOOK"), ("expiry", "RAVUNDESK_EXPIRY")];

/// What is printed, what is said and the exit status.
type Ended = (String, String, i32);

/// A folder as the launcher installs one, with a script as the program of the verb.
fn installed(verb: &str, test: &str, script: &str) -> PathBuf {
    let folder = Path::new(env!("CARGO_TARGET_TMPDIR")).join(format!("{verb} {test}"));
    fs::create_dir_all(&folder).expect("a folder can be made");
    fs::write(folder.join("start"), "/bin/sh\n-eu\n").expect("it can be written in");
    fs::write(folder.join(verb), script).expect("it can be written in");
    folder
}

/// The verb on no input, with its program in this folder, or with none.
fn ended(verb: &str, folder: Option<&Path>) -> Ended {
    let mut command = Command::new(env!("CARGO_BIN_EXE_ravundesk"));
    for (verb, variable) in VERBS {
        command.env_remove(variable);
        if let Some(folder) = folder.filter(|folder| folder.join(verb).exists()) {
            command.env(variable, folder);
        }
    }
    let run = command.arg(verb).stdin(Stdio::null()).output();
    let run = run.expect("the command starts");
    let text = |bytes: &[u8]| str::from_utf8(bytes).expect("text").to_string();
    let status = run.status.code().expect("it ends by itself");
    (text(&run.stdout), text(&run.stderr), status)
}

fn of_script(verb: &str, test: &str, script: &str) -> Ended {
    ended(verb, Some(&installed(verb, test, script)))
}

fn in_trouble(printed: &str, line: &str) -> Ended {
    (printed.to_string(), format!("ravundesk: {line}\n"), 2)
}

#[test]
fn the_worst_line_has_the_status() {
    let status = |lines: &str| {
        let (printed, said, status) = of_script("expiry", "lines", &format!("cat <<.\n{lines}."));
        assert_eq!(printed, lines);
        (said, status)
    };
    let silent = |status| (String::new(), status);
    assert_eq!(status(""), silent(0));
    assert_eq!(status("0\n0 0 1525 0 2243\n"), silent(0));
    assert_eq!(status("0\n22\n0\n"), silent(1));
    assert_eq!(status("4\n0 1 1\n23\n"), silent(1));
    let (said, worst) = status("23\nunreadable 2\nunreadable 7\n0\n");
    assert_eq!(worst, 2);
    let [exercise, assign] = ravundesk::expiry::FORMS;
    assert_eq!(
        said,
        format!("ravundesk: standard input has 2 lines that can't be read; a question is `{exercise}` or `{assign}`\n")
    );
}

#[test]
fn a_program_that_fails() {
    for ((verb, _), line) in VERBS.iter().zip(["1 0 0\n", "0\n"]) {
        let script = format!("echo {line}exit 3\n");
        let own = in_trouble(line, "the proved program failed: exit status: 3");
        assert_eq!(of_script(verb, "fails", &script), own);
        let script = format!("echo {line}printf '0 1'\nkill -s KILL $$\n");
        let (printed, said, status) = of_script(verb, "killed", &script);
        assert_eq!((printed.as_str(), status), (line, 2));
        assert!(
            said.starts_with("ravundesk: the proved program failed: signal: 9"),
            "{said}"
        );
    }
}

#[test]
fn a_line_that_is_none_ends_it() {
    for ((verb, _), line) in VERBS.iter().zip(["1 0 0\n", "0\n"]) {
        let began = Instant::now();
        let script = format!("echo {line}echo killed\nexec sleep 60\n");
        let own = in_trouble(line, "the proved program said: killed");
        assert_eq!(of_script(verb, "says", &script), own);
        assert!(began.elapsed() < Duration::from_secs(50), "{verb} waits");
    }
}

#[test]
fn a_program_that_is_not_there() {
    for (verb, _) in VERBS {
        let line = "the proved program is installed by ./ravundesk, at the root of the tree";
        assert_eq!(ended(verb, None), in_trouble("", line));
        let folder = installed(verb, "gone", "");
        fs::write(folder.join("start"), "/nowhere/loader\n").expect("it can be written");
        let line = "the proved program can't be started: no such file or directory";
        assert_eq!(ended(verb, Some(&folder)), in_trouble("", line));
        fs::remove_file(folder.join("start")).expect("it can be removed");
        assert_eq!(ended(verb, Some(&folder)), in_trouble("", line));
    }
}
