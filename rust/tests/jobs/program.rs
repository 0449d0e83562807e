//! The program against the reference: everything that it prints. TDEA_PROGRAM names it; without it this is skipped.
use crate::drawing::{any_job, any_sound, damaged_job, shown, Draft, Numbers, DAMAGES};
use crate::reference::{outcome, Outcome};
use std::collections::BTreeSet;
use std::env;
use std::ffi::OsString;
use std::io::{ErrorKind, Write};
use std::process::{Command, Stdio};

const JOBS: usize = 500;
/// The program reads so many bytes of its input.
const TAKEN: usize = 65_536;

fn program() -> Option<OsString> {
    let named = env::var_os("TDEA_PROGRAM");
    if named.is_none() {
        println!("skipped: the program: TDEA_PROGRAM does not name it");
    }
    named
}

/// What the program is to print for this input.
pub fn text(input: &[u8]) -> (Outcome, String) {
    let outcome = outcome(&input[..input.len().min(TAKEN)], usize::MAX);
    let text = match &outcome {
        Ok(done) => {
            let hex: String = done.bytes.iter().map(|byte| format!("{byte:02X}")).collect();
            format!("UNITS {}\nCYCLES {}\n{hex}\n", done.units, done.cycles)
        }
        Err(refused) => format!("REFUSED {} {}\n", refused.number, refused.detail),
    };
    (outcome, text)
}

fn printed(program: &OsString, input: &[u8]) -> String {
    let mut child = Command::new(program)
        .stdin(Stdio::piped())
        .stdout(Stdio::piped())
        .stderr(Stdio::piped())
        .spawn()
        .expect("the program that TDEA_PROGRAM names can be started");
    let mut pipe = child.stdin.take().expect("the input is a pipe");
    match pipe.write_all(input) {
        // it need not read what it does not take
        Err(error) if error.kind() == ErrorKind::BrokenPipe && input.len() > TAKEN => {}
        other => other.expect("the program reads its input"),
    }
    drop(pipe);
    let output = child.wait_with_output().expect("the program ends");
    assert!(output.status.success(), "the program ended with {}", output.status);
    assert!(output.stderr.is_empty(), "the program wrote to its standard error");
    String::from_utf8(output.stdout).expect("the program prints plain text")
}

fn compare(program: &OsString, input: &[u8]) -> Outcome {
    let (outcome, text) = text(input);
    let printed = printed(program, input);
    assert!(printed == text, "for {} it prints\n{:.200}\nand not\n{:.200}", shown(input), printed, text);
    outcome
}

#[test]
fn random_jobs() {
    let Some(program) = program() else { return };
    let mut numbers = Numbers::new(512);
    let mut seen = BTreeSet::new();
    for _ in 0..JOBS {
        let (job, _) = any_job(&mut numbers);
        seen.insert(compare(&program, &job).map_or_else(|refused| refused.number, |_| 0));
        compare(&program, &any_sound(&mut numbers).bytes()).expect("the job is sound");
    }
    // its output always has room, so that 6 does not come
    let expected: BTreeSet<u64> = (0..=5).chain([7]).chain(9..=15).collect();
    assert_eq!(seen, expected, "not every refusal came");
    println!("program: {} random jobs print what they must", 2 * JOBS);
}

/// Two reasons to refuse in one job, whichever they are: the first in the order is told, with its own detail.
#[test]
fn every_pair_of_damages() {
    let Some(program) = program() else { return };
    let mut numbers = Numbers::new(515);
    for first in 0..DAMAGES {
        for second in 0..DAMAGES {
            let (job, _) = damaged_job(&mut numbers, &[first, second]);
            let _ = compare(&program, &job);
        }
    }
}

/// Codes, directions and sizes of keys with few and with most units, for their cycles.
#[test]
fn every_mode() {
    let Some(program) = program() else { return };
    let mut numbers = Numbers::new(513);
    for keys in [1, 3] {
        for code in 1..=11 {
            for direction in [1, 2] {
                for units in [0, 1, 2, 3, 4, 5, 6, 7, 4_096] {
                    let draft = Draft::sound(&mut numbers, keys, code, direction, units);
                    compare(&program, &draft.bytes()).expect("the job is sound");
                }
            }
        }
    }
}

/// What lies behind the first 65,536 bytes is not looked at: a job that ends there is whole, a longer one is cut.
#[test]
fn the_cut() {
    let Some(program) = program() else { return };
    let mut numbers = Numbers::new(514);
    let mut draft = Draft::sound(&mut numbers, 1, 1, 1, 0);
    draft.data = numbers.bytes(65_511);
    let mut input = draft.bytes();
    assert_eq!(input.len(), TAKEN);
    for more in [0, 1, 100_000] {
        input.resize(TAKEN + more, 5);
        assert_eq!(printed(&program, &input), "REFUSED 14 65511\n");
        compare(&program, &input).expect_err("the data is too long");
    }
    draft.data.push(0);
    assert_eq!(printed(&program, &draft.bytes()), "REFUSED 9 22\n");
    compare(&program, &draft.bytes()).expect_err("the job is cut");
    assert_eq!(printed(&program, &[]), "REFUSED 9 0\n");
}
