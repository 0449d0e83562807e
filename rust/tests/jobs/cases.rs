//! The stored answers of the test program, against the reference: its listed jobs are run there by the proved code.
use crate::program::text;

/// A line of the input is a heading, or a name, a colon and a job in hexadecimal.
#[test]
fn the_stored_answers_are_the_references() {
    let listed = include_str!("../../../crates/job_cases/stdin");
    let stored = include_str!("../../../crates/job_cases/stdout");
    let mut due = String::new();
    let mut jobs = 0;
    for line in listed.lines() {
        match line.split_once(':') {
            Some((name, digits)) => {
                jobs += 1;
                due.push_str(&format!("{name}: {}", text(&from_hex(digits)).1));
            }
            None => due.push_str(&format!("{line}\n")),
        }
    }
    assert!(jobs > 30, "only {jobs} jobs are listed");
    assert!(stored.starts_with(&due), "the stored answers differ from the reference's:\n{due}");
    println!("cases: {jobs} stored answers agree");
}

fn from_hex(digits: &str) -> Vec<u8> {
    let digits: Vec<u8> = digits.bytes().filter(|byte| !byte.is_ascii_whitespace()).collect();
    digits
        .chunks(2)
        .map(|pair| {
            let pair = std::str::from_utf8(pair).expect("hexadecimal is ASCII");
            u8::from_str_radix(pair, 16).expect("two hexadecimal digits")
        })
        .collect()
}
