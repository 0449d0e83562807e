//! The modes that OpenSSL has too, against its command; without it this is skipped.
use crate::drawing::{Draft, Numbers};
use crate::reference::outcome;
use std::io::Write;
use std::process::{Command, Stdio};
use std::thread;
use tdea::run;

/// Code, and the command's name for it.
const SHARED: [(u8, &str); 6] =
    [(1, "-des-ede3"), (2, "-des-ede3-cbc"), (4, "-des-ede3-cfb"), (5, "-des-ede3-cfb8"), (6, "-des-ede3-cfb1"), (10, "-des-ede3-ofb")];

fn installed() -> bool {
    let found = Command::new("openssl").arg("version").stdout(Stdio::null()).status().is_ok_and(|status| status.success());
    if !found {
        println!("skipped: jobs by OpenSSL: openssl is not installed");
    }
    found
}

fn hex(bytes: &[u8]) -> String {
    bytes.iter().map(|byte| format!("{byte:02x}")).collect()
}

fn by_openssl(name: &str, draft: &Draft, data: Vec<u8>) -> Vec<u8> {
    let mut command = Command::new("openssl");
    command.args(["enc", name, "-nopad", "-K", &hex(&draft.keys)]);
    if !draft.values.is_empty() {
        command.args(["-iv", &hex(&draft.values)]);
    }
    if draft.direction == [2] {
        command.arg("-d");
    }
    let mut child = command.stdin(Stdio::piped()).stdout(Stdio::piped()).spawn().expect("openssl can be started");
    let mut pipe = child.stdin.take().expect("the input is a pipe");
    // it answers while it reads, so that one thread alone could wait for ever
    let writer = thread::spawn(move || pipe.write_all(&data));
    let output = child.wait_with_output().expect("openssl ends");
    writer.join().expect("the writer ends").expect("openssl reads its input");
    assert!(output.status.success(), "openssl enc {name} ended with {}", output.status);
    output.stdout
}

/// Eight units of one bit, a byte each, in one byte, and back; the first is the highest.
fn packed(units: &[u8]) -> Vec<u8> {
    units.chunks(8).map(|bits| bits.iter().fold(0, |byte, bit| byte << 1 | bit)).collect()
}

fn unpacked(bytes: &[u8]) -> Vec<u8> {
    bytes.iter().flat_map(|byte| (0..8).rev().map(move |place| byte >> place & 1)).collect()
}

#[test]
fn shared_modes() {
    if !installed() {
        return;
    }
    let mut numbers = Numbers::new(1024);
    let mut jobs = 0;
    for (code, name) in SHARED {
        for direction in [1, 2] {
            for units in [8, 16, 24, 40, 800, 4_096] {
                let draft = Draft::sound(&mut numbers, 3, code, direction, units);
                let theirs = match code {
                    6 => unpacked(&by_openssl(name, &draft, packed(&draft.data))),
                    _ => by_openssl(name, &draft, draft.data.clone()),
                };
                let mut ours = vec![0; draft.data.len()];
                assert_eq!(run(&draft.bytes(), &mut ours), Ok(ours.len()));
                assert!(ours == theirs, "code {code}, direction {direction}, {units} units: not what openssl enc {name} gives");
                let reference = outcome(&draft.bytes(), ours.len()).expect("the job is sound");
                assert!(reference.bytes == theirs, "the reference is not what openssl enc {name} gives");
                jobs += 1;
            }
        }
    }
    println!("openssl: {jobs} jobs agree");
}
