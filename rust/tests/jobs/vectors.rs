//! Known values of every mode, to which both the reference and the library are held.
use crate::reference::outcome;
use tdea::{run, Direction, Job, Mode};

const KEYS: &str = "0123456789ABCDEF 23456789ABCDEF01 456789ABCDEF0123";
const VALUES: &str = "1234567890ABCDEF 6789ABCDE6012344 BCDF01233B567899";
const TEXT: &[u8; 56] = b"Now is the time for all good men to come to the aid of t";

/// Each mode with what the text gives: seven blocks, its first twelve bytes, or the bits of its first two.
const KNOWN: [(Mode, &str); 11] = [
    (Mode::Ecb, "314F8327FA7A09A8 4362760CC13BA7DA FF55C5F80FAAAC45 923AF5344EAFB3C2 A7BA2DCA9045BAA9 1C73191B737C45B7 BB21F989BF19E5F7"),
    (Mode::Cbc, "F3C0FF026C023089 656FBB169DEF7EDB 30BA36075D6F0176 15C82AD93FCA176C FC9F49E8A899C2B6 B4764F442DF4FBA3 B9864D6BB8E07CA1"),
    (
        Mode::CbcInterleaved,
        "F3C0FF026C023089 D511427507A47573 EDD53C2DC7DE6650 A982BE793978FA1B 66C318C697EECADC 97B1652D75BC7602 232961535CC054BA",
    ),
    (Mode::Cfb64, "EE7EC75C1A101301 C4AB2F10462E5DD4 17400B445B5F2A72 81292D57C3EC87BA A5976C3016CA6C03 08B9A42FBC5A5A0A 2A102D285FE8AF5B"),
    (Mode::Cfb8, "EE 9B 04 FF CA CE C8 06 70 60 68 00"),
    (Mode::Cfb1, "01 01 00 01 01 00 00 01 01 01 01 00 00 01 01 00"),
    (
        Mode::CfbPipelined64,
        "EE7EC75C1A101301 CF96CD2764D0FA73 A569FAB8F2857C22 CBA160000F2E5D9A 34D858C114E77A9D A0FD3DCD58159915 24D285A5CE2C2B2D",
    ),
    (Mode::CfbPipelined8, "EE C8 B4 D2 8A AF 68 58 5D 0A 6C 73"),
    (Mode::CfbPipelined1, "01 00 01 01 00 01 01 00 00 01 01 01 01 01 01 00"),
    (Mode::Ofb, "EE7EC75C1A101301 9A8A610002668E07 87E28AF9EC26B889 CEC0583981568BDE 1684858DB4143E68 24D1044FAC6B3626 772CD5DBE47F481F"),
    (
        Mode::OfbInterleaved,
        "EE7EC75C1A101301 CF96CD2764D0FA73 A569FAB8F2857C22 95802E104B668E49 095B819A65B5BEF4 04CED818B87F8454 80E49CF9E22CF4DD",
    ),
];

fn hex(text: &str) -> Vec<u8> {
    let digits: Vec<u32> = text.chars().filter_map(|digit| digit.to_digit(16)).collect();
    digits.chunks(2).map(|pair| u8::try_from(16 * pair[0] + pair[1]).expect("two digits make a byte")).collect()
}

fn plain(length: usize) -> Vec<u8> {
    match length {
        56 => TEXT.to_vec(),
        12 => TEXT[..12].to_vec(),
        16 => (0..16).map(|bit| TEXT[bit / 8] >> (7 - bit % 8) & 1).collect(),
        _ => panic!("no known value has {length} bytes"),
    }
}

/// What both give for the job, where they agree.
fn given(job: &Job) -> Vec<u8> {
    let bytes = job.to_bytes().expect("the fields are short");
    let expected = outcome(&bytes, job.data.len()).expect("the job is sound").bytes;
    let mut out = vec![0; job.data.len()];
    assert_eq!(run(&bytes, &mut out), Ok(out.len()));
    assert_eq!(out, expected);
    out
}

#[test]
fn known_values_of_every_mode() {
    let (keys, values) = (hex(KEYS), hex(VALUES));
    for (mode, ciphered) in KNOWN {
        let ciphered = hex(ciphered);
        let plain = plain(ciphered.len());
        let initial_values = &values[..mode.initial_value_length()];
        let sent = Job { keys: &keys, mode, direction: Direction::Encipher, initial_values, data: &plain };
        assert_eq!(given(&sent), ciphered, "{mode:?} enciphered");
        assert_eq!(given(&Job { direction: Direction::Decipher, data: &ciphered, ..sent }), plain, "{mode:?} deciphered");
    }
}

#[test]
fn a_known_value_of_single_dea() {
    let (keys, data) = (hex("133457799BBCDFF1"), hex("0123456789ABCDEF"));
    let sent = Job { keys: &keys, mode: Mode::Ecb, direction: Direction::Encipher, initial_values: &[], data: &data };
    assert_eq!(given(&sent), hex("85E813540F0AB405"));
}

/// Four units in interleaved chaining on the line take 6 cycles, in plain chaining 12; the codebook takes one for each, and the drain's two.
#[test]
fn known_counts_of_cycles() {
    let (keys, values) = (hex(KEYS), hex(VALUES));
    let count = |keys: &[u8], mode: Mode, direction, units: usize| {
        let job = Job { keys, mode, direction, initial_values: &values[..mode.initial_value_length()], data: &vec![0; 8 * units] };
        let done = outcome(&job.to_bytes().expect("the fields are short"), 8 * units).expect("the job is sound");
        assert_eq!(done.units, units as u64);
        done.cycles
    };
    assert_eq!(count(&keys, Mode::CbcInterleaved, Direction::Encipher, 4), 6);
    assert_eq!(count(&keys, Mode::Cbc, Direction::Encipher, 4), 12);
    assert_eq!(count(&keys, Mode::Cbc, Direction::Decipher, 4), 6);
    assert_eq!(count(&keys, Mode::Ofb, Direction::Decipher, 4), 12);
    assert_eq!(count(&keys, Mode::Ecb, Direction::Encipher, 1), 3);
    assert_eq!(count(&keys, Mode::Ecb, Direction::Encipher, 0), 0);
    assert_eq!(count(&keys[..8], Mode::Cbc, Direction::Encipher, 4), 4);
}
