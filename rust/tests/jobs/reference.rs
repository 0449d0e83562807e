//! What a job gives, from the rules: the fields, the checks in their order, the equations of the modes, the cycles.
use crate::dea::Cipher;

#[derive(Clone, Debug, PartialEq, Eq)]
pub struct Done {
    pub units: u64,
    pub cycles: u64,
    pub bytes: Vec<u8>,
}

#[derive(Clone, Copy, Debug, PartialEq, Eq)]
pub struct Refused {
    pub number: u64,
    pub detail: u64,
}

pub type Outcome = Result<Done, Refused>;

fn refused<T>(number: u64, detail: usize) -> Result<T, Refused> {
    Err(Refused { number, detail: detail as u64 })
}

/// What the job gives where the output has room for so many bytes.
pub fn outcome(job: &[u8], room: usize) -> Outcome {
    let [keys, code, direction, values, data] = fields(job)?;
    let cipher = cipher(keys)?;
    for (tag, field) in [(2, code), (3, direction)] {
        if field.len() != 1 {
            return refused(12, tag);
        }
    }
    let Some(mode) = mode(code[0]) else { return refused(4, code[0].into()) };
    let enciphering = match direction[0] {
        1 => true,
        2 => false,
        other => return refused(13, other.into()),
    };
    if values.len() != mode.values * 8 {
        return refused(5, values.len());
    }
    let units = units(&mode, data)?;
    if room < data.len() {
        return refused(6, data.len());
    }
    let results = mode.results(&cipher, enciphering, &words(values), &units);
    let distance = if enciphering { mode.enciphering } else { mode.deciphering };
    Ok(Done { units: units.len() as u64, cycles: cycles(units.len() as u64, cipher.depth(), distance), bytes: mode.bytes(&results) })
}

// ---- the fields

fn fields(job: &[u8]) -> Result<[&[u8]; 5], Refused> {
    let mut found: [&[u8]; 5] = [&[]; 5];
    let mut offset = 0;
    for (tag, place) in (1..).zip(&mut found) {
        *place = field(job, offset, tag)?;
        offset += 3 + place.len();
    }
    if offset < job.len() {
        return refused(11, offset);
    }
    Ok(found)
}

fn field(job: &[u8], offset: usize, due: u8) -> Result<&[u8], Refused> {
    let [tag, high, low, rest @ ..] = &job[offset..] else { return refused(9, offset) };
    if *tag != due {
        return refused(10, offset);
    }
    let length = 256 * usize::from(*high) + usize::from(*low);
    rest.get(..length).map_or_else(|| refused(9, offset), Ok)
}

// ---- keys and units

fn cipher(bytes: &[u8]) -> Result<Cipher, Refused> {
    if bytes.len() != 8 && bytes.len() != 24 {
        return refused(1, bytes.len());
    }
    if let Some(index) = bytes.iter().position(|byte| byte.count_ones() % 2 == 0) {
        return refused(2, index);
    }
    let keys = words(bytes);
    if keys.len() == 3 && keys[0] == keys[1] && keys[1] == keys[2] {
        return refused(3, 0);
    }
    Ok(Cipher::new(&keys))
}

fn words(bytes: &[u8]) -> Vec<u64> {
    bytes.chunks(8).map(|chunk| chunk.iter().fold(0, |word, &byte| word << 8 | u64::from(byte))).collect()
}

fn units(mode: &Mode, data: &[u8]) -> Result<Vec<u64>, Refused> {
    if data.len() > 32_768 {
        return refused(14, data.len());
    }
    if mode.width == 64 {
        return if data.len() % 8 == 0 { Ok(words(data)) } else { refused(15, data.len()) };
    }
    let units: Vec<u64> = data.iter().map(|&byte| u64::from(byte)).collect();
    match units.iter().position(|&unit| unit >= 1 << mode.width) {
        Some(index) => refused(7, index),
        None => Ok(units),
    }
}

// ---- the modes

enum Family {
    Codebook,
    Chaining,
    CipherFeedback,
    OutputFeedback,
}

pub struct Mode {
    family: Family,
    /// Bits of a unit.
    pub width: u32,
    /// How many initial values there are; so far back, too, lies what the equations use.
    pub values: usize,
    enciphering: Option<u64>,
    deciphering: Option<u64>,
}

pub fn mode(code: u8) -> Option<Mode> {
    use Family::{Chaining, CipherFeedback, Codebook, OutputFeedback};
    let (family, width, values, enciphering, deciphering) = match code {
        1 => (Codebook, 64, 0, None, None),
        2 => (Chaining, 64, 1, Some(1), None),
        3 => (Chaining, 64, 3, Some(3), None),
        4 => (CipherFeedback, 64, 1, Some(1), None),
        5 => (CipherFeedback, 8, 1, Some(1), None),
        6 => (CipherFeedback, 1, 1, Some(1), None),
        7 => (CipherFeedback, 64, 3, Some(3), None),
        8 => (CipherFeedback, 8, 3, Some(3), None),
        9 => (CipherFeedback, 1, 3, Some(3), None),
        10 => (OutputFeedback, 64, 1, Some(1), Some(1)),
        11 => (OutputFeedback, 64, 3, Some(3), Some(3)),
        _ => return None,
    };
    Some(Mode { family, width, values, enciphering, deciphering })
}

/// The cycles of one feed on a new cartridge and one drain.
fn cycles(units: u64, depth: u64, distance: Option<u64>) -> u64 {
    if units == 0 {
        return 0;
    }
    let waiting = distance.map_or(0, |distance| (units - 1) / distance * depth.saturating_sub(distance));
    units + waiting + (depth - 1)
}

impl Mode {
    fn results(&self, cipher: &Cipher, enciphering: bool, values: &[u64], units: &[u64]) -> Vec<u64> {
        // of every unit so far: its ciphered form, its input block, its output block
        let (mut ciphered, mut inputs, mut outputs) = (Vec::new(), Vec::new(), Vec::new());
        let mut results = Vec::new();
        for (place, &unit) in (1..).zip(units) {
            let result = match self.family {
                Family::Codebook if enciphering => cipher.forward(unit),
                Family::Codebook => cipher.inverse(unit),
                Family::Chaining if enciphering => cipher.forward(unit ^ self.back(values, &ciphered, place)),
                Family::Chaining => cipher.inverse(unit) ^ self.back(values, &ciphered, place),
                Family::CipherFeedback => {
                    let back = self.back(values, &ciphered, place);
                    let input = if place <= self.values { back } else { self.shifted(inputs[place - 2], back) };
                    inputs.push(input);
                    unit ^ cipher.forward(input) >> (64 - self.width)
                }
                Family::OutputFeedback => {
                    let output = cipher.forward(self.back(values, &outputs, place));
                    outputs.push(output);
                    unit ^ output
                }
            };
            ciphered.push(if enciphering { result } else { unit });
            results.push(result);
        }
        results
    }

    /// What lies the mode's distance before this place, which counts from 1; an initial value stands for what would lie before the first.
    fn back(&self, values: &[u64], list: &[u64], place: usize) -> u64 {
        if place <= self.values {
            values[place - 1]
        } else {
            list[place - self.values - 1]
        }
    }

    /// The register without its first bits, and the unit behind it.
    fn shifted(&self, register: u64, unit: u64) -> u64 {
        if self.width == 64 {
            unit
        } else {
            register << self.width | unit
        }
    }

    fn bytes(&self, units: &[u64]) -> Vec<u8> {
        if self.width == 64 {
            units.iter().flat_map(|unit| unit.to_be_bytes()).collect()
        } else {
            units.iter().map(|&unit| u8::try_from(unit).expect("a narrow unit fits a byte")).collect()
        }
    }
}
