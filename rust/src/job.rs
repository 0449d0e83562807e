use std::error::Error;
use std::fmt;

/// A mode, in the width of its units.
#[derive(Clone, Copy, Debug, PartialEq, Eq, Hash)]
pub enum Mode {
    /// TECB: the codebook.
    Ecb = 1,
    /// TCBC: chaining.
    Cbc = 2,
    /// TCBC-I: chaining, interleaved.
    CbcInterleaved = 3,
    /// TCFB in units of 64 bits: cipher feedback.
    Cfb64 = 4,
    /// TCFB in units of 8 bits.
    Cfb8 = 5,
    /// TCFB in units of one bit; each lies in a byte of its own, 0 or 1.
    Cfb1 = 6,
    /// TCFB-P in units of 64 bits: cipher feedback, pipelined.
    CfbPipelined64 = 7,
    /// TCFB-P in units of 8 bits.
    CfbPipelined8 = 8,
    /// TCFB-P in units of one bit; each lies in a byte of its own, 0 or 1.
    CfbPipelined1 = 9,
    /// TOFB: output feedback.
    Ofb = 10,
    /// TOFB-I: output feedback, interleaved.
    OfbInterleaved = 11,
}

impl Mode {
    /// The code that names the mode in a job.
    pub fn code(self) -> u8 {
        self as u8
    }

    /// How many bytes of initial values the mode takes: 0, 8 or 24.
    pub fn initial_value_length(self) -> usize {
        match self {
            Mode::Ecb => 0,
            Mode::Cbc | Mode::Cfb64 | Mode::Cfb8 | Mode::Cfb1 | Mode::Ofb => 8,
            Mode::CbcInterleaved | Mode::CfbPipelined64 | Mode::CfbPipelined8 | Mode::CfbPipelined1 | Mode::OfbInterleaved => 24,
        }
    }
}

/// Which way the data goes.
#[derive(Clone, Copy, Debug, PartialEq, Eq, Hash)]
pub enum Direction {
    /// From plain to ciphered.
    Encipher = 1,
    /// From ciphered to plain.
    Decipher = 2,
}

/// What a job says. Nothing is checked here but that each field can be written: running the job checks the rest.
///
/// It is not `Debug`, so that keys are not printed by mistake.
#[derive(Clone, Copy)]
pub struct Job<'a> {
    /// One key of 8 bytes for single DEA, or three, 24 bytes, for triple DEA. Each byte has an odd count of ones.
    pub keys: &'a [u8],
    /// How the units go through the cipher.
    pub mode: Mode,
    /// Which way they go.
    pub direction: Direction,
    /// The mode's initial values, eight bytes each.
    pub initial_values: &'a [u8],
    /// The units: eight bytes each where they are 64 bits wide, else one byte each.
    pub data: &'a [u8],
}

impl Job<'_> {
    /// The bytes of the job. They hold the keys: whoever keeps them has to clear them.
    ///
    /// # Errors
    ///
    /// A field holds at most 65,535 bytes.
    pub fn to_bytes(&self) -> Result<Vec<u8>, FieldTooLong> {
        let fields: [&[u8]; 5] = [self.keys, &[self.mode.code()], &[self.direction as u8], self.initial_values, self.data];
        let mut job = Vec::with_capacity(fields.iter().map(|field| 3 + field.len()).sum());
        for (tag, field) in (1..).zip(fields) {
            let length = u16::try_from(field.len()).map_err(|_| FieldTooLong { tag, length: field.len() })?;
            job.push(tag);
            job.extend_from_slice(&length.to_be_bytes());
            job.extend_from_slice(field);
        }
        Ok(job)
    }
}

/// A field that is longer than the format can say.
#[derive(Clone, Copy, Debug, PartialEq, Eq)]
pub struct FieldTooLong {
    /// The field's tag.
    pub tag: u8,
    /// Its length.
    pub length: usize,
}

impl fmt::Display for FieldTooLong {
    fn fmt(&self, f: &mut fmt::Formatter<'_>) -> fmt::Result {
        write!(f, "field {} has {} bytes; a field holds at most 65,535", self.tag, self.length)
    }
}

impl Error for FieldTooLong {}

#[cfg(test)]
mod tests {
    use super::*;

    fn job(data: &[u8]) -> Job<'_> {
        Job { keys: &[0x13; 8], mode: Mode::Cfb8, direction: Direction::Decipher, initial_values: &[9; 8], data }
    }

    #[test]
    fn fields_stand_in_order() {
        let mut expected = vec![1, 0, 8];
        expected.extend([0x13; 8]);
        expected.extend([2, 0, 1, 5, 3, 0, 1, 2, 4, 0, 8]);
        expected.extend([9; 8]);
        expected.extend([5, 0, 2, 0xAB, 0xCD]);
        assert_eq!(job(&[0xAB, 0xCD]).to_bytes(), Ok(expected));
    }

    #[test]
    fn the_longest_field_can_be_written() {
        let data = vec![0; 65_536];
        let bytes = job(&data[1..]).to_bytes().expect("65,535 bytes fit");
        assert_eq!(bytes.len(), 3 + 8 + 4 + 4 + 3 + 8 + 3 + 65_535);
        assert_eq!(job(&data).to_bytes(), Err(FieldTooLong { tag: 5, length: 65_536 }));
    }
}
