//! Random jobs, sound and damaged, from fixed seeds.
use crate::reference::mode;

/// A small generator with a good mix; every run draws the same.
pub struct Numbers(u64);

impl Numbers {
    pub fn new(seed: u64) -> Numbers {
        Numbers(seed)
    }

    pub fn draw(&mut self) -> u64 {
        self.0 = self.0.wrapping_add(0x9E37_79B9_7F4A_7C15);
        let mixed = (self.0 ^ self.0 >> 30).wrapping_mul(0xBF58_476D_1CE4_E5B9);
        let mixed = (mixed ^ mixed >> 27).wrapping_mul(0x94D0_49BB_1331_11EB);
        mixed ^ mixed >> 31
    }

    pub fn below(&mut self, bound: usize) -> usize {
        (self.draw() % bound as u64) as usize
    }

    pub fn byte(&mut self) -> u8 {
        self.draw() as u8
    }

    pub fn bytes(&mut self, count: usize) -> Vec<u8> {
        (0..count).map(|_| self.byte()).collect()
    }

    fn one_of<T: Copy>(&mut self, choices: &[T]) -> T {
        choices[self.below(choices.len())]
    }
}

/// A job's fields before they are laid out, and the room for its output.
#[derive(Clone)]
pub struct Draft {
    pub keys: Vec<u8>,
    pub code: Vec<u8>,
    pub direction: Vec<u8>,
    pub values: Vec<u8>,
    pub data: Vec<u8>,
    pub room: usize,
}

impl Draft {
    /// A sound job of so many units.
    pub fn sound(numbers: &mut Numbers, keys: usize, code: u8, direction: u8, units: usize) -> Draft {
        let (width, values) = mode(code).map(|mode| (mode.width, mode.values)).expect("the code of a mode");
        let mut data = numbers.bytes(if width == 64 { 8 * units } else { units });
        if width == 1 {
            data.iter_mut().for_each(|byte| *byte &= 1);
        }
        Draft {
            keys: (0..8 * keys).map(|_| odd(numbers.byte())).collect(),
            code: vec![code],
            direction: vec![direction],
            values: numbers.bytes(8 * values),
            room: data.len(),
            data,
        }
    }

    pub fn bytes(&self) -> Vec<u8> {
        let fields = [&self.keys, &self.code, &self.direction, &self.values, &self.data];
        let mut job = Vec::new();
        for (tag, field) in (1..).zip(fields) {
            let length = u16::try_from(field.len()).expect("no drawn field is too long");
            job.push(tag);
            job.extend(length.to_be_bytes());
            job.extend(field);
        }
        job
    }
}

/// The byte with its lowest bit such that its count of ones is odd.
fn odd(byte: u8) -> u8 {
    byte ^ u8::from(byte.count_ones() % 2 == 0)
}

/// The bytes in hex for a message, not more than a reader can use.
pub fn shown(bytes: &[u8]) -> String {
    let front: String = bytes.iter().take(120).map(|byte| format!("{byte:02X}")).collect();
    let more = if bytes.len() > 120 { ".." } else { "" };
    format!("{front}{more} ({} bytes)", bytes.len())
}

/// A random job and the room for its output: four in ten sound, the others with up to three kinds of damage, so that the order of the checks
/// shows; and now and then a few bytes that are no job at all.
pub fn any_job(numbers: &mut Numbers) -> (Vec<u8>, usize) {
    if numbers.below(50) == 0 {
        let length = numbers.below(40);
        return (numbers.bytes(length), 64);
    }
    let damages = numbers.one_of(&[0, 0, 0, 0, 1, 1, 1, 2, 2, 3]);
    let chosen: Vec<usize> = (0..damages).map(|_| numbers.below(DAMAGES)).collect();
    damaged_job(numbers, &chosen)
}

/// How many kinds of damage there are.
pub const DAMAGES: usize = TO_FIELDS.len() + TO_BYTES.len();

/// A random job with these kinds of damage.
pub fn damaged_job(numbers: &mut Numbers, damages: &[usize]) -> (Vec<u8>, usize) {
    let mut draft = any_sound(numbers);
    for damage in damages.iter().filter_map(|&index| TO_FIELDS.get(index)) {
        damage(&mut draft, numbers);
    }
    let mut job = draft.bytes();
    for damage in damages.iter().filter_map(|&index| TO_BYTES.get(index.wrapping_sub(TO_FIELDS.len()))) {
        job = damage(job, numbers);
    }
    (job, draft.room)
}

pub fn any_sound(numbers: &mut Numbers) -> Draft {
    let keys = numbers.one_of(&[1, 3]);
    // the two of one bit more often: only they can have too wide a unit
    let code = numbers.one_of(&[1, 2, 3, 4, 5, 6, 6, 7, 8, 9, 9, 10, 11]);
    let direction = 1 + numbers.below(2) as u8;
    let most = numbers.one_of(&[1, 4, 12, 80]);
    let units = numbers.below(most + 1);
    let mut draft = Draft::sound(numbers, keys, code, direction, units);
    if numbers.below(3) == 0 {
        draft.room += numbers.below(20);
    }
    if keys == 3 && numbers.below(8) == 0 {
        // two same keys are no reason to refuse
        let (from, to) = numbers.one_of(&[(0, 8), (0, 16), (8, 16)]);
        draft.keys.copy_within(from..from + 8, to);
    }
    draft
}

type ToFields = fn(&mut Draft, &mut Numbers);
type ToBytes = fn(Vec<u8>, &mut Numbers) -> Vec<u8>;

const TO_FIELDS: [ToFields; 12] = [
    key_length,
    key_parity,
    same_keys,
    code_field,
    code,
    direction_field,
    direction,
    values_length,
    data_length,
    partial_unit,
    wide_unit,
    short_room,
];

fn key_length(draft: &mut Draft, numbers: &mut Numbers) {
    let length = numbers.one_of(&[0, 1, 7, 9, 16, 23, 25, 32, 255, 256]);
    draft.keys = (0..length).map(|_| odd(numbers.byte())).collect();
}

fn key_parity(draft: &mut Draft, numbers: &mut Numbers) {
    for _ in 0..=numbers.below(3) {
        let index = numbers.below(draft.keys.len().max(1));
        if let Some(byte) = draft.keys.get_mut(index) {
            *byte ^= 1 << numbers.below(8);
        }
    }
}

fn same_keys(draft: &mut Draft, _: &mut Numbers) {
    draft.keys.truncate(8);
    draft.keys = draft.keys.repeat(3);
}

fn code_field(draft: &mut Draft, numbers: &mut Numbers) {
    let length = numbers.one_of(&[0, 2, 3, 300]);
    draft.code = numbers.bytes(length);
}

fn code(draft: &mut Draft, numbers: &mut Numbers) {
    draft.code = vec![numbers.one_of(&[0, 12, 13, 128, 255])];
}

fn direction_field(draft: &mut Draft, numbers: &mut Numbers) {
    let length = numbers.one_of(&[0, 2, 3, 300]);
    draft.direction = numbers.bytes(length);
}

fn direction(draft: &mut Draft, numbers: &mut Numbers) {
    draft.direction = vec![numbers.one_of(&[0, 3, 4, 128, 255])];
}

fn values_length(draft: &mut Draft, numbers: &mut Numbers) {
    let length = numbers.one_of(&[0, 1, 7, 8, 9, 16, 23, 24, 25, 32, 256]);
    draft.values = numbers.bytes(length);
}

/// Too long; the longest that are taken have a test of their own, since they take their time.
fn data_length(draft: &mut Draft, numbers: &mut Numbers) {
    let length = numbers.one_of(&[32_769, 32_770, 32_776, 40_000, 65_535]);
    draft.data = numbers.bytes(length);
    draft.room = numbers.one_of(&[0, 32_768, length]);
}

fn partial_unit(draft: &mut Draft, numbers: &mut Numbers) {
    for _ in 0..=numbers.below(7) {
        draft.data.push(numbers.byte() & 1);
    }
    draft.data.truncate(65_535);
    draft.room = draft.data.len();
}

fn wide_unit(draft: &mut Draft, numbers: &mut Numbers) {
    for _ in 0..=numbers.below(2) {
        let index = numbers.below(draft.data.len().max(1));
        if let Some(byte) = draft.data.get_mut(index) {
            *byte = numbers.one_of(&[2, 3, 128, 255]);
        }
    }
}

fn short_room(draft: &mut Draft, numbers: &mut Numbers) {
    draft.room = match draft.data.len() {
        0 => 0,
        length => numbers.one_of(&[0, length / 2, length - 1]),
    };
}

const TO_BYTES: [ToBytes; 5] = [cut, flip, tag, length, trailing];

fn cut(mut job: Vec<u8>, numbers: &mut Numbers) -> Vec<u8> {
    job.truncate(numbers.below(job.len().max(1)));
    job
}

fn flip(mut job: Vec<u8>, numbers: &mut Numbers) -> Vec<u8> {
    for _ in 0..=numbers.below(3) {
        // most of a job is data; its front is where a flip does more
        let front = numbers.one_of(&[16, 64, usize::MAX]).min(job.len());
        let index = numbers.below(front.max(1));
        if let Some(byte) = job.get_mut(index) {
            *byte ^= 1 << numbers.below(8);
        }
    }
    job
}

fn tag(mut job: Vec<u8>, numbers: &mut Numbers) -> Vec<u8> {
    let start = numbers.one_of(&field_starts(&job));
    if let Some(byte) = job.get_mut(start) {
        *byte = numbers.one_of(&[0, 1, 2, 3, 4, 5, 6, 255]);
    }
    job
}

fn length(mut job: Vec<u8>, numbers: &mut Numbers) -> Vec<u8> {
    let start = numbers.one_of(&field_starts(&job));
    if let Some([high, low]) = job.get_mut(start + 1..).and_then(|rest| rest.first_chunk_mut()) {
        let claimed = u16::from_be_bytes([*high, *low]);
        let change = numbers.one_of(&[1, 2, 3, 8, 256, 0_u16.wrapping_sub(1), 0_u16.wrapping_sub(8), 0x8000]);
        [*high, *low] = claimed.wrapping_add(change).to_be_bytes();
    }
    job
}

fn trailing(mut job: Vec<u8>, numbers: &mut Numbers) -> Vec<u8> {
    let count = 1 + numbers.below(5);
    job.extend(numbers.bytes(count));
    job
}

/// Where the fields start, as far as the lengths lead; never empty.
fn field_starts(job: &[u8]) -> Vec<usize> {
    let mut starts = vec![0];
    while let Some(&[_, high, low]) = job.get(starts[starts.len() - 1]..).and_then(|rest| rest.first_chunk()) {
        starts.push(starts[starts.len() - 1] + 3 + usize::from(u16::from_be_bytes([high, low])));
    }
    starts
}
