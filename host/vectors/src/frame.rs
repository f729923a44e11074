//! The vectors' format: little-endian u32 words.
//!
//!     magic, version, number of cases
//!     for each case: kind, number of input words, number of output words, the input words, the output words
//!     the checksum of all words before it

pub const MAGIC: u32 = u32::from_le_bytes(*b"AKTV");
pub const VERSION: u32 = 1;

pub struct Case {
    pub kind: u32,
    pub input: Vec<u32>,
    pub output: Vec<u32>,
}

/// Each word in turn: the sum so far times 16777619, plus the word, modulo 2^32.
fn checksum(words: &[u32]) -> u32 {
    words.iter().fold(2_166_136_261, |sum: u32, &word| {
        sum.wrapping_mul(16_777_619).wrapping_add(word)
    })
}

pub fn encode(cases: &[Case]) -> Vec<u8> {
    let mut words = vec![MAGIC, VERSION, cases.len() as u32];
    for case in cases {
        words.extend([case.kind, case.input.len() as u32, case.output.len() as u32]);
        words.extend(&case.input);
        words.extend(&case.output);
    }
    words.push(checksum(&words));
    words.iter().flat_map(|word| word.to_le_bytes()).collect()
}

/// The cases of a file, or what is wrong with it, as a person would say it.
pub fn decode(bytes: &[u8]) -> Result<Vec<Case>, &'static str> {
    let words: Vec<u32> = bytes
        .chunks_exact(4)
        .map(|four| u32::from_le_bytes([four[0], four[1], four[2], four[3]]))
        .collect();
    if bytes.len() % 4 != 0 || words.len() < 4 {
        return Err("cut short");
    }
    if words[0] != MAGIC {
        return Err("no file of vectors");
    }
    if words[1] != VERSION {
        return Err("of another version");
    }
    let (body, sum) = words.split_at(words.len() - 1);
    let mut cases = Vec::new();
    let mut rest = &body[3..];
    for _ in 0..words[2] {
        let (case, after) = take_case(rest).ok_or("cut short")?;
        cases.push(case);
        rest = after;
    }
    if !rest.is_empty() {
        return Err("longer than its cases");
    }
    if checksum(body) != sum[0] {
        return Err("damaged");
    }
    Ok(cases)
}

fn take_case(words: &[u32]) -> Option<(Case, &[u32])> {
    let (&[kind, inputs, outputs], rest) = words.split_first_chunk::<3>()?;
    if inputs as u64 + outputs as u64 > rest.len() as u64 {
        return None;
    }
    let (input, rest) = rest.split_at(inputs as usize);
    let (output, rest) = rest.split_at(outputs as usize);
    let case = Case {
        kind,
        input: input.to_vec(),
        output: output.to_vec(),
    };
    Some((case, rest))
}
