//! Numbers, floats and sequences as bytes: short where they are small, a run of zeros in one byte, and zeros after the end.

/// The bytes of an input, taken from the front.
pub struct Bytes<'a>(pub &'a [u8]);

/// The first byte of a number that is not small.
const NEAR_POWER: u8 = 216;
const TWO_BYTES: u8 = 217;
const FOUR_BYTES: u8 = 218;
/// In a sequence the bytes above are runs of zeros, four a step.
const ZEROS: u8 = 218;
const RUN: usize = 4;

/// The first byte of a float: quarters around 0, then these.
const QUARTERS: u8 = 160;
const WHOLE: u8 = 200;
const NEGATIVE: u8 = 220;
const SPECIAL: u8 = 236;

const SPECIALS: [f32; 16] = [
    -0.0,
    f32::INFINITY,
    f32::NEG_INFINITY,
    f32::NAN,
    f32::MAX,
    f32::MIN,
    f32::MIN_POSITIVE,
    1e-45,
    0.1,
    0.01,
    8_388_607.0,
    8_388_608.0,
    9_223_372e12,
    18_446_744e12,
    2.938_736e-39,
    0.300_000_01,
];

/// No sequence has more cells.
const MOST: usize = 6000;

impl Bytes<'_> {
    pub fn byte(&mut self) -> u8 {
        match self.0.split_first() {
            None => 0,
            Some((&first, rest)) => {
                self.0 = rest;
                first
            }
        }
    }

    pub fn flag(&mut self) -> bool {
        self.byte() % 2 == 1
    }

    fn word(&mut self) -> u32 {
        u32::from_le_bytes([0; 4].map(|_: u8| self.byte()))
    }

    pub fn number(&mut self) -> u32 {
        let first = self.byte();
        self.number_from(first)
    }

    fn number_from(&mut self, first: u8) -> u32 {
        match first {
            NEAR_POWER => {
                let power = 1u64 << (self.byte() % 33);
                let near = i64::from(self.byte() as i8);
                power.wrapping_add_signed(near) as u32
            }
            TWO_BYTES => u16::from_le_bytes([self.byte(), self.byte()]).into(),
            FOUR_BYTES => self.word(),
            small => small.into(),
        }
    }

    pub fn signed(&mut self) -> i32 {
        model::list::unpack(self.number())
    }

    pub fn float(&mut self) -> f32 {
        match self.byte() {
            first if first < QUARTERS => (f32::from(first) - 80.0) / 4.0,
            first if first < WHOLE => self.number() as f32,
            first if first < NEGATIVE => -(self.number() as f32),
            first if first < SPECIAL => SPECIALS[usize::from(first - NEGATIVE)],
            _ => f32::from_bits(self.word()),
        }
    }

    /// A length, cut where it would be slow.
    pub fn length(&mut self, most: usize) -> usize {
        (self.number() as usize).min(most)
    }

    pub fn numbers(&mut self) -> Vec<u32> {
        let length = self.length(MOST);
        let mut values = Vec::with_capacity(length);
        while values.len() < length {
            match self.byte() {
                run if run > ZEROS => {
                    values.resize(values.len() + RUN * usize::from(run - ZEROS), 0)
                }
                first => values.push(self.number_from(first)),
            }
        }
        values.truncate(length);
        values
    }

    pub fn signed_numbers(&mut self) -> Vec<i32> {
        self.numbers()
            .into_iter()
            .map(model::list::unpack)
            .collect()
    }

    pub fn floats(&mut self) -> Vec<f32> {
        let length = self.length(MOST);
        (0..length).map(|_| self.float()).collect()
    }
}

/// The bytes that are taken apart as above.
#[derive(Default)]
pub struct Put(pub Vec<u8>);

impl Put {
    pub fn byte(&mut self, byte: u8) {
        self.0.push(byte);
    }

    pub fn number(&mut self, value: u32) {
        match (u8::try_from(value), u16::try_from(value)) {
            (Ok(small), _) if small < NEAR_POWER => self.byte(small),
            (_, Ok(short)) => {
                self.byte(TWO_BYTES);
                self.0.extend(short.to_le_bytes());
            }
            _ => {
                self.byte(FOUR_BYTES);
                self.0.extend(value.to_le_bytes());
            }
        }
    }

    pub fn signed(&mut self, value: i32) {
        self.number(model::list::pack(value));
    }

    pub fn float(&mut self, value: f32) {
        let quarter = value * 4.0 + 80.0;
        let byte = quarter as u8;
        if byte < QUARTERS && f32::from(byte) == quarter && value.to_bits() != (-0.0f32).to_bits() {
            return self.byte(byte);
        }
        self.byte(SPECIAL);
        self.0.extend(value.to_bits().to_le_bytes());
    }

    pub fn numbers(&mut self, values: &[u32]) {
        self.number(values.len() as u32);
        let mut rest = values;
        while let Some(&first) = rest.first() {
            let zeros = rest.iter().take_while(|&&value| value == 0).count();
            let steps = (zeros / RUN).min(usize::from(u8::MAX - ZEROS));
            if steps > 0 {
                self.byte(ZEROS + steps as u8);
                rest = &rest[RUN * steps..];
            } else {
                self.number(first);
                rest = &rest[1..];
            }
        }
    }

    pub fn signed_numbers(&mut self, values: &[i32]) {
        let packed: Vec<u32> = values
            .iter()
            .map(|&value| model::list::pack(value))
            .collect();
        self.numbers(&packed);
    }

    pub fn floats(&mut self, values: &[f32]) {
        self.number(values.len() as u32);
        values.iter().for_each(|&value| self.float(value));
    }
}

#[cfg(test)]
mod tests {
    use super::*;

    #[test]
    fn what_is_put_is_taken() {
        let numbers = [
            0,
            0,
            0,
            0,
            0,
            7,
            215,
            216,
            255,
            256,
            65535,
            65536,
            u32::MAX,
            0,
            0,
        ];
        let signed = [0, -1, 1, i32::MIN, i32::MAX, 300, 0, 0, 0, 0];
        let floats = [
            0.0,
            -0.0,
            1.25,
            -20.0,
            19.75,
            20.0,
            1e30,
            f32::INFINITY,
            0.1,
        ];
        let mut put = Put::default();
        put.numbers(&numbers);
        put.signed_numbers(&signed);
        put.floats(&floats);
        let mut bytes = Bytes(&put.0);
        assert_eq!(bytes.numbers(), numbers);
        assert_eq!(bytes.signed_numbers(), signed);
        let bits = |floats: &[f32]| floats.iter().map(|x| x.to_bits()).collect::<Vec<_>>();
        assert_eq!(bits(&bytes.floats()), bits(&floats));
        assert!(bytes.0.is_empty());
    }
}
