//! Small random numbers (splitmix64), the same on every machine.

/// A stream of numbers, fixed by a name and a seed.
#[derive(Clone, Debug)]
pub struct Random {
    state: u64,
}

impl Random {
    /// Streams of different names, or of different seeds, have nothing to do with each other.
    pub fn new(name: &str, seed: u64) -> Random {
        let named = name.bytes().fold(0xcbf2_9ce4_8422_2325, |hash, byte| {
            mixed(hash ^ u64::from(byte))
        });
        Random {
            state: mixed(named ^ mixed(seed)),
        }
    }

    pub fn next(&mut self) -> u64 {
        self.state = self.state.wrapping_add(0x9e37_79b9_7f4a_7c15);
        mixed(self.state)
    }

    /// From 0 up to but not including n, which is above 0.
    pub fn below(&mut self, n: u64) -> u64 {
        self.next() % n
    }

    /// From the first through the last.
    pub fn within(&mut self, first: i64, last: i64) -> i64 {
        first + self.below((last - first + 1) as u64) as i64
    }

    /// True once in n times.
    pub fn once_in(&mut self, n: u64) -> bool {
        self.below(n) == 0
    }

    pub fn pick<T: Copy>(&mut self, choices: &[T]) -> T {
        choices[self.below(choices.len() as u64) as usize]
    }

    /// From the first up to the last, evenly.
    pub fn between(&mut self, first: f32, last: f32) -> f32 {
        let part = self.below(1 << 24) as f32 / (1 << 24) as f32;
        first + (last - first) * part
    }

    /// A signed number of every size: as many small ones as great ones.
    pub fn any_i32(&mut self) -> i32 {
        let shift = self.below(32) as u32;
        (self.next() as u32 as i32) >> shift
    }

    /// A float of any kind: whole and half numbers, powers of two and their neighbours, any bits, infinities, NaN.
    pub fn any_f32(&mut self) -> f32 {
        match self.below(8) {
            0 => self.within(-20, 20) as f32 / 2.0,
            1 => self.any_i32() as f32,
            2 | 3 => self.near_power_of_two(),
            4 => self.pick(&[0.0, -0.0, 1.0, -1.0, 0.01, f32::MIN_POSITIVE, 1e-45, -1e-45]),
            5 => self.pick(&[
                f32::INFINITY,
                f32::NEG_INFINITY,
                f32::NAN,
                f32::MAX,
                f32::MIN,
            ]),
            6 => self.between(-300.0, 300.0),
            _ => f32::from_bits(self.next() as u32),
        }
    }

    /// A power of two of either sign, or a neighbour of one.
    fn near_power_of_two(&mut self) -> f32 {
        let power = self.pick(&[
            -149, -128, -126, -24, -1, 0, 1, 8, 22, 23, 24, 31, 32, 62, 63, 64, 127,
        ]);
        let bits = 2f64.powi(power) as f32;
        let near = bits.to_bits().wrapping_add(self.within(-2, 2) as u32);
        let sign = (self.below(2) as u32) << 31;
        f32::from_bits(near & 0x7fff_ffff | sign)
    }
}

fn mixed(x: u64) -> u64 {
    let x = (x ^ x >> 30).wrapping_mul(0xbf58_476d_1ce4_e5b9);
    let x = (x ^ x >> 27).wrapping_mul(0x94d0_49bb_1331_11eb);
    x ^ x >> 31
}
