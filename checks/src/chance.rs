//! What the tests choose by chance.

use crate::packet::{self, Fields};

/// A generator of plain pseudo-random numbers (xorshift), the same at every run.
pub struct Chance(pub u64);

impl Chance {
    fn next(&mut self) -> u64 {
        self.0 ^= self.0 << 13;
        self.0 ^= self.0 >> 7;
        self.0 ^= self.0 << 17;
        self.0
    }

    /// A number from `least` to `most`, both included.
    pub fn between(&mut self, least: u64, most: u64) -> u64 {
        least + (self.next() >> 16) % (most - least + 1)
    }

    /// A number from −limit to limit, both included.
    pub fn within(&mut self, limit: i32) -> i32 {
        (self.between(0, 2 * limit as u64) as i64 - i64::from(limit)) as i32
    }

    pub fn place(&mut self, length: usize) -> usize {
        self.between(0, length as u64 - 1) as usize
    }

    pub fn one_of<T: Copy>(&mut self, choices: &[T]) -> T {
        choices[self.place(choices.len())]
    }

    /// One of these, to be rewritten.
    pub fn one_in<'a, T>(&mut self, values: &'a mut [T]) -> &'a mut T {
        let place = self.place(values.len());
        &mut values[place]
    }

    pub fn bytes(&mut self, count: usize) -> Vec<u8> {
        (0..count).map(|_| self.next().to_le_bytes()[3]).collect()
    }

    /// Samples of 0 to 4,095, the limits more often than by chance.
    pub fn samples(&mut self, count: usize) -> Vec<u16> {
        let mut samples = Vec::new();
        for _ in 0..count {
            let within = self.between(0, 4095) as u16;
            samples.push(self.one_of(&[0, 4095, within, within, within, within]));
        }
        samples
    }

    /// The samples, each up to 3 nearer to the middle of their range.
    pub fn nearly(&mut self, samples: &[u16]) -> Vec<u16> {
        let near = |sample, by| if sample < 2048 { sample + by } else { sample - by };
        samples.iter().map(|&sample| near(sample, self.between(0, 3) as u16)).collect()
    }

    /// Any samples of 16 bits, in range or not: what a lent plane may have held before.
    pub fn any_samples(&mut self, count: usize) -> Vec<u16> {
        let mut samples = Vec::new();
        for _ in 0..count {
            let any = self.next() as u16;
            samples.push(self.one_of(&[0, 4095, 65_535, any, any, any]));
        }
        samples
    }

    /// Any numbers of 32 bits: what a work buffer may have held before.
    pub fn any_numbers(&mut self, count: usize) -> Vec<i32> {
        let mut numbers = Vec::new();
        for _ in 0..count {
            let any = self.next() as i32;
            numbers.push(self.one_of(&[i32::MIN, -1, i32::MAX, any, any, any]));
        }
        numbers
    }

    /// Any numbers of 64 bits: what a wide work buffer may have held before.
    pub fn any_wide_numbers(&mut self, count: usize) -> Vec<i64> {
        let mut numbers = Vec::new();
        for _ in 0..count {
            let any = self.next() as i64;
            numbers.push(self.one_of(&[i64::MIN, -1, i64::MAX, any, any, any]));
        }
        numbers
    }

    /// Any float: of any bits, or about as large as a sum of samples, or as small as there are.
    pub fn any_float(&mut self) -> f64 {
        let any = self.next();
        let with_exponent = |exponent: u64| any & !(0x7ff << 52) | exponent << 52;
        let (middle, small) = (self.between(1000, 1100), self.between(0, 8));
        f64::from_bits(self.one_of(&[any, with_exponent(middle), with_exponent(small)]))
    }

    pub fn layout(&mut self) -> u32 {
        self.between(0, 7) as u32
    }

    /// Fields of a frame of this size, with one round to three; the rest by chance.
    pub fn few_rounds(&mut self, width: usize, height: usize) -> Fields {
        let any = self.between(0, 4095) as u32;
        let threshold = self.one_of(&[0, 1, 20, 20, 300, any, 4094, 4095]);
        let (layout, rounds) = (self.layout(), self.one_of(&[1, 1, 2, 3]));
        Fields { width, height, layout, rounds, threshold }
    }

    /// Fields of a frame of this size, with two rounds to eight and a threshold that holds much; the layout by chance.
    pub fn several_rounds(&mut self, width: usize, height: usize) -> Fields {
        let (rounds, threshold) = (self.one_of(&[2, 3, 5, 8]), self.one_of(&[0, 0, 1, 20, 300]));
        Fields { width, height, layout: self.layout(), rounds, threshold }
    }

    /// Fields in range; width and height are 2 to 9.
    pub fn small_fields(&mut self) -> Fields {
        let within = self.between(0, 4095) as u32;
        Fields {
            width: self.between(2, 9) as usize,
            height: self.between(2, 9) as usize,
            layout: self.layout(),
            rounds: self.between(0, 64) as u32,
            threshold: self.one_of(&[0, 4095, within, within]),
        }
    }

    /// A sound packet of a small frame.
    pub fn small_packet(&mut self) -> Vec<u8> {
        let fields = self.small_fields();
        let samples = self.samples(fields.width * fields.height);
        packet::bytes(&fields, &samples)
    }

    /// The packet after 0 to 20 older bytes.
    pub fn after_older_bytes(&mut self, packet: &[u8]) -> Vec<u8> {
        let count = self.between(0, 20) as usize;
        let mut store = self.bytes(count);
        store.extend(packet);
        store
    }
}
