//! A small generator of random numbers (splitmix64), so that a run depends on its seed alone.

pub struct Random {
    state: u64,
}

impl Random {
    pub fn seeded(seed: u64) -> Random {
        Random { state: seed }
    }

    fn next(&mut self) -> u64 {
        self.state = self.state.wrapping_add(0x9e37_79b9_7f4a_7c15);
        let mixed = (self.state ^ (self.state >> 30)).wrapping_mul(0xbf58_476d_1ce4_e5b9);
        let mixed = (mixed ^ (mixed >> 27)).wrapping_mul(0x94d0_49bb_1331_11eb);
        mixed ^ (mixed >> 31)
    }

    /// A whole number from `least` to `greatest`, both allowed.
    pub fn between(&mut self, least: i32, greatest: i32) -> i32 {
        assert!(least <= greatest, "nothing lies between {least} and {greatest}");
        let choices = (greatest as i64 - least as i64 + 1) as u64;
        (least as i64 + (self.next() % choices) as i64) as i32
    }

    pub fn one_of(&mut self, choices: &[i32]) -> i32 {
        choices[self.between(0, choices.len() as i32 - 1) as usize]
    }

    pub fn coin(&mut self) -> bool {
        self.next() >> 63 == 1
    }

    pub fn sign(&mut self) -> i32 {
        if self.coin() {
            1
        } else {
            -1
        }
    }

    /// `low` and `high` of a pair drawn between two numbers.
    pub fn ordered(&mut self, least: i32, greatest: i32) -> (i32, i32) {
        let (one, other) = (self.between(least, greatest), self.between(least, greatest));
        (one.min(other), one.max(other))
    }

    /// A place in a list of so many.
    pub fn place(&mut self, places: usize) -> usize {
        assert!(places > 0, "no place in an empty list");
        (self.next() % places as u64) as usize
    }

    pub fn shuffle<T>(&mut self, list: &mut [T]) {
        for last in (1..list.len()).rev() {
            list.swap(last, self.place(last + 1));
        }
    }

    /// A word of any value; small ones and the ends of the type come up often.
    pub fn rubbish(&mut self) -> i32 {
        match self.between(0, 5) {
            0 => self.between(-3, 12),
            1 => self.one_of(&[i32::MIN, i32::MAX, -1, 0]),
            _ => self.between(i32::MIN, i32::MAX),
        }
    }

    pub fn rubbish_words(&mut self, count: usize) -> Vec<i32> {
        (0..count).map(|_| self.rubbish()).collect()
    }

    pub fn rubbish_bytes(&mut self, count: usize) -> Vec<u8> {
        (0..count).map(|_| self.between(0, 255) as u8).collect()
    }
}
