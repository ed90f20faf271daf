//! Random numbers that a seed repeats (splitmix64).

pub struct Rng(u64);

impl Rng {
    pub fn new(seed: u64) -> Rng {
        Rng(seed)
    }

    /// One of many generators of a seed, by its number.
    pub fn stream(seed: u64, number: u64) -> Rng {
        let (a, b) = (Rng(seed).next(), Rng(!number).next());
        Rng(a ^ b.rotate_left(32))
    }

    fn next(&mut self) -> u64 {
        self.0 = self.0.wrapping_add(0x9E37_79B9_7F4A_7C15);
        let z = (self.0 ^ (self.0 >> 30)).wrapping_mul(0xBF58_476D_1CE4_E5B9);
        let z = (z ^ (z >> 27)).wrapping_mul(0x94D0_49BB_1331_11EB);
        z ^ (z >> 31)
    }

    pub fn word(&mut self) -> u32 {
        (self.next() >> 32) as u32
    }

    pub fn flip(&mut self) -> bool {
        self.word() >> 31 != 0
    }

    /// A number below `n`, which is not 0.
    pub fn below(&mut self, n: u32) -> u32 {
        ((u64::from(self.word()) * u64::from(n)) >> 32) as u32
    }

    /// True once in `n` times.
    pub fn chance(&mut self, n: u32) -> bool {
        self.below(n) == 0
    }

    pub fn pick<T: Copy>(&mut self, from: &[T]) -> T {
        from[self.below(from.len() as u32) as usize]
    }

    /// Below `n` half the time, else any word.
    pub fn often_below(&mut self, n: u32) -> u32 {
        if self.flip() {
            self.below(n)
        } else {
            self.word()
        }
    }

    /// One of `from` a quarter of the time, else any word.
    pub fn sometimes_of(&mut self, from: &[u32]) -> u32 {
        if self.chance(4) {
            self.pick(from)
        } else {
            self.word()
        }
    }
}

#[cfg(test)]
mod tests {
    use super::*;

    #[test]
    fn gives_the_published_sequence() {
        let mut rng = Rng::new(1234567);
        let first: Vec<u64> = (0..3).map(|_| rng.next()).collect();
        assert_eq!(
            first,
            [
                6457827717110365317,
                3203168211198807973,
                9817491932198370423
            ]
        );
    }

    #[test]
    fn streams_differ_and_repeat() {
        let first = |seed, number| Rng::stream(seed, number).next();
        assert_eq!(first(1, 2), first(1, 2));
        let mut all: Vec<u64> = (0..100).map(|n| first(n / 10, n % 10)).collect();
        all.sort();
        all.dedup();
        assert_eq!(all.len(), 100);
    }

    #[test]
    fn below_reaches_all_and_no_more() {
        let mut rng = Rng::new(0);
        let mut seen = [false; 5];
        for _ in 0..1000 {
            seen[rng.below(5) as usize] = true;
        }
        assert_eq!(seen, [true; 5]);
    }
}
