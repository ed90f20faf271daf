//! Finding a small case that still fails, by greedy steps down.

type Smaller<'a, C> = Box<dyn Iterator<Item = C> + 'a>;

/// Takes the first smaller case that still fails, until none does.
pub fn smallest<C>(
    mut case: C,
    smaller: impl Fn(&C) -> Smaller<'_, C>,
    fails: impl Fn(&C) -> bool,
) -> C {
    loop {
        let Some(next) = smaller(&case).find(&fails) else {
            return case;
        };
        case = next;
    }
}

/// Smaller words to try, boldest first: 0, the half, one bit less, one less.
pub fn below(word: u32) -> Vec<u32> {
    if word == 0 {
        return Vec::new();
    }
    let mut words = vec![0, word / 2];
    words.extend(
        (0..32)
            .rev()
            .map(|k| word & !(1 << k))
            .filter(|&w| w != word),
    );
    words.push(word - 1);
    words
}

#[cfg(test)]
mod tests {
    use super::*;

    fn smallest_word(from: u32, fails: impl Fn(u32) -> bool) -> u32 {
        smallest(from, |&w| Box::new(below(w).into_iter()), |&w| fails(w))
    }

    #[test]
    fn words_go_down_only() {
        for word in [0, 1, 2, 0x8000_0000, 0xFFFF_FFFF] {
            assert!(below(word).iter().all(|&w| w < word));
        }
    }

    #[test]
    fn stops_at_the_least_that_fails() {
        assert_eq!(smallest_word(0xDEAD_BEEF, |w| w >= 1000), 1000);
        assert_eq!(smallest_word(0xDEAD_BEEF, |w| w & 0x0001_0001 != 0), 1);
        assert_eq!(
            smallest_word(0xFFFF_FFFF, |w| w & 0x0100_0010 == 0x0100_0010),
            0x0100_0010
        );
        assert_eq!(smallest_word(7, |_| true), 0);
    }
}
