//! Whole numbers of any size.

use std::cmp::Ordering;

/// A whole number from 0 on: its digits to the base 2^32, the lowest first, the highest not 0.
#[derive(Clone, Debug, PartialEq, Eq)]
pub struct Natural(Vec<u32>);

impl Natural {
    /// The number of these digits, the highest of which may be 0.
    fn of_digits(mut digits: Vec<u32>) -> Natural {
        while digits.last() == Some(&0) {
            digits.pop();
        }
        Natural(digits)
    }

    /// The product.
    pub fn times(&self, other: &Natural) -> Natural {
        let mut digits = vec![0; self.0.len() + other.0.len()];
        for (place, &digit) in self.0.iter().enumerate() {
            let mut carry = 0;
            for (sum, &other) in digits[place..].iter_mut().zip(&other.0) {
                // at most 2^64 - 1
                let exact = u64::from(*sum) + u64::from(digit) * u64::from(other) + carry;
                (*sum, carry) = (exact as u32, exact >> 32);
            }
            digits[place + other.0.len()] = carry as u32;
        }
        Natural::of_digits(digits)
    }

    /// The power; 1 for the exponent 0.
    pub fn to_the_power(&self, exponent: u32) -> Natural {
        if exponent == 0 {
            return Natural::from(1);
        }
        let half = self.to_the_power(exponent / 2);
        let square = half.times(&half);
        match exponent % 2 {
            0 => square,
            _ => square.times(self),
        }
    }
}

impl From<u32> for Natural {
    fn from(number: u32) -> Natural {
        Natural::of_digits(vec![number])
    }
}

impl Ord for Natural {
    fn cmp(&self, other: &Natural) -> Ordering {
        let by_length = self.0.len().cmp(&other.0.len());
        by_length.then_with(|| self.0.iter().rev().cmp(other.0.iter().rev()))
    }
}

impl PartialOrd for Natural {
    fn partial_cmp(&self, other: &Natural) -> Option<Ordering> {
        Some(self.cmp(other))
    }
}

#[cfg(test)]
mod tests {
    use super::Natural;

    fn of(number: u128) -> Natural {
        Natural::of_digits((0..4).map(|place| (number >> (32 * place)) as u32).collect())
    }

    const SOME: [u64; 10] =
        [0, 1, 2, 10, 65_536, 0xffff_ffff, 1 << 32, (1 << 32) + 1, 1 << 63, u64::MAX];

    #[test]
    fn products_are_exact() {
        for (one, other) in SOME.into_iter().flat_map(|one| SOME.map(|other| (one, other))) {
            let product = u128::from(one) * u128::from(other);
            assert_eq!(of(one.into()).times(&of(other.into())), of(product), "{one} times {other}");
        }
    }

    #[test]
    fn powers_are_exact() {
        for (base, most) in [(0, 9), (1, 9), (2, 127), (3, 80), (10, 38), (11_220_184, 5)] {
            for exponent in 0..=most {
                let power = of(u128::from(base).pow(exponent));
                assert_eq!(
                    Natural::from(base).to_the_power(exponent),
                    power,
                    "{base} to the power {exponent}"
                );
            }
        }
    }

    /// Beyond 128 bits: a power of ten is a product of two others.
    #[test]
    fn large_powers_multiply() {
        let ten = |exponent| Natural::from(10).to_the_power(exponent);
        for exponent in [39, 200, 600, 1005] {
            assert_eq!(ten(exponent).times(&ten(2010 - exponent)), ten(2010), "{exponent}");
        }
        assert_eq!(Natural::from(2).to_the_power(3200).0, [vec![0; 100], vec![1]].concat());
    }

    #[test]
    fn numbers_are_in_order() {
        let ordered = |one: u64, other: u64| of(one.into()).cmp(&of(other.into()));
        for (one, other) in SOME.into_iter().flat_map(|one| SOME.map(|other| (one, other))) {
            assert_eq!(ordered(one, other), one.cmp(&other), "{one} and {other}");
        }
    }
}
