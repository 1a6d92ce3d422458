//! The square root of a machine that has none: one binary digit after the other, by comparisons, shifts, additions and
//! subtractions of 32-bit numbers. ../../common.sh puts `digits` in the place of `sqrt` in a second copy of the published
//! files, which ../../bench times beside the first.
pub trait Digits {
    /// What `sqrt` gives.
    fn digits(self) -> Self;
}

impl Digits for f32 {
    #[inline]
    fn digits(self) -> f32 {
        let word = self.to_bits();
        if (1..f32::INFINITY.to_bits()).contains(&word) {
            return f32::from_bits(root_of(word));
        }
        // The zeros, +infinity and the NaNs are their own roots.
        if self < 0.0 {
            f32::NAN
        } else {
            self
        }
    }
}

/// The pattern of the nearest root of a positive finite number, from that number's.
#[inline]
fn root_of(word: u32) -> u32 {
    let field = word >> 23;
    // The number is significand * 2^(power - 275), its significand of 24 digits.
    let (significand, power) = if field == 0 {
        let shift = word.leading_zeros() - 8;
        (word << shift, 126 - shift)
    } else {
        (word & 0x7F_FFFF | 0x80_0000, field + 125)
    };
    // Doubled where the exponent asks for it, so that what is left of that can be halved.
    let mut rest = significand << (power & 1);
    // The digits found so far, doubled: with the place of the next, they have to fit into the rest for that to be 1.
    let mut twice = 0;
    let mut digit = 0x80_0000;
    while digit > 0 {
        let trial = twice + digit;
        // In this order both come to moves on one condition, and to no branch: a digit can't be predicted.
        if rest < trial {
            rest += rest;
        } else {
            rest -= trial;
            rest += rest;
            twice = trial + digit;
        }
        digit >>= 1;
    }
    // No root lies half way between two numbers. Its first digit, which no pattern has, makes the exponent one more.
    let nearest = (twice >> 1) + u32::from(rest > twice);
    ((power >> 1) << 23) + nearest
}

/// Of every `step`-th pattern, the first number whose root `sqrt` says to be another.
pub fn first_difference(step: usize) -> Option<f32> {
    let agree = |x: f32| {
        let (got, wanted) = (x.digits(), x.sqrt());
        got.to_bits() == wanted.to_bits() || got.is_nan() && wanted.is_nan()
    };
    let mut numbers = (0..=u32::MAX).step_by(step).map(f32::from_bits);
    numbers.find(|&x| !agree(x))
}

#[cfg(test)]
mod tests {
    use super::*;

    #[test]
    fn a_sample() {
        assert_eq!(first_difference(4099), None);
    }

    #[test]
    #[ignore = "it takes minutes"]
    fn every_pattern() {
        assert_eq!(first_difference(1), None);
    }
}
