//! Whole numbers.

/// The greatest common divisor of two numbers, not both zero, neither below zero.
pub fn gcd(a: i64, b: i64) -> i64 {
    if b == 0 {
        a
    } else {
        gcd(b, a % b)
    }
}

/// The least common multiple of two numbers of at least 1.
pub fn lcm(a: i64, b: i64) -> i64 {
    a / gcd(a, b) * b
}

/// The quotient rounded up; the divisor is at least 1.
pub fn ceil_div(a: i64, b: i64) -> i64 {
    -(-a).div_euclid(b)
}

#[cfg(test)]
mod tests {
    use super::*;

    #[test]
    fn quotients_round_up() {
        let quotients: Vec<i64> = (-4..=4).map(|a| ceil_div(a, 3)).collect();
        assert_eq!(quotients, [-1, -1, 0, 0, 0, 1, 1, 1, 2]);
    }

    #[test]
    fn divisors_and_multiples() {
        assert_eq!(gcd(12, 18), 6);
        assert_eq!(gcd(7, 1), 1);
        assert_eq!(lcm(4, 6), 12);
        assert_eq!(lcm(1_048_575, 1_000_000), 1_048_575 / 25 * 1_000_000);
    }
}
