//! Whole numbers of any length, for exact fractions.

use std::cmp::Ordering;

/// Low part first, without zeros at the end.
#[derive(Clone, PartialEq, Eq, Debug)]
pub struct Whole(Vec<u32>);

impl Whole {
    pub fn new(mut value: u128) -> Whole {
        let mut parts = Vec::new();
        while value > 0 {
            parts.push(value as u32);
            value >>= 32;
        }
        Whole(parts)
    }

    pub fn plus(&self, other: &Whole) -> Whole {
        let mut parts = Vec::new();
        let mut carry = 0u64;
        for index in 0..self.0.len().max(other.0.len()) {
            carry += self.part(index) + other.part(index);
            parts.push(carry as u32);
            carry >>= 32;
        }
        parts.push(carry as u32);
        Whole(parts).trimmed()
    }

    /// The other is not above this.
    pub fn minus(&self, other: &Whole) -> Whole {
        assert!(other.compare(self) != Ordering::Greater);
        let mut parts = Vec::new();
        let mut borrow = 0;
        for index in 0..self.0.len() {
            let difference = (1 << 32) + self.part(index) - other.part(index) - borrow;
            parts.push(difference as u32);
            borrow = 1 - (difference >> 32);
        }
        Whole(parts).trimmed()
    }

    pub fn times(&self, other: &Whole) -> Whole {
        let mut parts = vec![0u32; self.0.len() + other.0.len()];
        for (offset, &left) in self.0.iter().enumerate() {
            let mut carry = 0u64;
            for (index, &right) in other.0.iter().enumerate() {
                carry += left as u64 * right as u64 + parts[offset + index] as u64;
                parts[offset + index] = carry as u32;
                carry >>= 32;
            }
            parts[offset + other.0.len()] = carry as u32;
        }
        Whole(parts).trimmed()
    }

    pub fn compare(&self, other: &Whole) -> Ordering {
        self.0.len().cmp(&other.0.len()).then_with(|| self.0.iter().rev().cmp(other.0.iter().rev()))
    }

    fn part(&self, index: usize) -> u64 {
        self.0.get(index).copied().unwrap_or(0) as u64
    }

    fn trimmed(mut self) -> Whole {
        while self.0.last() == Some(&0) {
            self.0.pop();
        }
        self
    }
}

#[test]
fn agrees_with_machine_numbers() {
    let samples = [0, 1, 2, 0xffff_ffff, 0x1_0000_0000, 999_999_999_999_999_999, 0xffff_ffff_ffff_ffff];
    for left in samples {
        for right in samples {
            let (a, b) = (Whole::new(left), Whole::new(right));
            assert_eq!(a.plus(&b), Whole::new(left + right));
            assert_eq!(a.times(&b), Whole::new(left * right));
            assert_eq!(a.compare(&b), left.cmp(&right));
            if left >= right {
                assert_eq!(a.minus(&b), Whole::new(left - right));
            }
        }
    }
}
