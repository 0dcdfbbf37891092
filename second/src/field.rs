//! Bytes as elements of the field of 256: polynomials over two elements
//! modulo x^8 + x^4 + x^3 + x^2 + 1. No tables: shift and reduce.

const MODULUS: u16 = 0x11D;

pub fn add(a: u8, b: u8) -> u8 {
    a ^ b
}

/// The product of the polynomials, reduced from its highest bit down.
pub fn multiply(a: u8, b: u8) -> u8 {
    let mut product: u16 = 0;
    for bit in 0..8 {
        if b >> bit & 1 == 1 {
            product ^= u16::from(a) << bit;
        }
    }
    for bit in (8..15).rev() {
        if product >> bit & 1 == 1 {
            product ^= MODULUS << (bit - 8);
        }
    }
    product as u8
}

/// The byte whose product with `a` is 1: the power 254 of `a`, as the power
/// 255 of every byte but 0 is 1.
pub fn inverse(a: u8) -> u8 {
    assert!(a != 0, "zero has no inverse");
    let mut square = a;
    let mut power = 1;
    for _ in 0..7 {
        square = multiply(square, square);
        power = multiply(power, square);
    }
    power
}

/// The sum of the products of two lists, element by element.
pub fn dot(a: &[u8], b: &[u8]) -> u8 {
    assert_eq!(a.len(), b.len());
    a.iter()
        .zip(b)
        .fold(0, |sum, (&x, &y)| add(sum, multiply(x, y)))
}

#[cfg(test)]
mod tests {
    use super::*;

    #[test]
    fn worked_products() {
        let products = [
            (27, 128, 1),
            (84, 129, 1),
            (161, 130, 1),
            (29, 131, 1),
            (2, 128, 29),
            (0, 200, 0),
        ];
        for (a, b, product) in products {
            assert_eq!(multiply(a, b), product);
            assert_eq!(multiply(b, a), product);
        }
    }

    #[test]
    fn every_other_byte_has_an_inverse() {
        for a in 1..=255 {
            assert_eq!(multiply(a, inverse(a)), 1);
            assert_eq!(multiply(a, 1), a);
            assert_eq!(multiply(a, 0), 0);
        }
    }

    #[test]
    fn powers_of_two_run_through_all() {
        let mut seen = [false; 256];
        let mut power = 1;
        for _ in 0..255 {
            assert!(!seen[power as usize]);
            seen[power as usize] = true;
            power = multiply(power, 2);
        }
        assert_eq!(power, 1);
        assert!(!seen[0]);
    }

    #[test]
    fn products_distribute() {
        for a in 0..=255u8 {
            for b in (0..=255u8).step_by(7) {
                for c in (0..=255u8).step_by(11) {
                    let left = multiply(a, add(b, c));
                    assert_eq!(left, add(multiply(a, b), multiply(a, c)));
                    assert_eq!(multiply(multiply(a, b), c), multiply(a, multiply(b, c)));
                }
            }
        }
    }
}
