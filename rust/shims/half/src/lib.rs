//! A stand-in for half: parquet-variant 60.0.0 names `f16` and widens it, for its builders.

/// A float of sixteen bits.
#[allow(non_camel_case_types)]
#[derive(Debug, Clone, Copy, PartialEq)]
pub struct f16(pub u16);

impl From<f16> for f32 {
    fn from(half: f16) -> f32 {
        let sign = u32::from(half.0 >> 15) << 31;
        let exponent = u32::from(half.0 >> 10 & 31);
        let fraction = u32::from(half.0 & 1023);
        let magnitude = match exponent {
            0 => (fraction as f32 * 2f32.powi(-24)).to_bits(),
            31 if fraction == 0 => 0x7F80_0000,
            31 => 0x7FC0_0000 | fraction << 13,
            _ => (exponent + 112) << 23 | fraction << 13,
        };
        f32::from_bits(sign | magnitude)
    }
}

#[cfg(test)]
mod tests {
    use super::f16;

    #[test]
    fn widened() {
        let wide = |bits| f32::from(f16(bits));
        assert_eq!(wide(0x3C00), 1.0);
        assert_eq!(wide(0xC000), -2.0);
        assert_eq!(wide(0x7BFF), 65504.0);
        assert_eq!(wide(0x0001), 2f32.powi(-24));
        assert_eq!(wide(0x8000).to_bits(), (-0f32).to_bits());
        assert_eq!(wide(0xFC00), f32::NEG_INFINITY);
        assert!(wide(0x7E00).is_nan());
    }
}
