//! One pixel.

use super::array::stored;
use super::element::Form;
use super::error::{refuse, Error};
use super::orders::stored_elements;

/// "One pixel is an unsigned or signed whole number, a 32-bit or a 64-bit float."
#[derive(Clone, Copy, Debug, PartialEq)]
pub enum Pixel {
    Unsigned(u64),
    Signed(i64),
    Float32(f32),
    Float64(f64),
}

/// "Its call takes three indices, those past N being 0 (else 23)."
pub fn read_pixel(file: &[u8], block: usize, i1: usize, i2: usize, i3: usize) -> Result<Pixel, Error> {
    let stored = stored(file, block)?;
    let elements = stored_elements(&stored.order, &stored.description.dims());
    match elements.iter().position(|&element| element == [i1, i2, i3]) {
        Some(place) => Ok(pixel(stored.kind.form, stored.kind.width, stored.value(place))),
        None => refuse(23, 0),
    }
}

fn pixel(form: Form, width: usize, value: i128) -> Pixel {
    match (form, width) {
        (Form::Unsigned, _) => Pixel::Unsigned(value as u64),
        (Form::Signed, _) => Pixel::Signed(value as i64),
        (Form::Float, 4) => Pixel::Float32(f32::from_bits(value as u32)),
        (Form::Float, _) => Pixel::Float64(f64::from_bits(value as u64)),
    }
}

#[cfg(test)]
mod tests {
    use super::super::samples::one_block;
    use super::*;

    fn at(more: &str, data: &[u8], i: [usize; 3]) -> Result<Pixel, (u8, usize)> {
        read_pixel(&one_block(more, data), 0, i[0], i[1], i[2]).map_err(|e| (e.code, e.position))
    }

    #[test]
    fn each_form() {
        let first = |name: &str, data: &[u8]| at(&format!("DataType={name};Dim_1=1;"), data, [0, 0, 0]).unwrap();
        assert_eq!(first("UnsignedByte", &[255]), Pixel::Unsigned(255));
        assert_eq!(first("SignedByte", &[255]), Pixel::Signed(-1));
        assert_eq!(first("Unsigned64", &[255; 8]), Pixel::Unsigned(u64::MAX));
        assert_eq!(first("Signed64", &[128, 0, 0, 0, 0, 0, 0, 0]), Pixel::Signed(i64::MIN));
        assert_eq!(first("FloatIEEE32", &1.5f32.to_be_bytes()), Pixel::Float32(1.5));
        assert_eq!(first("FloatIEEE64", &(-0.1f64).to_be_bytes()), Pixel::Float64(-0.1));
        assert!(matches!(first("FloatIEEE32", &[0x7f, 0xc0, 0, 1]), Pixel::Float32(f) if f.is_nan()));
    }

    #[test]
    fn example_configuration_6() {
        let more = "DataType=UnsignedByte;Dim_1=3;Dim_2=2;DataRasterConfiguration=6;";
        for i2 in 0..2 {
            for i1 in 0..3 {
                let value = (1 + i1 + 3 * i2) as u64;
                assert_eq!(at(more, &[3, 6, 2, 5, 1, 4], [i1, i2, 0]), Ok(Pixel::Unsigned(value)));
            }
        }
    }

    #[test]
    fn offsets() {
        let more = "DataType=UnsignedShort;Dim_1=1;DataValueOffset=10;";
        assert_eq!(at(more, &[0xff, 0xfa], [0, 0, 0]), Ok(Pixel::Unsigned(65_535)));
    }

    #[test]
    fn indices_outside() {
        let more = "DataType=UnsignedByte;Dim_1=3;Dim_2=2;";
        assert!(at(more, &[0; 6], [2, 1, 0]).is_ok());
        for outside in [[3, 0, 0], [0, 2, 0], [0, 0, 1], [usize::MAX, 0, 0]] {
            assert_eq!(at(more, &[0; 6], outside), Err((23, 0)));
        }
        assert_eq!(at("", &[], [0, 0, 0]), Err((23, 0)));
        assert_eq!(at(more, &[0; 5], [9, 9, 9]), Err((20, 0)));
    }
}
