//! Calls of the interface and their answers, in a form that two readers share.

use crate::reader;
use crate::reader::{Description, Frame, Row};

/// A call of the interface on a file.
#[derive(Clone, Debug, PartialEq)]
pub enum Call {
    Open { rows: usize },
    Find { block: usize, key: Vec<u8> },
    Part { start: usize, length: usize },
    WholeNumber { block: usize, key: Vec<u8> },
    Real { block: usize, key: Vec<u8> },
    Text { block: usize, key: Vec<u8>, room: usize },
    Describe { block: usize },
    ReadArray { block: usize, order: u8, room: usize },
    StoredArray { block: usize, order: u8 },
    ReadPixel { block: usize, i1: usize, i2: usize, i3: usize },
    Escape { text: Vec<u8>, room: usize },
    Unescape { value: Vec<u8>, room: usize },
    Write { frame: Frame, title: Vec<u8>, pixels: Vec<u8>, room: usize },
    List { room: usize },
    /// The lister itself, with the file as its input.
    Print,
}

/// An answer of one call. Floats of pixels are their bits, and none for NaN: "compare as is NaN only".
#[derive(Clone, Debug, PartialEq)]
pub enum Answer {
    Rows(Vec<Row>),
    Place { start: usize, length: usize },
    Bytes(Vec<u8>),
    Number(i64),
    /// A real: 0 for a bare number, 1 for metres, 2 for degrees, 3 for radians, and the bits of its float.
    Real { unit: u8, bits: u64 },
    Description(Description),
    /// Where an array stands in its file; its bytes where they stand there as they are delivered.
    Stored { description: Description, start: usize, length: usize, delivered: Option<Vec<u8>> },
    Unsigned(u64),
    Signed(i64),
    Float32(Option<u32>),
    Float64(Option<u64>),
    Failed { code: u8, position: usize },
    /// No answer that a call may give, and why.
    Broken(&'static str),
}

pub fn float_32(value: f32) -> Answer {
    Answer::Float32(Some(value).filter(|value| !value.is_nan()).map(f32::to_bits))
}

pub fn float_64(value: f64) -> Answer {
    Answer::Float64(Some(value).filter(|value| !value.is_nan()).map(f64::to_bits))
}

/// Makes the function that answers a call with the reader in module `$reader`.
#[macro_export]
macro_rules! answer_function {
    ($name:ident, $reader:ident) => {
        pub fn $name(file: &[u8], call: &$crate::answer::Call) -> $crate::answer::Answer {
            use $crate::answer::{float_32, float_64, Answer, Call};
            use $crate::reader::{Description, Origin, Row};
            let row = |r: &$reader::Row| Row {
                start: r.start,
                header_length: r.header_length,
                data_length: r.data_length,
                kind: r.kind,
                sequence: r.sequence,
                instance: r.instance,
                memory: r.memory,
            };
            let origin = |o: $reader::Origin| match o {
                $reader::Origin::Own => Origin::Own,
                $reader::Origin::General => Origin::General,
                $reader::Origin::Default => Origin::Default,
            };
            let description = |d: $reader::Description| Description {
                data_type: d.data_type,
                order: d.order,
                compression: d.compression,
                n: d.n,
                dim_1: d.dim_1,
                dim_2: d.dim_2,
                dim_3: d.dim_3,
                configuration: d.configuration,
                orientation: d.orientation,
                offset: d.offset,
                origins: d.origins.map(origin),
            };
            let pixel = |p: $reader::Pixel| match p {
                $reader::Pixel::Unsigned(value) => Answer::Unsigned(value),
                $reader::Pixel::Signed(value) => Answer::Signed(value),
                $reader::Pixel::Float32(value) => float_32(value),
                $reader::Pixel::Float64(value) => float_64(value),
            };
            let real = |r: $reader::Real| match r {
                $reader::Real::Number(value) => Answer::Real { unit: 0, bits: value.to_bits() },
                $reader::Real::Metres(value) => Answer::Real { unit: 1, bits: value.to_bits() },
                $reader::Real::Degrees(value) => Answer::Real { unit: 2, bits: value.to_bits() },
                $reader::Real::Radians(value) => Answer::Real { unit: 3, bits: value.to_bits() },
            };
            let answer = match call {
                Call::Open { rows } => {
                    $reader::open(file, *rows).map(|table| Answer::Rows(table.iter().map(row).collect()))
                }
                Call::Find { block, key } => $reader::find(file, *block, key)
                    .map(|span| Answer::Place { start: span.start, length: span.length }),
                Call::Part { start, length } => {
                    let span = $reader::Span { start: *start, length: *length };
                    Ok(Answer::Bytes($reader::part(file, span).to_vec()))
                }
                Call::WholeNumber { block, key } => $reader::whole_number(file, *block, key).map(Answer::Number),
                Call::Real { block, key } => $reader::real(file, *block, key).map(real),
                Call::Text { block, key, room } => $reader::text(file, *block, key, *room).map(Answer::Bytes),
                Call::Describe { block } => {
                    $reader::describe(file, *block).map(|d| Answer::Description(description(d)))
                }
                Call::ReadArray { block, order, room } => {
                    $reader::read_array(file, *block, *order, *room).map(Answer::Bytes)
                }
                Call::StoredArray { block, order } => $reader::stored_array(file, *block, *order).map(|a| Answer::Stored {
                    description: description(a.description),
                    start: a.start,
                    length: a.length,
                    delivered: a.delivered,
                }),
                Call::ReadPixel { block, i1, i2, i3 } => {
                    $reader::read_pixel(file, *block, *i1, *i2, *i3).map(pixel)
                }
                Call::Escape { text, room } => $reader::escape(text, *room).map(Answer::Bytes),
                Call::Unescape { value, room } => $reader::unescape(value, *room).map(Answer::Bytes),
                Call::Write { frame, title, pixels, room } => {
                    let frame = $reader::Frame {
                        sequence: frame.sequence,
                        instance: frame.instance,
                        memory: frame.memory,
                        data_type: frame.data_type,
                        order: frame.order,
                        n: frame.n,
                        dim_1: frame.dim_1,
                        dim_2: frame.dim_2,
                        dim_3: frame.dim_3,
                        configuration: frame.configuration,
                    };
                    $reader::write(frame, title, pixels, *room).map(Answer::Bytes)
                }
                Call::List { room } => $reader::list(file, *room).map(Answer::Bytes),
                Call::Print => Ok(Answer::Bytes($reader::printed(file))),
            };
            answer.unwrap_or_else(|e| Answer::Failed { code: e.code, position: e.position })
        }
    };
}

answer_function!(answer, reader);

#[cfg(test)]
mod tests {
    use super::*;

    #[test]
    fn nans_are_one_answer() {
        assert_eq!(float_32(f32::from_bits(0x7f80_0001)), float_32(f32::from_bits(0xffc0_0000)));
        assert_eq!(float_64(f64::NAN), Answer::Float64(None));
        assert_ne!(float_32(0.0), float_32(-0.0));
    }

    #[test]
    fn refusals_and_answers() {
        assert_eq!(answer(b"", &Call::Open { rows: 255 }), Answer::Failed { code: 2, position: 0 });
        assert_eq!(answer(b"", &Call::List { room: 12 }), Answer::Bytes(b"refused 3 0\n".to_vec()));
        assert_eq!(answer(b"", &Call::List { room: 11 }), Answer::Failed { code: 22, position: 0 });
        assert_eq!(answer(b"", &Call::Print), Answer::Bytes(b"refused 3 0\n".to_vec()));
        assert_eq!(answer(b"abc", &Call::Part { start: 1, length: 2 }), Answer::Bytes(b"bc".to_vec()));
    }
}
