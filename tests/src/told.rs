//! Answers in a line of text, as tables of expected answers have them.

use crate::answer::{Answer, Call};
use crate::both::both;
use crate::reader::origin::letter;
use crate::reader::{Description, Row};
use std::fmt::Display;

fn joined<T: Display>(parts: impl IntoIterator<Item = T>) -> String {
    parts.into_iter().map(|part| part.to_string()).collect::<Vec<_>>().join(" ")
}

/// Start, header length, data length, kind, sequence, instance, memory.
fn row(r: &Row) -> String {
    let place = joined([r.start, r.header_length, r.data_length]);
    format!("{place} {} {} {} {}", r.kind, r.sequence, r.instance, r.memory)
}

/// Type, order, compression, N, Dims, configuration, orientation, offset, and the letters of the seven fields' origins.
fn description(d: &Description) -> String {
    let (codes, dims) = (joined([d.data_type, d.order, d.compression, d.n]), joined([d.dim_1, d.dim_2, d.dim_3]));
    let letters: String = d.origins.map(letter).iter().collect();
    format!("{codes} {dims} {} {} {} {letters}", d.configuration, d.orientation, d.offset)
}

/// The names of a real's units, by their numbers.
const UNITS: [&str; 4] = ["number", "metres", "degrees", "radians"];

/// An answer; bytes are numbers, and a float is its value.
pub fn told(answer: &Answer) -> String {
    match answer {
        Answer::Rows(rows) => rows.iter().map(row).collect::<Vec<_>>().join(" | "),
        Answer::Place { start, length } => joined([start, length]),
        Answer::Bytes(bytes) => joined(bytes),
        Answer::Number(number) => number.to_string(),
        Answer::Real { unit, bits } => format!("{} {:?}", UNITS[usize::from(*unit)], f64::from_bits(*bits)),
        Answer::Description(d) => description(d),
        Answer::Unsigned(value) => format!("unsigned {value}"),
        Answer::Signed(value) => format!("signed {value}"),
        Answer::Float32(bits) => format!("float32 {:?}", bits.map_or(f32::NAN, f32::from_bits)),
        Answer::Float64(bits) => format!("float64 {:?}", bits.map_or(f64::NAN, f64::from_bits)),
        Answer::Failed { code, position } => format!("refused {code} {position}"),
        Answer::Stored { .. } | Answer::Broken(_) => format!("{answer:?}"),
    }
}

/// The second reader and the library both answer so.
pub fn expect(file: &[u8], call: Call, expected: &str) {
    let name = String::from_utf8_lossy(&file[..file.len().min(512)]).trim_end_matches(['\n', '}', ' ']).to_string();
    assert_eq!(told(&both(file, &call)), expected, "{call:?} on {name}");
}
