//! The calls of the second reader, under its names, each seen to be answered by the library in the same way.

use crate::answer::{answer, Answer, Call};
use crate::library;
use crate::reader::{self, Description, Error, Frame, Pixel, Real, Row, Span};

/// The answer that both give.
pub fn both(file: &[u8], call: &Call) -> Answer {
    let expected = answer(file, call);
    if let Some(given) = library::answer(file, call) {
        assert_eq!(given, expected, "{call:?}");
    }
    expected
}

pub fn open(file: &[u8], rows: usize) -> Result<Vec<Row>, Error> {
    both(file, &Call::Open { rows });
    reader::open(file, rows)
}

pub fn find(file: &[u8], block: usize, key: &[u8]) -> Result<Span, Error> {
    both(file, &Call::Find { block, key: key.to_vec() });
    reader::find(file, block, key)
}

pub fn part(file: &[u8], span: Span) -> &[u8] {
    both(file, &Call::Part { start: span.start, length: span.length });
    reader::part(file, span)
}

pub fn whole_number(file: &[u8], block: usize, key: &[u8]) -> Result<i64, Error> {
    both(file, &Call::WholeNumber { block, key: key.to_vec() });
    reader::whole_number(file, block, key)
}

pub fn real(file: &[u8], block: usize, key: &[u8]) -> Result<Real, Error> {
    both(file, &Call::Real { block, key: key.to_vec() });
    reader::real(file, block, key)
}

pub fn text(file: &[u8], block: usize, key: &[u8], room: usize) -> Result<Vec<u8>, Error> {
    both(file, &Call::Text { block, key: key.to_vec(), room });
    reader::text(file, block, key, room)
}

pub fn describe(file: &[u8], block: usize) -> Result<Description, Error> {
    both(file, &Call::Describe { block });
    reader::describe(file, block)
}

pub fn read_array(file: &[u8], block: usize, order: u8, room: usize) -> Result<Vec<u8>, Error> {
    both(file, &Call::ReadArray { block, order, room });
    reader::read_array(file, block, order, room)
}

pub fn stored_array(file: &[u8], block: usize, order: u8) -> Result<Option<Vec<u8>>, Error> {
    both(file, &Call::StoredArray { block, order });
    reader::stored_array(file, block, order).map(|a| a.delivered)
}

pub fn read_pixel(file: &[u8], block: usize, i1: usize, i2: usize, i3: usize) -> Result<Pixel, Error> {
    both(file, &Call::ReadPixel { block, i1, i2, i3 });
    reader::read_pixel(file, block, i1, i2, i3)
}

pub fn list(file: &[u8], room: usize) -> Result<Vec<u8>, Error> {
    both(file, &Call::List { room });
    reader::list(file, room)
}

pub fn escape(text: &[u8], room: usize) -> Result<Vec<u8>, Error> {
    both(b"", &Call::Escape { text: text.to_vec(), room });
    reader::escape(text, room)
}

pub fn unescape(value: &[u8], room: usize) -> Result<Vec<u8>, Error> {
    both(b"", &Call::Unescape { value: value.to_vec(), room });
    reader::unescape(value, room)
}

pub fn write(frame: Frame, title: &[u8], pixels: &[u8], room: usize) -> Result<Vec<u8>, Error> {
    both(b"", &Call::Write { frame, title: title.to_vec(), pixels: pixels.to_vec(), room });
    reader::write(frame, title, pixels, room)
}
