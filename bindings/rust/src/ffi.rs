//! The calls of include/edf.h, as safe functions. The only unsafe code of this crate.
//!
//! What edf.h asks of its caller, and why it holds of each call below: the pointer of a Rust slice is never null, also where it is
//! empty, and is valid for the slice's length; a reference is never null; what a call writes to is borrowed mutably, so that it
//! overlaps nothing else, and its bytes are initialized; shared bytes do not change while they are borrowed.
#![allow(unsafe_code)]

use crate::error::Error;
use std::ffi::{c_char, CStr};

extern "C" {
    fn edf_open(
        file: *const u8, file_length: usize, rows: *mut u64, rows_length: usize, count: *mut usize, position: *mut usize,
    ) -> u8;
    fn edf_list(
        file: *const u8, file_length: usize, out: *mut u8, out_length: usize, length: *mut usize, position: *mut usize,
    ) -> u8;
    fn edf_part(file: *const u8, file_length: usize, offset: usize, length: usize) -> usize;
    fn edf_find(
        file: *const u8, file_length: usize, block: usize, key: *const u8, key_length: usize, offset: *mut usize,
        length: *mut usize, position: *mut usize,
    ) -> u8;
    fn edf_text(
        file: *const u8, file_length: usize, block: usize, key: *const u8, key_length: usize, out: *mut u8,
        out_length: usize, length: *mut usize, position: *mut usize,
    ) -> u8;
    fn edf_whole_number(
        file: *const u8, file_length: usize, block: usize, key: *const u8, key_length: usize, value: *mut i64,
        position: *mut usize,
    ) -> u8;
    fn edf_real(
        file: *const u8, file_length: usize, block: usize, key: *const u8, key_length: usize, unit: *mut u8, value: *mut f64,
        position: *mut usize,
    ) -> u8;
    fn edf_escape(
        bytes: *const u8, bytes_length: usize, out: *mut u8, out_length: usize, length: *mut usize, position: *mut usize,
    ) -> u8;
    fn edf_unescape(
        value: *const u8, value_length: usize, out: *mut u8, out_length: usize, length: *mut usize, position: *mut usize,
    ) -> u8;
    fn edf_describe(
        file: *const u8, file_length: usize, block: usize, description: *mut Fields, position: *mut usize,
    ) -> u8;
    fn edf_read_array(
        file: *const u8, file_length: usize, block: usize, order: u8, out: *mut u8, out_length: usize, length: *mut usize,
        position: *mut usize,
    ) -> u8;
    fn edf_stored_array(
        file: *const u8, file_length: usize, block: usize, order: u8, description: *mut Fields, start: *mut usize,
        length: *mut usize, delivered: *mut u8, position: *mut usize,
    ) -> u8;
    fn edf_read_pixel(
        file: *const u8, file_length: usize, block: usize, i1: usize, i2: usize, i3: usize, class: *mut u8,
        unsigned: *mut u64, signed: *mut i64, float32: *mut f32, float64: *mut f64, position: *mut usize,
    ) -> u8;
    fn edf_write(
        sequence: i64, instance: u8, memory: i64, datatype: u8, byteorder: u8, n: u8, dim1: usize, dim2: usize,
        dim3: usize, configuration: u32, title: *const u8, title_length: usize, pixels: *const u8, pixels_length: usize,
        out: *mut u8, out_length: usize, length: *mut usize, position: *mut usize,
    ) -> u8;
    fn edf_keywords(
        header: *const u8, header_length: usize, out: *mut u8, out_length: usize, length: *mut usize, position: *mut usize,
    ) -> u8;
    fn edf_words(code: u8) -> *const c_char;
    fn edf_field_name(field: usize) -> *const c_char;
    fn edf_datatype_name(datatype: u8) -> *const c_char;
    fn edf_datatype_width(datatype: u8) -> usize;
    fn edf_byteorder_name(byteorder: u8) -> *const c_char;
    fn edf_unit_name(unit: u8) -> *const c_char;
}

/// The fields of `edf_description`, in its order; `dim1`, `dim2`, `dim3` and the seven of `origins` as arrays.
#[derive(Default)]
#[repr(C)]
pub struct Fields {
    pub datatype: u64,
    pub byteorder: u64,
    pub compression: u64,
    pub n: u64,
    pub dims: [u64; 3],
    pub configuration: u64,
    pub orientation: u64,
    pub offset: i64,
    pub origins: [u64; 7],
}

/// The arguments of `edf_write` that are numbers, in its order.
pub struct Numbers {
    pub sequence: i64,
    pub instance: u8,
    pub memory: i64,
    pub datatype: u8,
    pub byteorder: u8,
    pub n: u8,
    pub dims: [usize; 3],
    pub configuration: u32,
}

/// The numbers of `edf_read_pixel`, in its order.
#[derive(Default)]
pub struct Sample {
    pub class: u8,
    pub unsigned: u64,
    pub signed: i64,
    pub float32: f32,
    pub float64: f64,
}

fn answer<T>(code: u8, position: usize, value: T) -> Result<T, Error> {
    match code {
        0 => Ok(value),
        code => Err(Error::new(code, position)),
    }
}

pub fn open(file: &[u8], rows: &mut [u64]) -> Result<usize, Error> {
    let (mut count, mut position) = (0, 0);
    // SAFETY: `file` and `rows` are slices with their own lengths, the rest local numbers (see the top of this file).
    let code = unsafe { edf_open(file.as_ptr(), file.len(), rows.as_mut_ptr(), rows.len(), &mut count, &mut position) };
    answer(code, position, count)
}

pub fn list(file: &[u8], out: &mut [u8]) -> Result<usize, Error> {
    let (mut length, mut position) = (0, 0);
    // SAFETY: `file` and `out` are slices with their own lengths, the rest local numbers (see the top of this file).
    let code = unsafe { edf_list(file.as_ptr(), file.len(), out.as_mut_ptr(), out.len(), &mut length, &mut position) };
    answer(code, position, length)
}

pub fn part(file: &[u8], offset: usize, length: usize) -> usize {
    // SAFETY: `file` is a slice with its own length, the rest numbers (see the top of this file).
    unsafe { edf_part(file.as_ptr(), file.len(), offset, length) }
}

pub fn find(file: &[u8], block: usize, key: &[u8]) -> Result<(usize, usize), Error> {
    let (mut offset, mut length, mut position) = (0, 0, 0);
    // SAFETY: `file` and `key` are slices with their own lengths, the rest local numbers (see the top of this file).
    let code = unsafe {
        edf_find(file.as_ptr(), file.len(), block, key.as_ptr(), key.len(), &mut offset, &mut length, &mut position)
    };
    answer(code, position, (offset, length))
}

pub fn text(file: &[u8], block: usize, key: &[u8], out: &mut [u8]) -> Result<usize, Error> {
    let (mut length, mut position) = (0, 0);
    // SAFETY: `file`, `key` and `out` are slices with their own lengths, the rest local numbers (see the top of this file).
    let code = unsafe {
        edf_text(
            file.as_ptr(), file.len(), block, key.as_ptr(), key.len(), out.as_mut_ptr(), out.len(), &mut length, &mut position,
        )
    };
    answer(code, position, length)
}

pub fn whole_number(file: &[u8], block: usize, key: &[u8]) -> Result<i64, Error> {
    let (mut value, mut position) = (0, 0);
    // SAFETY: `file` and `key` are slices with their own lengths, the rest local numbers (see the top of this file).
    let code =
        unsafe { edf_whole_number(file.as_ptr(), file.len(), block, key.as_ptr(), key.len(), &mut value, &mut position) };
    answer(code, position, value)
}

/// The unit of a real number, and its value.
pub fn real(file: &[u8], block: usize, key: &[u8]) -> Result<(u8, f64), Error> {
    let (mut unit, mut value, mut position) = (0, 0.0, 0);
    // SAFETY: `file` and `key` are slices with their own lengths, the rest local numbers (see the top of this file).
    let code = unsafe {
        edf_real(file.as_ptr(), file.len(), block, key.as_ptr(), key.len(), &mut unit, &mut value, &mut position)
    };
    answer(code, position, (unit, value))
}

pub fn escape(bytes: &[u8], out: &mut [u8]) -> Result<usize, Error> {
    let (mut length, mut position) = (0, 0);
    // SAFETY: `bytes` and `out` are slices with their own lengths, the rest local numbers (see the top of this file).
    let code =
        unsafe { edf_escape(bytes.as_ptr(), bytes.len(), out.as_mut_ptr(), out.len(), &mut length, &mut position) };
    answer(code, position, length)
}

pub fn unescape(value: &[u8], out: &mut [u8]) -> Result<usize, Error> {
    let (mut length, mut position) = (0, 0);
    // SAFETY: `value` and `out` are slices with their own lengths, the rest local numbers (see the top of this file).
    let code =
        unsafe { edf_unescape(value.as_ptr(), value.len(), out.as_mut_ptr(), out.len(), &mut length, &mut position) };
    answer(code, position, length)
}

pub fn describe(file: &[u8], block: usize) -> Result<Fields, Error> {
    let (mut fields, mut position) = (Fields::default(), 0);
    // SAFETY: `file` is a slice with its own length, the rest a local struct with the fields of edf.h's and a local number (see the
    // top of this file).
    let code = unsafe { edf_describe(file.as_ptr(), file.len(), block, &mut fields, &mut position) };
    answer(code, position, fields)
}

pub fn read_array(file: &[u8], block: usize, order: u8, out: &mut [u8]) -> Result<usize, Error> {
    let (mut length, mut position) = (0, 0);
    // SAFETY: `file` and `out` are slices with their own lengths, the rest local numbers (see the top of this file).
    let code = unsafe {
        edf_read_array(file.as_ptr(), file.len(), block, order, out.as_mut_ptr(), out.len(), &mut length, &mut position)
    };
    answer(code, position, length)
}

/// The span of a block's array, start and length, if its bytes there are those that `read_array` gives in this order.
pub fn stored_array(file: &[u8], block: usize, order: u8) -> Result<Option<(usize, usize)>, Error> {
    let (mut fields, mut start, mut length, mut delivered, mut position) = (Fields::default(), 0, 0, 0, 0);
    // SAFETY: `file` is a slice with its own length, the rest a local struct with the fields of edf.h's and different local numbers
    // (see the top of this file).
    let code = unsafe {
        edf_stored_array(
            file.as_ptr(), file.len(), block, order, &mut fields, &mut start, &mut length, &mut delivered, &mut position,
        )
    };
    answer(code, position, (delivered == 1).then_some((start, length)))
}

pub fn read_pixel(file: &[u8], block: usize, index: [usize; 3]) -> Result<Sample, Error> {
    let (mut s, mut position) = (Sample::default(), 0);
    let [i1, i2, i3] = index;
    // SAFETY: `file` is a slice with its own length, the rest different fields of a local struct (see the top of this file).
    let code = unsafe {
        edf_read_pixel(
            file.as_ptr(), file.len(), block, i1, i2, i3, &mut s.class, &mut s.unsigned, &mut s.signed, &mut s.float32,
            &mut s.float64, &mut position,
        )
    };
    answer(code, position, s)
}

pub fn write(f: &Numbers, title: &[u8], pixels: &[u8], out: &mut [u8]) -> Result<usize, Error> {
    let (mut length, mut position) = (0, 0);
    let [dim1, dim2, dim3] = f.dims;
    // SAFETY: `title`, `pixels` and `out` are slices with their own lengths, the rest numbers (see the top of this file).
    let code = unsafe {
        edf_write(
            f.sequence, f.instance, f.memory, f.datatype, f.byteorder, f.n, dim1, dim2, dim3, f.configuration,
            title.as_ptr(), title.len(), pixels.as_ptr(), pixels.len(), out.as_mut_ptr(), out.len(), &mut length,
            &mut position,
        )
    };
    answer(code, position, length)
}

pub fn keywords(header: &[u8], out: &mut [u8]) -> Result<usize, Error> {
    let (mut length, mut position) = (0, 0);
    // SAFETY: `header` and `out` are slices with their own lengths, the rest local numbers (see the top of this file).
    let code =
        unsafe { edf_keywords(header.as_ptr(), header.len(), out.as_mut_ptr(), out.len(), &mut length, &mut position) };
    answer(code, position, length)
}

/// A text of bindings/c/words.c.
///
/// # Safety
///
/// `text` is an answer of that file, which has string literals only: they end with a zero byte, live as long as the program and are
/// never written.
unsafe fn name(text: *const c_char) -> &'static str {
    // SAFETY: what this function asks for.
    let text = unsafe { CStr::from_ptr(text) };
    text.to_str().expect("words.c holds ASCII")
}

pub fn words(code: u8) -> &'static str {
    // SAFETY: the call takes a number and reads its own table only, inside its bounds; `name` gets its answer.
    unsafe { name(edf_words(code)) }
}

pub fn field_name(field: usize) -> &'static str {
    // SAFETY: as in `words`.
    unsafe { name(edf_field_name(field)) }
}

pub fn datatype_name(datatype: u8) -> &'static str {
    // SAFETY: as in `words`.
    unsafe { name(edf_datatype_name(datatype)) }
}

pub fn datatype_width(datatype: u8) -> usize {
    // SAFETY: the call takes a number and reads its own table only, inside its bounds.
    unsafe { edf_datatype_width(datatype) }
}

pub fn byteorder_name(byteorder: u8) -> &'static str {
    // SAFETY: as in `words`.
    unsafe { name(edf_byteorder_name(byteorder)) }
}

pub fn unit_name(unit: u8) -> &'static str {
    // SAFETY: as in `words`.
    unsafe { name(edf_unit_name(unit)) }
}
