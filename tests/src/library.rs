//! The verified library through its functions for C (include/edf.h), in the form that readers share. Memory that is lent is filled with
//! a pattern, has guards around it, and is compared whole afterwards.

use crate::answer::{float_32, float_64, Answer, Call};
use crate::reader::{Description, Frame, Origin, Row};

extern "C" {
    fn edf_open(
        file: *const u8, file_length: usize, rows: *mut u64, rows_length: usize, count: *mut usize, position: *mut usize,
    ) -> u8;
    fn edf_find(
        file: *const u8, file_length: usize, block: usize, key: *const u8, key_length: usize, offset: *mut usize,
        length: *mut usize, position: *mut usize,
    ) -> u8;
    fn edf_whole_number(
        file: *const u8, file_length: usize, block: usize, key: *const u8, key_length: usize, value: *mut i64,
        position: *mut usize,
    ) -> u8;
    fn edf_real(
        file: *const u8, file_length: usize, block: usize, key: *const u8, key_length: usize, unit: *mut u8,
        value: *mut f64, position: *mut usize,
    ) -> u8;
    fn edf_text(
        file: *const u8, file_length: usize, block: usize, key: *const u8, key_length: usize, out: *mut u8,
        out_length: usize, length: *mut usize, position: *mut usize,
    ) -> u8;
    fn edf_escape(
        bytes: *const u8, bytes_length: usize, out: *mut u8, out_length: usize, length: *mut usize, position: *mut usize,
    ) -> u8;
    fn edf_unescape(
        value: *const u8, value_length: usize, out: *mut u8, out_length: usize, length: *mut usize, position: *mut usize,
    ) -> u8;
    fn edf_describe(
        file: *const u8, file_length: usize, block: usize, description: *mut edf_description, position: *mut usize,
    ) -> u8;
    fn edf_read_array(
        file: *const u8, file_length: usize, block: usize, order: u8, out: *mut u8, out_length: usize, length: *mut usize,
        position: *mut usize,
    ) -> u8;
    fn edf_stored_array(
        file: *const u8, file_length: usize, block: usize, order: u8, description: *mut edf_description,
        start: *mut usize, length: *mut usize, delivered: *mut u8, position: *mut usize,
    ) -> u8;
    fn edf_read_pixel(
        file: *const u8, file_length: usize, block: usize, i1: usize, i2: usize, i3: usize, class: *mut u8,
        unsigned: *mut u64, signed: *mut i64, float32: *mut f32, float64: *mut f64, position: *mut usize,
    ) -> u8;
    fn edf_part(file: *const u8, file_length: usize, offset: usize, length: usize) -> usize;
    fn edf_list(
        file: *const u8, file_length: usize, out: *mut u8, out_length: usize, length: *mut usize, position: *mut usize,
    ) -> u8;
    fn edf_write(
        sequence: i64, instance: u8, memory: i64, datatype: u8, byteorder: u8, n: u8, dim1: usize, dim2: usize,
        dim3: usize, configuration: u32, title: *const u8, title_length: usize, pixels: *const u8, pixels_length: usize,
        out: *mut u8, out_length: usize, length: *mut usize, position: *mut usize,
    ) -> u8;
}

/// The description of an array, as edf.h has it.
#[allow(non_camel_case_types)]
#[derive(Clone, PartialEq)]
#[repr(C)]
struct edf_description {
    datatype: u64,
    byteorder: u64,
    compression: u64,
    n: u64,
    dim1: u64,
    dim2: u64,
    dim3: u64,
    configuration: u64,
    orientation: u64,
    offset: i64,
    origins: edf_origins,
}

/// Where each field came from, as edf.h has it.
#[allow(non_camel_case_types)]
#[derive(Clone, PartialEq)]
#[repr(C)]
struct edf_origins {
    datatype: u64,
    byteorder: u64,
    compression: u64,
    dims: u64,
    configuration: u64,
    orientation: u64,
    offset: u64,
}

/// What stands in a number before a call that is to leave it as it is.
const KEPT: usize = 0x5a5a_a5a5_5a5a_a5a5;

/// Guards on each side of what is lent.
const GUARD: usize = 64;

/// Memory that is lent: a pattern, guards and all.
struct Lent<T> {
    memory: Vec<T>,
    before: Vec<T>,
}

impl<T: Clone + PartialEq> Lent<T> {
    fn new(length: usize, pattern: fn(usize) -> T) -> Lent<T> {
        let before: Vec<T> = (0..length + 2 * GUARD).map(pattern).collect();
        Lent { memory: before.clone(), before }
    }

    fn start(&mut self) -> *mut T {
        self.memory[GUARD..].as_mut_ptr()
    }

    /// What was written at the front, none where anything else has changed, or more was written than lent.
    fn written(&self, length: usize) -> Option<&[T]> {
        let end = GUARD.checked_add(length).filter(|end| *end <= self.memory.len() - GUARD)?;
        let kept = self.memory[..GUARD] == self.before[..GUARD] && self.memory[end..] == self.before[end..];
        Some(&self.memory[GUARD..end]).filter(|_| kept)
    }
}

fn byte_pattern(index: usize) -> u8 {
    (index.wrapping_mul(167) >> 3) as u8 ^ 0x5a
}

fn number_pattern(index: usize) -> u64 {
    index as u64 ^ 0xa5a5_a5a5_a5a5
}

/// The answer, if all that the call is to leave as it was is so.
fn if_kept(kept: bool, answer: Answer) -> Answer {
    if kept { answer } else { Answer::Broken("something else was changed") }
}

/// A call that writes into a buffer.
fn into_buffer(room: usize, call: impl Fn(*mut u8, usize, *mut usize, *mut usize) -> u8) -> Answer {
    let mut lent = Lent::new(room, byte_pattern);
    let (mut length, mut position) = (KEPT, KEPT);
    match call(lent.start(), room, &mut length, &mut position) {
        0 => match lent.written(length) {
            Some(bytes) => if_kept(position == KEPT, Answer::Bytes(bytes.to_vec())),
            None => Answer::Broken("bytes after those written were changed"),
        },
        code => if_kept(lent.written(0).is_some() && length == KEPT, Answer::Failed { code, position }),
    }
}

/// Opens with a table of so many numbers, seven to a row.
pub fn open_numbers(file: &[u8], numbers: usize) -> Answer {
    let mut lent = Lent::new(numbers, number_pattern);
    let (mut count, mut position) = (KEPT, KEPT);
    match unsafe { edf_open(file.as_ptr(), file.len(), lent.start(), numbers, &mut count, &mut position) } {
        0 => match lent.written(count.saturating_mul(7)) {
            Some(numbers) => if_kept(position == KEPT, Answer::Rows(numbers.chunks(7).map(row).collect())),
            None => Answer::Broken("rows after those of the blocks were changed"),
        },
        code => if_kept(lent.written(0).is_some() && count == KEPT, Answer::Failed { code, position }),
    }
}

/// A number that is to be a byte's; for a larger one the largest, which stands for nothing.
fn byte(number: u64) -> u8 {
    u8::try_from(number).unwrap_or(u8::MAX)
}

/// A row of seven numbers.
fn row(numbers: &[u64]) -> Row {
    Row {
        start: numbers[0] as usize,
        header_length: numbers[1] as usize,
        data_length: numbers[2] as usize,
        kind: byte(numbers[3]),
        sequence: numbers[4] as i64,
        instance: byte(numbers[5]),
        memory: numbers[6] as i64,
    }
}

fn find(file: &[u8], block: usize, key: &[u8]) -> Answer {
    let (mut start, mut length, mut position) = (KEPT, KEPT, KEPT);
    let (place, size) = (&mut start, &mut length);
    match unsafe { edf_find(file.as_ptr(), file.len(), block, key.as_ptr(), key.len(), place, size, &mut position) } {
        0 => if_kept(position == KEPT, Answer::Place { start, length }),
        code => if_kept((start, length) == (KEPT, KEPT), Answer::Failed { code, position }),
    }
}

fn whole_number(file: &[u8], block: usize, key: &[u8]) -> Answer {
    let (mut value, mut position) = (KEPT as i64, KEPT);
    let number = &mut value;
    match unsafe { edf_whole_number(file.as_ptr(), file.len(), block, key.as_ptr(), key.len(), number, &mut position) } {
        0 => if_kept(position == KEPT, Answer::Number(value)),
        code => if_kept(value == KEPT as i64, Answer::Failed { code, position }),
    }
}

/// A real; its unit and its float have guards.
fn real(file: &[u8], block: usize, key: &[u8]) -> Answer {
    one_real(|unit, value, position| unsafe {
        edf_real(file.as_ptr(), file.len(), block, key.as_ptr(), key.len(), unit, value, position)
    })
}

/// A call that writes a unit and a float.
fn one_real(call: impl Fn(*mut u8, *mut f64, *mut usize) -> u8) -> Answer {
    let (mut unit, mut bits, mut position) = (Lent::new(1, byte_pattern), Lent::new(1, number_pattern), KEPT);
    match call(unit.start(), bits.start().cast(), &mut position) {
        0 => match (unit.written(1), bits.written(1)) {
            (Some(&[unit]), Some(&[bits])) => if_kept(position == KEPT, Answer::Real { unit, bits }),
            _ => Answer::Broken("something beside the unit and the float was changed"),
        },
        code => if_kept(unit.written(0).is_some() && bits.written(0).is_some(), Answer::Failed { code, position }),
    }
}

fn description_pattern(index: usize) -> edf_description {
    let number = number_pattern(index);
    edf_description {
        datatype: number, byteorder: number, compression: number, n: number, dim1: number, dim2: number, dim3: number,
        configuration: number, orientation: number, offset: number as i64, origins: origins_pattern(number),
    }
}

fn origins_pattern(number: u64) -> edf_origins {
    edf_origins {
        datatype: number, byteorder: number, compression: number, dims: number, configuration: number, orientation: number,
        offset: number,
    }
}

/// The origin that a number stands for, EDF_ORIGIN_OWN to EDF_ORIGIN_DEFAULT; none for any other number.
fn origin(number: u64) -> Option<Origin> {
    match number {
        1 => Some(Origin::Own),
        2 => Some(Origin::General),
        3 => Some(Origin::Default),
        _ => None,
    }
}

fn origins(o: &edf_origins) -> Option<[Origin; 7]> {
    Some([
        origin(o.datatype)?, origin(o.byteorder)?, origin(o.compression)?, origin(o.dims)?, origin(o.configuration)?,
        origin(o.orientation)?, origin(o.offset)?,
    ])
}

/// The description that a call wrote, none where an origin is none or anything beside it has changed.
fn description(lent: &Lent<edf_description>) -> Option<Description> {
    let d = lent.written(1)?.first()?;
    Some(Description {
        data_type: byte(d.datatype),
        order: byte(d.byteorder),
        compression: byte(d.compression),
        n: byte(d.n),
        dim_1: d.dim1 as usize,
        dim_2: d.dim2 as usize,
        dim_3: d.dim3 as usize,
        configuration: u32::try_from(d.configuration).unwrap_or(u32::MAX),
        orientation: u32::try_from(d.orientation).unwrap_or(u32::MAX),
        offset: d.offset,
        origins: origins(&d.origins)?,
    })
}

fn describe(file: &[u8], block: usize) -> Answer {
    let (mut lent, mut position) = (Lent::new(1, description_pattern), KEPT);
    match unsafe { edf_describe(file.as_ptr(), file.len(), block, lent.start(), &mut position) } {
        0 => match description(&lent) {
            Some(description) => if_kept(position == KEPT, Answer::Description(description)),
            None => Answer::Broken("no origin, or something beside the description was changed"),
        },
        code => if_kept(lent.written(0).is_some(), Answer::Failed { code, position }),
    }
}

fn stored_array(file: &[u8], block: usize, order: u8) -> Answer {
    let (mut lent, mut start, mut length, mut delivered, mut position) =
        (Lent::new(1, description_pattern), KEPT, KEPT, 99, KEPT);
    let code = unsafe {
        edf_stored_array(
            file.as_ptr(), file.len(), block, order, lent.start(), &mut start, &mut length, &mut delivered, &mut position,
        )
    };
    if code != 0 {
        let kept = lent.written(0).is_some() && (start, length, delivered) == (KEPT, KEPT, 99);
        return if_kept(kept, Answer::Failed { code, position });
    }
    let Some(description) = description(&lent) else {
        return Answer::Broken("no origin, or something beside the description was changed");
    };
    let delivered = match (delivered, file.get(start..start.saturating_add(length))) {
        (_, None) => return Answer::Broken("an array that is not inside the file"),
        (0, _) => None,
        (1, Some(bytes)) => Some(bytes.to_vec()),
        _ => return Answer::Broken("a flag that is neither 0 nor 1"),
    };
    if_kept(position == KEPT, Answer::Stored { description, start, length, delivered })
}

/// The numbers of a pixel's four classes, floats as bits.
type Classes = (u64, i64, u32, u64);

fn read_pixel(file: &[u8], block: usize, i1: usize, i2: usize, i3: usize) -> Answer {
    let before: Classes = (KEPT as u64, KEPT as i64, KEPT as u32, KEPT as u64);
    let (mut class, mut unsigned, mut signed) = (99, before.0, before.1);
    let (mut single, mut double, mut position) = (f32::from_bits(before.2), f64::from_bits(before.3), KEPT);
    let code = unsafe {
        edf_read_pixel(
            file.as_ptr(), file.len(), block, i1, i2, i3, &mut class, &mut unsigned, &mut signed, &mut single, &mut double,
            &mut position,
        )
    };
    let after: Classes = (unsigned, signed, single.to_bits(), double.to_bits());
    match (code, class) {
        (0, 1) => if_kept((before.0, after.1, after.2, after.3) == before && position == KEPT, Answer::Unsigned(unsigned)),
        (0, 2) => if_kept((after.0, before.1, after.2, after.3) == before && position == KEPT, Answer::Signed(signed)),
        (0, 3) => if_kept((after.0, after.1, before.2, after.3) == before && position == KEPT, float_32(single)),
        (0, 4) => if_kept((after.0, after.1, after.2, before.3) == before && position == KEPT, float_64(double)),
        (0, _) => Answer::Broken("no class of pixel"),
        (code, class) => if_kept(after == before && class == 99, Answer::Failed { code, position }),
    }
}

fn write(f: &Frame, title: &[u8], pixels: &[u8], room: usize) -> Answer {
    into_buffer(room, |out, room, length, position| unsafe {
        edf_write(
            f.sequence, f.instance, f.memory, f.data_type, f.order, f.n, f.dim_1, f.dim_2, f.dim_3, f.configuration,
            title.as_ptr(), title.len(), pixels.as_ptr(), pixels.len(), out, room, length, position,
        )
    })
}

/// The bytes at `start`, as many as the library says.
fn part(file: &[u8], start: usize, length: usize) -> Answer {
    let count = unsafe { edf_part(file.as_ptr(), file.len(), start, length) };
    match (count, file.get(start..start.saturating_add(count))) {
        (0, _) => Answer::Bytes(vec![]),
        (_, Some(bytes)) => Answer::Bytes(bytes.to_vec()),
        (_, None) => Answer::Broken("a part that is not inside the file"),
    }
}

/// What the library answers to a call; none for the lister, which is a program.
pub fn answer(file: &[u8], call: &Call) -> Option<Answer> {
    let (bytes, size) = (file.as_ptr(), file.len());
    Some(match call {
        Call::Open { rows } => open_numbers(file, 7 * rows),
        Call::Find { block, key } => find(file, *block, key),
        Call::WholeNumber { block, key } => whole_number(file, *block, key),
        Call::Real { block, key } => real(file, *block, key),
        Call::Text { block, key, room } => into_buffer(*room, |out, room, length, position| unsafe {
            edf_text(bytes, size, *block, key.as_ptr(), key.len(), out, room, length, position)
        }),
        Call::Describe { block } => describe(file, *block),
        Call::ReadArray { block, order, room } => into_buffer(*room, |out, room, length, position| unsafe {
            edf_read_array(bytes, size, *block, *order, out, room, length, position)
        }),
        Call::StoredArray { block, order } => stored_array(file, *block, *order),
        Call::ReadPixel { block, i1, i2, i3 } => read_pixel(file, *block, *i1, *i2, *i3),
        Call::Escape { text, room } => into_buffer(*room, |out, room, length, position| unsafe {
            edf_escape(text.as_ptr(), text.len(), out, room, length, position)
        }),
        Call::Unescape { value, room } => into_buffer(*room, |out, room, length, position| unsafe {
            edf_unescape(value.as_ptr(), value.len(), out, room, length, position)
        }),
        Call::Write { frame, title, pixels, room } => write(frame, title, pixels, *room),
        Call::Part { start, length } => part(file, *start, *length),
        Call::List { room } => into_buffer(*room, |out, room, length, position| unsafe {
            edf_list(bytes, size, out, room, length, position)
        }),
        Call::Print => return None,
    })
}

#[cfg(test)]
mod tests {
    use super::*;

    /// What `into_buffer` makes of a call that writes `bytes` from `offset` on and answers a code, length and position.
    fn seen(offset: isize, bytes: &[u8], code: u8, length: usize, position: usize) -> Answer {
        into_buffer(8, |out, room, length_out, position_out| unsafe {
            assert_eq!(room, 8);
            out.offset(offset).copy_from(bytes.as_ptr(), bytes.len());
            *length_out = length;
            *position_out = position;
            code
        })
    }

    #[test]
    fn origins_by_number() {
        let numbers = edf_origins { datatype: 1, byteorder: 2, compression: 3, dims: 1, configuration: 3, orientation: 2, offset: 1 };
        let expected = [Origin::Own, Origin::General, Origin::Default, Origin::Own, Origin::Default, Origin::General, Origin::Own];
        assert_eq!(origins(&numbers), Some(expected));
        for number in [0, 4, u64::MAX] {
            assert_eq!(origins(&edf_origins { dims: number, ..origins_pattern(1) }), None);
        }
    }

    /// What `one_real` makes of a call that writes a unit and a float at these offsets and answers a code and position.
    fn real_seen(unit: Option<isize>, float: Option<isize>, code: u8, position: usize) -> Answer {
        one_real(|unit_out, value_out, position_out| unsafe {
            unit.into_iter().for_each(|offset| unit_out.offset(offset).write(3));
            float.into_iter().for_each(|offset| value_out.offset(offset).write(-0.0));
            *position_out = position;
            code
        })
    }

    #[test]
    fn what_a_real_may_do() {
        assert_eq!(real_seen(Some(0), Some(0), 0, KEPT), Answer::Real { unit: 3, bits: 1 << 63 });
        assert_eq!(real_seen(None, None, 27, 0), Answer::Failed { code: 27, position: 0 });
        let broken = |answer: Answer| assert!(matches!(answer, Answer::Broken(_)), "{answer:?}");
        broken(real_seen(Some(1), Some(0), 0, KEPT));
        broken(real_seen(Some(0), Some(-1), 0, KEPT));
        broken(real_seen(Some(0), Some(0), 0, 0));
        broken(real_seen(Some(0), None, 18, 0));
        broken(real_seen(None, Some(0), 27, 0));
    }

    #[test]
    fn what_a_call_may_do() {
        assert_eq!(seen(0, b"abc", 0, 3, KEPT), Answer::Bytes(b"abc".to_vec()));
        assert_eq!(seen(0, b"abcdefgh", 0, 8, KEPT), Answer::Bytes(b"abcdefgh".to_vec()));
        assert_eq!(seen(0, b"", 0, 0, KEPT), Answer::Bytes(vec![]));
        assert_eq!(seen(0, b"", 22, KEPT, 7), Answer::Failed { code: 22, position: 7 });
    }

    #[test]
    fn what_a_call_may_not_do() {
        let broken = |answer: Answer| assert!(matches!(answer, Answer::Broken(_)), "{answer:?}");
        broken(seen(-1, b"x", 0, 0, KEPT));
        broken(seen(-64, b"x", 0, 0, KEPT));
        broken(seen(3, b"x", 0, 3, KEPT));
        broken(seen(7, b"x", 0, 7, KEPT));
        broken(seen(8, b"x", 0, 8, KEPT));
        broken(seen(71, b"x", 0, 8, KEPT));
        broken(seen(0, b"", 0, 9, KEPT));
        broken(seen(0, b"", 0, usize::MAX, KEPT));
        broken(seen(0, b"abc", 0, 3, 0));
        broken(seen(0, b"x", 22, KEPT, 0));
        broken(seen(8, b"x", 22, KEPT, 0));
        broken(seen(0, b"", 22, 0, 0));
    }
}
