//! Writing a file of one block.

use super::describe::LARGEST_DIM;
use super::element::{ordered, type_of, Type, BYTE_ORDERS};
use super::error::{demand, refuse, Error};
use super::identity::{identity_text, Identity};
use super::opening::LONGEST_FILE;
use super::orders::{order_of, stored_places, Order};
use super::text::{may_be_text, value_form, LONGEST_TEXT};

/// What is written beside title and pixels.
#[derive(Clone, Copy, Debug, PartialEq, Eq)]
pub struct Frame {
    pub sequence: i64,
    pub instance: u8,
    pub memory: i64,
    pub data_type: u8,
    pub order: u8,
    pub n: u8,
    pub dim_1: usize,
    pub dim_2: usize,
    pub dim_3: usize,
    pub configuration: u32,
}

/// "fill the pixels to a multiple of 512", and the header too.
const BOUNDARY: usize = 512;

/// A file of one block; 24, then 25, then 22.
pub fn write(frame: Frame, title: &[u8], pixels: &[u8], room: usize) -> Result<Vec<u8>, Error> {
    let Some(plan) = plan(&frame) else {
        return refuse(24, 0);
    };
    demand(pixels.len() as i128 == plan.pixel_length, 24, 0)?;
    demand(title.iter().all(|&byte| may_be_text(byte)), 24, 0)?;
    let data_length = pixels.len().next_multiple_of(BOUNDARY);
    let header = header(&frame, &plan, title, data_length);
    let length = header.len() + data_length;
    demand(length <= LONGEST_FILE, 24, 0)?;
    demand(title.len() <= LONGEST_TEXT, 25, 0)?;
    demand(length <= room, 22, 0)?;
    let mut file = [header, data(&frame, &plan, pixels)].concat();
    file.resize(length, 0);
    Ok(file)
}

/// What the arguments mean.
struct Plan {
    kind: Type,
    order: Order,
    dims: [usize; 3],
    pixel_length: i128,
}

/// "N is 1 to 3; Dims past N are unread." None for a bad argument.
fn plan(frame: &Frame) -> Option<Plan> {
    let kind = type_of(frame.data_type)?;
    let codes_kept = [1, 2].contains(&frame.order) && [1, 2].contains(&frame.instance) && frame.memory >= 1;
    if !codes_kept || !(1..=3).contains(&frame.n) {
        return None;
    }
    let dims = read_dims(frame);
    if dims.iter().any(|&dim| !(1..=LARGEST_DIM as i128).contains(&(dim as i128))) {
        return None;
    }
    let order = order_of(frame.n, i64::from(frame.configuration))?;
    let elements: i128 = dims.iter().map(|&dim| dim as i128).product();
    Some(Plan { kind, order, dims, pixel_length: elements * kind.width as i128 })
}

/// The Dims with 1 in place of those past N.
fn read_dims(frame: &Frame) -> [usize; 3] {
    let given = [frame.dim_1, frame.dim_2, frame.dim_3];
    [0, 1, 2].map(|axis| if axis < usize::from(frame.n) { given[axis] } else { 1 })
}

/// "Lines end CR LF: `{`, then `Key = value ;` ...; then the fewest spaces, CR LF, `}`, LF
/// that make a multiple of 512."
fn header(frame: &Frame, plan: &Plan, title: &[u8], data_length: usize) -> Vec<u8> {
    let mut header = b"{\r\n".to_vec();
    for (key, value) in lines(frame, plan, title, data_length) {
        header.extend([key.as_bytes(), b" = ", &value, b" ;\r\n"].concat());
    }
    let end = b"\r\n}\n";
    let length = (header.len() + end.len()).next_multiple_of(BOUNDARY);
    header.resize(length - end.len(), b' ');
    header.extend(end);
    header
}

/// "EDF_DataBlockID, EDF_BinarySize, ByteOrder, DataType, Dim_1 to Dim_N, DataRasterConfiguration, Title".
fn lines(frame: &Frame, plan: &Plan, title: &[u8], data_length: usize) -> Vec<(String, Vec<u8>)> {
    let identity = Identity { sequence: frame.sequence, instance: frame.instance, memory: frame.memory };
    let mut lines = vec![
        line("EDF_DataBlockID", identity_text(&identity)),
        line("EDF_BinarySize", data_length.to_string()),
        line("ByteOrder", BYTE_ORDERS[usize::from(frame.order == 2)].to_string()),
        line("DataType", plan.kind.name.to_string()),
    ];
    let dims = plan.dims.iter().take(usize::from(frame.n)).zip(1..);
    lines.extend(dims.map(|(dim, number)| line(&format!("Dim_{number}"), dim.to_string())));
    lines.push(line("DataRasterConfiguration", frame.configuration.to_string()));
    lines.push(("Title".to_string(), value_form(title)));
    lines
}

fn line(key: &str, value: String) -> (String, Vec<u8>) {
    (key.to_string(), value.into_bytes())
}

/// "The writer's pixels come in configuration 1, high byte first": each put at its stored place.
fn data(frame: &Frame, plan: &Plan, pixels: &[u8]) -> Vec<u8> {
    let places = stored_places(&plan.order, &plan.dims);
    let mut stored: Vec<(usize, Vec<u8>)> =
        places.into_iter().zip(pixels.chunks(plan.kind.width).map(|pixel| ordered(pixel, frame.order))).collect();
    stored.sort();
    stored.into_iter().flat_map(|(_, bytes)| bytes).collect()
}

#[cfg(test)]
mod tests {
    use super::*;

    /// 01's example: 1.Image.Psd, UnsignedShort, HighByteFirst, 3 by 2, configuration 6.
    pub const EXAMPLE: Frame = Frame {
        sequence: 1, instance: 1, memory: 1, data_type: 3, order: 1, n: 2, dim_1: 3, dim_2: 2, dim_3: 0, configuration: 6,
    };

    const PIXELS: [u8; 12] = [0, 1, 0, 2, 0, 3, 0, 4, 0, 5, 0, 6];

    fn code(frame: Frame) -> u8 {
        write(frame, b"x;", &PIXELS, 1_024).map_or_else(|e| e.code, |_| 0)
    }

    #[test]
    fn example() {
        let file = write(EXAMPLE, b"x;", &PIXELS, 1_024).unwrap();
        let head = "{\r\nEDF_DataBlockID = 1.Image.Psd ;\r\nEDF_BinarySize = 512 ;\r\nByteOrder = HighByteFirst ;\r\n\
            DataType = UnsignedShort ;\r\nDim_1 = 3 ;\r\nDim_2 = 2 ;\r\nDataRasterConfiguration = 6 ;\r\nTitle = \"x\\:\" ;\r\n";
        assert!(file.starts_with(head.as_bytes()));
        assert!(file[head.len()..508].iter().all(|&byte| byte == b' '));
        assert_eq!(&file[508..512], b"\r\n}\n");
        assert_eq!(&file[512..524], [0, 3, 0, 6, 0, 2, 0, 5, 0, 1, 0, 4]);
        assert!(file[524..].iter().all(|&byte| byte == 0));
        assert_eq!(file.len(), 1_024);
    }

    #[test]
    fn low_byte_first() {
        let file = write(Frame { order: 2, configuration: 1, ..EXAMPLE }, b"", &PIXELS, 1_024).unwrap();
        assert_eq!(&file[512..524], [1, 0, 2, 0, 3, 0, 4, 0, 5, 0, 6, 0]);
    }

    #[test]
    fn bad_arguments() {
        assert_eq!(code(EXAMPLE), 0);
        let bad = [
            Frame { instance: 0, ..EXAMPLE }, Frame { instance: 3, ..EXAMPLE }, Frame { memory: 0, ..EXAMPLE },
            Frame { memory: i64::MIN, ..EXAMPLE }, Frame { data_type: 0, ..EXAMPLE }, Frame { data_type: 11, ..EXAMPLE },
            Frame { order: 0, ..EXAMPLE }, Frame { order: 3, ..EXAMPLE }, Frame { n: 0, ..EXAMPLE }, Frame { n: 4, ..EXAMPLE },
            Frame { n: 3, ..EXAMPLE }, Frame { dim_1: 0, ..EXAMPLE }, Frame { dim_2: usize::MAX, ..EXAMPLE },
            Frame { dim_1: 1_048_577, ..EXAMPLE }, Frame { configuration: 0, ..EXAMPLE }, Frame { configuration: 9, ..EXAMPLE },
            Frame { dim_1: 4, ..EXAMPLE }, Frame { data_type: 5, ..EXAMPLE },
        ];
        for frame in bad {
            assert_eq!(code(frame), 24, "{frame:?}");
        }
        assert_eq!(code(Frame { memory: i64::MAX, sequence: i64::MIN, dim_3: usize::MAX, ..EXAMPLE }), 0);
    }

    #[test]
    fn titles_and_rooms() {
        let with = |title: &[u8], room| write(EXAMPLE, title, &PIXELS, room).map_or_else(|e| (e.code, e.position), |_| (0, 0));
        assert_eq!(with(b"a\0", 9_999), (24, 0));
        assert_eq!(with(b"a\x80", 9_999), (24, 0));
        assert_eq!(with(b"x", 1_024), (0, 0));
        assert_eq!(with(b"x", 1_023), (22, 0));
        assert_eq!(with(&[b'a'; 1_023], 2_048), (0, 0));
        assert_eq!(with(&[b'a'; 1_024], 0), (25, 0));
        assert_eq!(with(&[0; 1_024], 0), (24, 0));
        assert_eq!(with(&[b';'; 1_023], 9_999), (0, 0));
    }

    /// The header's length just before and just after a multiple of 512.
    #[test]
    fn fewest_spaces() {
        let bare = write(EXAMPLE, b"", &PIXELS, 9_999).unwrap();
        let spaces = bare[..508].iter().rev().take_while(|&&byte| byte == b' ').count();
        let length = |title: usize| write(EXAMPLE, &vec![b'a'; title], &PIXELS, 9_999).unwrap().len();
        assert_eq!(length(spaces), 1_024);
        assert_eq!(length(spaces + 1), 1_536);
    }

    /// "a file over the limit" is 24.
    #[test]
    fn file_limit() {
        let frame = |dim_2| Frame { data_type: 1, n: 2, dim_1: 1_048_576, dim_2, configuration: 1, ..EXAMPLE };
        let code = |dim_2: usize| write(frame(dim_2), b"", &vec![0; dim_2 << 20], 0).map_or_else(|e| e.code, |_| 0);
        assert_eq!(code(1_023), 22);
        assert_eq!(code(1_024), 24);
    }
}
