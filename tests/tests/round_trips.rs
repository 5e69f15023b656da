//! Round trips of writing, for all types, both orders, N = 1 to 3 and all configurations, by the second reader and by the library.

use edf_tests::both::*;
use edf_tests::parallel;
use edf_tests::reader::element::TYPES;
use edf_tests::reader::Origin::{Default, Own};
use edf_tests::reader::{Frame, Origin, Pixel};

/// Room for each file and value.
const ROOM: usize = 1 << 18;

const DIMS: [usize; 3] = [4, 3, 2];

fn pixels(frame: &Frame) -> Vec<u8> {
    let width = TYPES[usize::from(frame.data_type) - 1].width;
    let elements: usize = [frame.dim_1, frame.dim_2, frame.dim_3][..usize::from(frame.n)].iter().product();
    (0..elements * width).map(|i| (i * 37 + i / 256 + 11) as u8).collect()
}

fn frames() -> Vec<Frame> {
    let mut frames = Vec::new();
    for data_type in 1..=10 {
        for order in 1..=2 {
            for (n, configurations) in [(1, 2), (2, 8), (3, 48)] {
                for configuration in 1..=configurations {
                    frames.push(Frame {
                        sequence: -7, instance: order, memory: i64::from(configuration), data_type, order, n,
                        dim_1: DIMS[0], dim_2: DIMS[1], dim_3: DIMS[2], configuration,
                    });
                }
            }
        }
    }
    frames
}

fn delivered_value(frame: &Frame, pixels: &[u8], place: usize) -> Pixel {
    let kind = TYPES[usize::from(frame.data_type) - 1];
    let mut bytes = [0; 8];
    bytes[8 - kind.width..].copy_from_slice(&pixels[place * kind.width..(place + 1) * kind.width]);
    let bits = u64::from_be_bytes(bytes);
    let unused = 64 - 8 * kind.width as u32;
    match kind.name {
        "FloatIEEE32" => Pixel::Float32(f32::from_bits(bits as u32)),
        "FloatIEEE64" => Pixel::Float64(f64::from_bits(bits)),
        name if name.starts_with("Unsigned") => Pixel::Unsigned(bits),
        _ => Pixel::Signed(((bits << unused) as i64) >> unused),
    }
}

fn array_comes_back(frame: Frame) {
    let pixels = pixels(&frame);
    let file = write(frame, b"t", &pixels, ROOM).unwrap();
    assert_eq!(read_array(&file, 0, 1, pixels.len()), Ok(pixels.clone()), "{frame:?}");
    let width = TYPES[usize::from(frame.data_type) - 1].width;
    let low: Vec<u8> = pixels.chunks(width).flat_map(|pixel| pixel.iter().rev().copied()).collect();
    assert_eq!(read_array(&file, 0, 2, pixels.len()), Ok(low));
}

#[test]
fn arrays_come_back() {
    frames().into_iter().for_each(array_comes_back);
}

/// Thousands of elements, in rows and planes of odd lengths.
#[test]
fn larger_arrays_come_back() {
    let larger = |frame: Frame| match frame.n {
        1 => Frame { dim_1: 9_001, ..frame },
        2 => Frame { dim_1: 131, dim_2: 67, ..frame },
        _ => Frame { dim_1: 35, dim_2: 19, dim_3: 13, ..frame },
    };
    let frames: Vec<Frame> = frames().into_iter().filter(|frame| frame.n < 3 || frame.configuration % 7 == 6).map(larger).collect();
    parallel::for_each(0..frames.len(), |number| array_comes_back(frames[number]));
}

#[test]
fn pixels_come_back() {
    for frame in frames().into_iter().filter(|frame| frame.configuration % 5 == 1) {
        let pixels = pixels(&frame);
        let file = write(frame, b"t", &pixels, ROOM).unwrap();
        let dims = [0, 1, 2].map(|axis| if axis < usize::from(frame.n) { DIMS[axis] } else { 1 });
        let mut place = 0;
        for i3 in 0..dims[2] {
            for i2 in 0..dims[1] {
                for i1 in 0..dims[0] {
                    let expected = delivered_value(&frame, &pixels, place);
                    assert_eq!(read_pixel(&file, 0, i1, i2, i3), Ok(expected), "{frame:?}");
                    place += 1;
                }
            }
        }
    }
}

/// "a file of our writer has own for all but Compression, RasterOrientation and DataValueOffset".
const WRITTEN: [Origin; 7] = [Own, Own, Default, Own, Own, Default, Default];

#[test]
fn frames_come_back() {
    for frame in frames() {
        let file = write(frame, b"", &pixels(&frame), ROOM).unwrap();
        let row = open(&file, 256).unwrap()[0];
        assert_eq!((row.sequence, row.instance, row.memory), (frame.sequence, frame.instance, frame.memory));
        let d = describe(&file, 0).unwrap();
        assert_eq!((d.data_type, d.order, d.n, d.configuration), (frame.data_type, frame.order, frame.n, frame.configuration));
        assert_eq!(d.origins, WRITTEN, "{frame:?}");
        assert_eq!(file.len(), row.header_length + row.data_length);
        assert_eq!((row.header_length % 512, row.data_length % 512), (0, 0));
    }
}

#[test]
fn titles_come_back() {
    let frame = frames()[0];
    let all: Vec<u8> = (1..=127).collect();
    let titles = [&b""[..], b" ", b"x;", b"\"", b"\\", b"\r\n", b"{a}", &all, &[b';'; 1_023], &[b'\\'; 1_023]];
    for title in titles {
        let file = write(frame, title, &pixels(&frame), ROOM).unwrap();
        assert_eq!(text(&file, 0, b"Title", title.len()), Ok(title.to_vec()));
        assert_eq!(unescape(&escape(title, ROOM).unwrap(), title.len()), Ok(title.to_vec()));
    }
}
