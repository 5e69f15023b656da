//! What is written opens again, for every type, byte order and number of dimensions.

use edf::{ByteOrder, Code, DataType, File, Frame, Identity, Instance, Origin, Origins};

#[test]
fn written_reads_back() {
    for data_type in DataType::ALL {
        for byte_order in [ByteOrder::HighByteFirst, ByteOrder::LowByteFirst] {
            for (dims, configurations) in [(&[5][..], 2), (&[5, 3], 8), (&[5, 3, 2], 48)] {
                for configuration in 1..=configurations {
                    round_trip(&Frame { byte_order, configuration, ..Frame::image(data_type, dims) });
                }
            }
        }
    }
}

fn round_trip(frame: &Frame) {
    let length = frame.dims.iter().product::<usize>() * frame.data_type.width();
    let pixels: Vec<u8> = (0..length).map(|i| (i * 37 + 11) as u8).collect();
    let bytes = edf::write(frame, "a; {b} \"c\"\\\r\n", &pixels).unwrap();
    let block = File::open(&bytes).unwrap().block(0).unwrap();
    assert_eq!(block.identity(), Some(frame.identity));
    assert_eq!(block.text("title").unwrap(), "a; {b} \"c\"\\\r\n");
    let array = block.array().unwrap();
    let d = array.description();
    assert_eq!((d.data_type, d.byte_order, d.configuration, d.dims()), (frame.data_type, frame.byte_order, frame.configuration, frame.dims));
    assert_eq!(d.origins, written_origins());
    assert_eq!(array.read(ByteOrder::HighByteFirst).unwrap(), pixels);
}

/// What is written has all fields in its own header but for Compression, RasterOrientation and DataValueOffset.
fn written_origins() -> Origins {
    Origins {
        data_type: Origin::Own,
        byte_order: Origin::Own,
        compression: Origin::Default,
        dims: Origin::Own,
        configuration: Origin::Own,
        orientation: Origin::Default,
        offset: Origin::Default,
    }
}

#[test]
fn bad_arguments() {
    let image = |dims| Frame::image(DataType::UnsignedByte, dims);
    let code = |frame: &Frame, title: &str, pixels: &[u8]| edf::write(frame, title, pixels).unwrap_err().code();
    assert_eq!(code(&image(&[]), "", &[]), Code::BadArgument);
    assert_eq!(code(&image(&[1, 1, 1, 1]), "", &[1]), Code::BadArgument);
    assert_eq!(code(&image(&[2]), "", &[1]), Code::BadArgument);
    assert_eq!(code(&Frame { configuration: 3, ..image(&[1]) }, "", &[1]), Code::BadArgument);
    assert_eq!(code(&image(&[1]), "\u{80}", &[1]), Code::BadArgument);
    assert_eq!(code(&image(&[1]), &"x".repeat(1024), &[1]), Code::TextTooLong);
    let identity = Identity { sequence: i64::MIN, instance: Instance::Error, memory: i64::MAX };
    assert!(edf::write(&Frame { identity, ..image(&[1]) }, ";".repeat(1023), &[1]).is_ok(), "the longest header");
}

#[test]
fn text_forms() {
    for text in ["", "x;", "\"", "\\", " a ", "\r\n", "{}"] {
        assert_eq!(edf::unescape(edf::escape(text).unwrap()).unwrap(), text);
    }
    assert_eq!(edf::escape(";".repeat(1023)).unwrap().len(), 2048);
    assert_eq!(edf::escape("x".repeat(1024)).unwrap_err().code(), Code::TextTooLong);
    assert_eq!(edf::unescape("{").unwrap_err().code(), Code::BadArgument);
    assert_eq!(edf::unescape("").unwrap(), "");
}

#[test]
fn empty_slices() {
    assert_eq!(File::open(&[]).unwrap_err().code(), Code::NoHeader);
    let bytes = edf::write(&Frame::image(DataType::UnsignedByte, &[1]), "", &[1]).unwrap();
    let block = File::open(&bytes).unwrap().block(0).unwrap();
    assert_eq!(block.text("").unwrap_err().code(), Code::NotFound);
    assert_eq!(block.array().unwrap().read_into(ByteOrder::NATIVE, &mut []).unwrap_err().code(), Code::BufferTooSmall);
}
