//! Where the fields of a description came from: each of the seven in a block's own header, in the general header, in both or in none.

use edf::{File, Origin, Origins};

/// A statement for each field, in the order of `Origins`. Those of Compression and DataValueOffset have the default value.
const STATEMENTS: [&str; 7] = [
    "DataType = SignedByte ;",
    "ByteOrder = LowByteFirst ;",
    "Compression = None ;",
    "Dim_1 = 4 ;",
    "DataRasterConfiguration = 2 ;",
    "RasterOrientation = 2 ;",
    "DataValueOffset = 0 ;",
];

const FIELDS: [usize; 7] = [0, 1, 2, 3, 4, 5, 6];

/// A block of 512 bytes of header and 16 of data.
fn block(statements: &str) -> Vec<u8> {
    format!("{{ {statements:<507} }}\n0123456789abcdef").into_bytes()
}

fn general(statements: &str) -> Vec<u8> {
    block(&format!("EDF_DataFormatVersion = 2.42 ; EDF_DataBlocks = 2 ; EDF_BinarySize = 16 ; {statements}"))
}

fn data(sequence: u8, statements: &str) -> Vec<u8> {
    block(&format!("EDF_DataBlockID = {sequence}.Image.Psd ; EDF_BinarySize = 16 ; {statements}"))
}

/// A data block of a file without EDF_ keys.
fn plain(statements: &str) -> Vec<u8> {
    block(&format!("Size = 16 ; {statements}"))
}

fn origins_of(bytes: &[u8], number: usize) -> [Origin; 7] {
    let Origins { data_type, byte_order, compression, dims, configuration, orientation, offset } =
        File::open(bytes).unwrap().block(number).unwrap().array().unwrap().description().origins;
    [data_type, byte_order, compression, dims, configuration, orientation, offset]
}

/// The statements of the fields that are chosen.
fn chosen(is_chosen: impl Fn(usize) -> bool) -> String {
    FIELDS.into_iter().filter(|&field| is_chosen(field)).map(|field| STATEMENTS[field]).collect()
}

/// All ways to put the seven fields into two headers. The second data block has no fields of its own.
#[test]
fn every_field_in_every_header() {
    for own in 0..1 << 7 {
        for in_general in 0..1 << 7 {
            let is_own = |field: usize| own >> field & 1 == 1;
            let is_general = |field: usize| in_general >> field & 1 == 1;
            let inherited = |field: usize| if is_general(field) { Origin::General } else { Origin::Default };
            let expected = |field: usize| if is_own(field) { Origin::Own } else { inherited(field) };
            let bytes = [general(&chosen(is_general)), data(1, &chosen(is_own)), data(2, "")].concat();
            assert_eq!(origins_of(&bytes, 1), FIELDS.map(expected), "own {own:07b}, general {in_general:07b}");
            assert_eq!(origins_of(&bytes, 2), FIELDS.map(inherited), "general {in_general:07b}");
        }
    }
}

/// In a file without a general header a field is a block's own or the default, whatever other blocks have.
#[test]
fn without_a_general_header() {
    for own in 0..1 << 7 {
        let is_own = |field: usize| own >> field & 1 == 1;
        let of = |is_written: bool| if is_written { Origin::Own } else { Origin::Default };
        let (some, others) = (chosen(is_own), chosen(|field| !is_own(field)));
        for bytes in [[data(1, &some), data(2, &others)].concat(), [plain(&some), plain(&others)].concat()] {
            assert_eq!(origins_of(&bytes, 0), FIELDS.map(|field| of(is_own(field))), "{own:07b}");
            assert_eq!(origins_of(&bytes, 1), FIELDS.map(|field| of(!is_own(field))), "{own:07b}");
        }
    }
}

/// The origin of the dimensions is that of Dim_1, whichever header has the others.
#[test]
fn dimensions() {
    let dims = |general_header: &str, own: &str| {
        let bytes = [general(&format!("DataType = UnsignedByte ; {general_header}")), data(1, own), data(2, "")].concat();
        let array = File::open(&bytes).unwrap().block(1).unwrap().array().unwrap();
        (array.description().dims().to_vec(), array.description().origins.dims)
    };
    assert_eq!(dims("Dim_1 = 2 ;", "Dim_2 = 3 ;"), (vec![2, 3], Origin::General));
    assert_eq!(dims("Dim_2 = 3 ;", "Dim_1 = 2 ;"), (vec![2, 3], Origin::Own));
    assert_eq!(dims("Dim_1 = 9 ; Dim_2 = 3 ;", "Dim_1 = 2 ;"), (vec![2, 3], Origin::Own));
    assert_eq!(dims("Dim_2 = 3 ;", "Dim_3 = 2 ;"), (vec![0], Origin::Default));
}

/// A written value is its header's also where it equals the default.
#[test]
fn written_defaults() {
    let defaults = "DataType = FloatIEEE32 ; ByteOrder = HighByteFirst ; Compression = None ; Dim_1 = 1 ; DataRasterConfiguration = 1 ; \
                    RasterOrientation = 1 ; DataValueOffset = 0 ;";
    let bytes = [general(""), data(1, defaults), data(2, "")].concat();
    assert_eq!((origins_of(&bytes, 1), origins_of(&bytes, 2)), ([Origin::Own; 7], [Origin::Default; 7]));
    let bytes = [general(defaults), data(1, ""), data(2, "")].concat();
    assert_eq!(origins_of(&bytes, 1), [Origin::General; 7]);
}
