//! Small files for the unit tests.

/// A header of just this length, spaces filling it.
pub fn padded(body: &str, length: usize) -> Vec<u8> {
    let mut header = format!("{{{body}").into_bytes();
    header.resize(length - 2, b' ');
    header.extend(b"}\n");
    header
}

/// A header of 512 bytes.
pub fn header_of(body: &str) -> Vec<u8> {
    padded(body, 512)
}

/// A general header.
pub fn general(count: &str, length: usize, more: &str) -> Vec<u8> {
    padded(&format!("EDF_DataFormatVersion=2.42;EDF_DataBlocks={count};{more}"), length)
}

/// A data block of kind 2 with as many zero bytes.
pub fn data_block(identity: &str, size: usize) -> Vec<u8> {
    with_data(identity, "", &vec![0; size])
}

/// A data block of kind 2 with more statements and these data bytes.
pub fn with_data(identity: &str, more: &str, data: &[u8]) -> Vec<u8> {
    let body = format!("EDF_DataBlockID={identity};EDF_BinarySize={};{more}", data.len());
    [header_of(&body), data.to_vec()].concat()
}

/// A file of kind 2 with one block.
pub fn one_block(more: &str, data: &[u8]) -> Vec<u8> {
    with_data("1.Image.Psd", more, data)
}
