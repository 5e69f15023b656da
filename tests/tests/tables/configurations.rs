//! All 58 configurations. The stored bytes are 1, 2, 3 and so on; a line of the table is N, the number, and the array of 2, 2 by 3 or
//! 2 by 3 by 4 elements as it is delivered, found by going through the elements in the stored order.

use edf_tests::answer::Call;
use edf_tests::files::array;
use edf_tests::told::expect;

const TABLE: &str = include_str!("configurations.txt");

fn stored(dims: &[usize], number: &str) -> Vec<u8> {
    let fields: String = dims.iter().enumerate().map(|(i, dim)| format!("Dim_{}={dim};", i + 1)).collect();
    let bytes: Vec<u8> = (1..=dims.iter().product::<usize>() as u8).collect();
    array(&format!("DataType=UnsignedByte;{fields}DataRasterConfiguration={number};"), &bytes)
}

#[test]
fn every_configuration() {
    let lines: Vec<&str> = TABLE.lines().collect();
    assert_eq!(lines.len(), 2 + 8 + 48);
    for line in lines {
        let [n, number, expected] = line.splitn(3, ' ').collect::<Vec<_>>()[..] else { panic!("{line}") };
        let file = stored(&[2, 3, 4][..n.parse().unwrap()], number);
        expect(&file, Call::ReadArray { block: 0, order: 1, room: 24 }, expected);
    }
}
