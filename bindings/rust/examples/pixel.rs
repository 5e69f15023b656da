//! Opens a file and prints one pixel of a block: `pixel FILE BLOCK I1 I2`.

use std::error::Error;

fn main() -> Result<(), Box<dyn Error>> {
    let words: Vec<String> = std::env::args().collect();
    let [_, path, block, i1, i2] = &words[..] else { return Err("pixel FILE BLOCK I1 I2".into()) };
    let bytes = std::fs::read(path)?;
    let file = edf::File::open(&bytes)?;
    let array = file.block(block.parse()?)?.array()?;
    let pixel = array.pixel([i1.parse()?, i2.parse()?, 0])?;
    println!("{} {:?}: {pixel:?}", array.description().data_type.name(), array.description().dims());
    Ok(())
}
