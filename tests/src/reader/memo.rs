//! The last cut, kept. Calls "answer as if they opened the file anew", and many calls on one file come one after another.

use super::error::Error;
use super::opening::{cut_anew, Block};
use std::cell::RefCell;
use std::rc::Rc;

/// A cut, or the refusal of opening.
pub type Cut = Result<Rc<Vec<Block>>, Error>;

/// Longer files are not kept.
const LONGEST: usize = 1 << 20;

thread_local! {
    static LAST: RefCell<Option<(Vec<u8>, Cut)>> = const { RefCell::new(None) };
}

/// The cut of a file: the last one, if that was of the same bytes.
pub fn cut(file: &[u8]) -> Cut {
    if file.len() > LONGEST {
        return cut_anew(file).map(Rc::new);
    }
    LAST.with_borrow_mut(|last| match last {
        Some((bytes, cut)) if bytes == file => cut.clone(),
        _ => {
            let cut = cut_anew(file).map(Rc::new);
            *last = Some((file.to_vec(), cut.clone()));
            cut
        }
    })
}

#[cfg(test)]
mod tests {
    use super::super::samples::{data_block, padded};
    use super::*;

    #[test]
    fn files_in_turn() {
        let count = |file: &[u8]| cut(file).map(|blocks| blocks.len());
        let two = [data_block("1.Image.Psd", 3), data_block("2.Image.Psd", 0)].concat();
        for _ in 0..2 {
            assert_eq!(count(&two), Ok(2));
            assert_eq!(count(&two), Ok(2));
            assert_eq!(count(&padded("", 512)), Ok(1));
            assert_eq!(count(b""), Err(Error { code: 3, position: 0 }));
            assert_eq!(count(b""), Err(Error { code: 3, position: 0 }));
        }
    }
}
