//! "Numbers of refusal".

/// A refusal: 01's number and the place that 01 gives for it.
#[derive(Clone, Copy, Debug, PartialEq, Eq)]
pub struct Error {
    pub code: u8,
    pub position: usize,
}

/// The refusal as an answer.
pub fn refuse<T>(code: u8, position: usize) -> Result<T, Error> {
    Err(Error { code, position })
}

/// Passes if `kept`, else refuses.
pub fn demand(kept: bool, code: u8, position: usize) -> Result<(), Error> {
    match kept {
        true => Ok(()),
        false => refuse(code, position),
    }
}

#[cfg(test)]
mod tests {
    use super::*;

    #[test]
    fn a_demand_refuses_only_when_not_kept() {
        assert_eq!(demand(true, 3, 0), Ok(()));
        assert_eq!(demand(false, 3, 7), Err(Error { code: 3, position: 7 }));
    }
}
