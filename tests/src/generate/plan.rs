//! A file as planned: statements, patterns and data, before it is put into bytes.

/// Stands in a value for the header's own length, six characters wide.
pub const OWN_LENGTH: &[u8] = b"\x01\x01\x01\x01\x01\x01";

/// A statement as written, with its white.
#[derive(Clone, Debug)]
pub struct Statement {
    pub key: Vec<u8>,
    pub equals: Vec<u8>,
    pub value: Vec<u8>,
}

impl Statement {
    pub fn new(key: &[u8], value: &[u8]) -> Statement {
        Statement { key: key.to_vec(), equals: b"=".to_vec(), value: value.to_vec() }
    }
}

/// A block: header and data. What leads the header is a start pattern in kind 2, and a gap in kind 1. It counts in all lengths here.
/// `shift` bytes are added to a length that is a multiple; an exact length is kept where the statements leave room for it.
#[derive(Clone, Debug)]
pub struct BlockPlan {
    pub lead: Vec<u8>,
    pub statements: Vec<Statement>,
    pub tail: Vec<u8>,
    pub close: Vec<u8>,
    pub boundary: usize,
    pub exact_length: Option<usize>,
    pub shift: usize,
    pub data: Vec<u8>,
}

impl BlockPlan {
    pub fn new(boundary: usize) -> BlockPlan {
        BlockPlan {
            lead: vec![], statements: vec![], tail: vec![], close: b"}\n".to_vec(),
            boundary, exact_length: None, shift: 0, data: vec![],
        }
    }

    /// The place of a key's statement.
    pub fn place(&self, key: &[u8]) -> Option<usize> {
        self.statements.iter().position(|s| plain(&s.key) == plain(key))
    }

    /// Sets a key's value, or adds the statement at the end.
    pub fn set(&mut self, key: &[u8], value: &[u8]) {
        match self.place(key) {
            Some(place) => self.statements[place].value = value.to_vec(),
            None => self.statements.push(Statement::new(key, value)),
        }
    }

    /// Sets a key's value, or adds the statement after the EDF_ keys at the top.
    pub fn set_at_top(&mut self, key: &[u8], value: &[u8]) {
        match self.place(key) {
            Some(place) => self.statements[place].value = value.to_vec(),
            None => self.statements.insert(self.top(), Statement::new(key, value)),
        }
    }

    pub fn remove(&mut self, key: &[u8]) {
        if let Some(place) = self.place(key) {
            self.statements.remove(place);
        }
    }

    /// How many statements at the top have EDF_ keys.
    pub fn top(&self) -> usize {
        self.statements.iter().take_while(|s| plain(&s.key).starts_with(b"edf_")).count()
    }

    pub fn render(&self) -> Vec<u8> {
        let mut bytes = [&self.lead[..], b"{"].concat();
        for s in &self.statements {
            bytes.extend([&s.key[..], &s.equals, &s.value, b";"].concat());
        }
        bytes.extend(&self.tail);
        let length = self.length(bytes.len() + self.close.len());
        bytes.resize(length - self.close.len(), b' ');
        bytes.extend(&self.close);
        put_own_length(&mut bytes);
        bytes.extend(&self.data);
        bytes
    }

    /// The header's length, where so many bytes are needed.
    fn length(&self, needed: usize) -> usize {
        let usual = needed.next_multiple_of(self.boundary) + self.shift;
        self.exact_length.filter(|&exact| exact >= needed).unwrap_or(usual)
    }
}

/// A key without white, in small letters.
pub fn plain(key: &[u8]) -> Vec<u8> {
    key.iter().filter(|byte| !b" \t\r\n\x0b\x0c".contains(byte)).map(u8::to_ascii_lowercase).collect()
}

fn put_own_length(header: &mut [u8]) {
    let text = format!("{:>6}", header.len());
    let place = header.windows(OWN_LENGTH.len()).position(|window| window == OWN_LENGTH);
    if let (Some(place), 6) = (place, text.len()) {
        header[place..place + 6].copy_from_slice(text.as_bytes());
    }
}

/// A whole file.
#[derive(Clone, Debug)]
pub struct Plan {
    pub kind: u8,
    pub general: bool,
    pub blocks: Vec<BlockPlan>,
    pub after: Vec<u8>,
}

impl Plan {
    pub fn render(&self) -> Vec<u8> {
        let blocks: Vec<Vec<u8>> = self.blocks.iter().map(BlockPlan::render).collect();
        [blocks.concat(), self.after.clone()].concat()
    }
}

#[cfg(test)]
mod tests {
    use super::*;

    #[test]
    fn headers_are_filled_to_the_boundary() {
        let mut block = BlockPlan::new(16);
        block.set(b"a", b"b");
        block.data = b"xy".to_vec();
        assert_eq!(block.render(), b"{a=b;         }\nxy");
        block.shift = 1;
        assert_eq!(block.render(), b"{a=b;          }\nxy");
    }

    #[test]
    fn own_length() {
        let mut block = BlockPlan::new(20);
        block.set(b"a", OWN_LENGTH);
        assert_eq!(block.render(), b"{a=    20;        }\n");
    }

    #[test]
    fn keys_of_the_top() {
        let mut block = BlockPlan::new(1);
        block.set(b"E DF_a", b"");
        block.set(b"b", b"");
        block.set_at_top(b"EDF_c", b"1");
        block.set(b"edf_A", b"2");
        assert_eq!(block.render(), b"{E DF_a=2;EDF_c=1;b=;}\n");
    }
}
