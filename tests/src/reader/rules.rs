//! The rules on EDF_ keys and Size: check 9, and the facts that later checks use.

use super::identity::{parse_identity, Identity};
use super::number::{all_digits, parse_whole};
use super::statement::{value_of, Statement};

/// What a header is: of a kind 1 file, or the general or a data header of a kind 2 file.
#[derive(Clone, Copy, Debug, PartialEq, Eq)]
pub enum Role {
    Plain,
    General,
    Data,
}

/// "EDF_DataBlocks is a whole number from 1 ... or `Undetermined`".
#[derive(Clone, Copy, Debug, PartialEq, Eq)]
pub enum Count {
    Whole(i64),
    Undetermined,
}

/// What a header that keeps the rules says.
#[derive(Clone, Debug, PartialEq, Eq)]
pub struct Facts {
    pub role: Role,
    pub extent: i64,
    pub header_size: Option<i64>,
    pub external: bool,
    pub boundary: Option<i64>,
    pub count: Option<Count>,
    pub identity: Option<Identity>,
}

/// "A file is of kind 2 exactly if its first header has a statement and its key starts with `edf_`".
pub fn role_of_first(statements: &[Statement]) -> Role {
    match statements.first() {
        Some(statement) if !is_edf(&statement.key) => Role::Plain,
        Some(statement) if statement.key == b"edf_dataformatversion" => Role::General,
        Some(_) => Role::Data,
        None => Role::Plain,
    }
}

/// "Every other header starts with EDF_DataBlockID", in kind 2.
pub fn role_of_other(first: Role) -> Role {
    match first {
        Role::Plain => Role::Plain,
        Role::General | Role::Data => Role::Data,
    }
}

pub fn is_edf(key: &[u8]) -> bool {
    key.starts_with(b"edf_")
}

/// The facts of a header, none where a rule of check 9 is broken.
pub fn facts(file: &[u8], role: Role, statements: &[Statement]) -> Option<Facts> {
    let sayings = Sayings { file, statements };
    match role {
        Role::Plain => plain_facts(&sayings),
        Role::General => general_facts(&sayings),
        Role::Data => data_facts(&sayings),
    }
}

/// A header's statements with the file that holds their values.
struct Sayings<'a> {
    file: &'a [u8],
    statements: &'a [Statement],
}

impl<'a> Sayings<'a> {
    /// The value of a key at any position.
    fn value(&self, key: &[u8]) -> Option<&'a [u8]> {
        let found = self.statements.iter().find(|s| s.key == key);
        found.map(|s| value_of(self.file, s))
    }

    /// The value of a key at its named position.
    fn value_at(&self, position: usize, key: &[u8]) -> Option<&'a [u8]> {
        let statement = self.statements.get(position).filter(|s| s.key == key);
        statement.map(|s| value_of(self.file, s))
    }

    /// "an EDF_ key counts only if all statements before it in its header are EDF_ keys".
    fn counting(&self, key: &[u8]) -> Option<&'a [u8]> {
        let position = self.statements.iter().position(|s| s.key == key)?;
        let counts = self.statements[..position].iter().all(|s| is_edf(&s.key));
        if counts { self.value_at(position, key) } else { None }
    }
}

/// "In kind 1 all EDF_ keys are ignored, and the extent's length is Size (absent: 0)."
fn plain_facts(sayings: &Sayings) -> Option<Facts> {
    let extent = number_from(sayings.value(b"size"), 0)?.unwrap_or(0);
    Some(Facts { role: Role::Plain, extent, header_size: None, external: false, boundary: None, count: None, identity: None })
}

/// "its first key is EDF_DataFormatVersion (then it is the general header, and its second key is EDF_DataBlocks)".
fn general_facts(sayings: &Sayings) -> Option<Facts> {
    let version = sayings.value_at(0, b"edf_dataformatversion")?;
    let count = parse_count(sayings.value_at(1, b"edf_datablocks")?)?;
    let boundary = number_from(sayings.counting(b"edf_blockboundary"), 1)?;
    if !is_version(version) {
        return None;
    }
    let common = common_facts(sayings, Role::General)?;
    Some(Facts { boundary, count: Some(count), ..common })
}

/// "Every other header starts with EDF_DataBlockID."
fn data_facts(sayings: &Sayings) -> Option<Facts> {
    let identity = parse_identity(sayings.value_at(0, b"edf_datablockid")?)?;
    let common = common_facts(sayings, Role::Data)?;
    Some(Facts { identity: Some(identity), ..common })
}

/// "In kind 2 the length is EDF_BinarySize (absent: 0)"; "EDF_HeaderSize, if it counts, is a whole number (else 9)".
fn common_facts(sayings: &Sayings, role: Role) -> Option<Facts> {
    let extent = number_from(sayings.counting(b"edf_binarysize"), 0)?.unwrap_or(0);
    let header_size = number_from(sayings.counting(b"edf_headersize"), i64::MIN)?;
    let external = sayings.counting(b"edf_binaryfilename").is_some();
    Some(Facts { role, extent, header_size, external, boundary: None, count: None, identity: None })
}

/// None where a value is there and is no whole number from `lowest`; else the number if the value is there.
fn number_from(value: Option<&[u8]>, lowest: i64) -> Option<Option<i64>> {
    match value {
        None => Some(None),
        Some(bytes) => parse_whole(bytes).filter(|&number| number >= lowest).map(Some),
    }
}

/// "a whole number from 1 ... or `Undetermined`".
fn parse_count(value: &[u8]) -> Option<Count> {
    if value == b"Undetermined" {
        return Some(Count::Undetermined);
    }
    parse_whole(value).filter(|&count| count >= 1).map(Count::Whole)
}

/// "The version is digits, not all 0, a point, two digits."
fn is_version(value: &[u8]) -> bool {
    let words: Vec<&[u8]> = value.split(|&byte| byte == b'.').collect();
    let [major, minor] = words[..] else {
        return false;
    };
    all_digits(major) && major.iter().any(|&digit| digit != b'0') && all_digits(minor) && minor.len() == 2
}

#[cfg(test)]
mod tests {
    use super::super::header::braced_header;
    use super::super::statement::read_statements;
    use super::*;

    fn facts_of(role: Role, body: &str) -> Option<Facts> {
        let file = format!("{{{body}}}\n").into_bytes();
        let statements = read_statements(&file, &braced_header(&file, 0).unwrap()).unwrap();
        facts(&file, role, &statements)
    }

    fn role(body: &str) -> Role {
        let file = format!("{{{body}}}\n").into_bytes();
        role_of_first(&read_statements(&file, &braced_header(&file, 0).unwrap()).unwrap())
    }

    #[test]
    fn the_kind_is_judged_by_the_first_statement() {
        assert_eq!(role(""), Role::Plain);
        assert_eq!(role("Title=x;EDF_DataBlockID=1.Image.Psd;"), Role::Plain);
        assert_eq!(role("EDF_DataBlockID=1.Image.Psd;"), Role::Data);
        assert_eq!(role("EDF_=;"), Role::Data);
        assert_eq!(role("e D f _DataFormatVersion=;"), Role::General);
        assert_eq!(role("EDF=;"), Role::Plain);
    }

    #[test]
    fn size_in_kind_1() {
        let extent = |body| facts_of(Role::Plain, body).map(|f| f.extent);
        assert_eq!(extent(""), Some(0));
        assert_eq!(extent("a=1;Size=\"512\";EDF_BinarySize=3;"), Some(512));
        assert_eq!(extent("Size=-0;"), Some(0));
        assert_eq!(extent("Size=-1;"), None);
        assert_eq!(extent("Size=;"), None);
        assert_eq!(extent("Size=9223372036854775808;"), None);
    }

    #[test]
    fn binary_size_in_kind_2() {
        let extent = |body: &str| facts_of(Role::Data, &format!("EDF_DataBlockID=1.Image.Psd;{body}")).map(|f| f.extent);
        assert_eq!(extent("Size=x;"), Some(0));
        assert_eq!(extent("EDF_x=;EDF_BinarySize=7;"), Some(7));
        assert_eq!(extent("Title=;EDF_BinarySize=x;"), Some(0));
        assert_eq!(extent("EDF_BinarySize=-1;"), None);
        assert_eq!(extent("EDF_BinarySize=1.0;"), None);
    }

    #[test]
    fn header_size_and_external_file() {
        let with = |body: &str| facts_of(Role::Data, &format!("EDF_DataBlockID=1.Image.Psd;{body}"));
        assert_eq!(with("EDF_HeaderSize=-5;").unwrap().header_size, Some(-5));
        assert_eq!(with("a=;EDF_HeaderSize=-5;").unwrap().header_size, None);
        assert_eq!(with("EDF_HeaderSize=x;"), None);
        assert!(with("EDF_BinaryFileName=;").unwrap().external);
        assert!(!with("a=;EDF_BinaryFileName=;").unwrap().external);
    }

    #[test]
    fn data_headers_start_with_their_identity() {
        assert!(facts_of(Role::Data, "EDF_DataBlockID=1.Image.Psd;EDF_BlockBoundary=x;EDF_DataBlocks=x;").is_some());
        assert!(facts_of(Role::Data, "EDF_x=1;EDF_DataBlockID=1.Image.Psd;").is_none());
        assert!(facts_of(Role::Data, "EDF_DataBlockID=1.Image.Psd.1;").is_none());
        assert!(facts_of(Role::Data, "").is_none());
    }

    #[test]
    fn versions() {
        let kept = |version: &str| facts_of(Role::General, &format!("EDF_DataFormatVersion={version};EDF_DataBlocks=1;")).is_some();
        for version in ["2.42", "1.00", "002.40", "10.00", "99999999999999999999999.00"] {
            assert!(kept(version), "{version}");
        }
        for version in ["", "2", "2.4", "2.423", "0.42", "00.42", ".42", "+2.42", "2.42.", "2.4x", "a.42", "2..4"] {
            assert!(!kept(version), "{version}");
        }
    }

    #[test]
    fn data_blocks_is_the_second_key() {
        let general = |body: &str| facts_of(Role::General, &format!("EDF_DataFormatVersion=2.42;{body}"));
        assert_eq!(general("EDF_DataBlocks=3;").unwrap().count, Some(Count::Whole(3)));
        assert_eq!(general("EDF_DataBlocks=Undetermined;").unwrap().count, Some(Count::Undetermined));
        for body in ["", "EDF_x=;EDF_DataBlocks=3;", "a=;EDF_DataBlocks=3;", "EDF_DataBlocks=0;", "EDF_DataBlocks=undetermined;"] {
            assert!(general(body).is_none(), "{body}");
        }
    }

    #[test]
    fn boundaries() {
        let boundary = |body: &str| {
            facts_of(Role::General, &format!("EDF_DataFormatVersion=2.42;EDF_DataBlocks=1;{body}")).map(|f| f.boundary)
        };
        assert_eq!(boundary(""), Some(None));
        assert_eq!(boundary("EDF_BlockBoundary=1;"), Some(Some(1)));
        assert_eq!(boundary("EDF_BlockBoundary=0;"), None);
        assert_eq!(boundary("EDF_BlockBoundary=x;"), None);
        assert_eq!(boundary("a=;EDF_BlockBoundary=0;"), Some(None));
    }
}
