//! The generated cases stand often on both sides of each rule on whitespace (02, No. 4): where gaps stand and what is in them, what is
//! refused and at which position, before the kind of the file is known and after.

use edf_tests::generate::case;
use edf_tests::generate::gaps::NEAR;
use edf_tests::parallel;
use edf_tests::reader::header::{braced_header, patterned_header, with_pattern, Header, LONGEST_HEADER};
use edf_tests::reader::opening::{cut_anew, Block, MOST_BLOCKS};
use edf_tests::reader::rules::{facts, role_of_first, Role};
use edf_tests::reader::statement::{check_statements, folded_key, read_statements, value_of, Statement};
use edf_tests::reader::white::{first_solid, is_white, WHITE};
use edf_tests::reader::Error;
use std::collections::{BTreeMap, BTreeSet};

/// The first of the cases that the library is compared on.
const SEED: u64 = 1;
const CASES: usize = 20_000;

/// What a file shows.
type Shown = BTreeSet<String>;

/// Those that are so.
fn true_ones<const N: usize>(facts: [(bool, &str); N]) -> Shown {
    facts.into_iter().filter(|(is, _)| *is).map(|(_, what)| what.to_string()).collect()
}

/// The end of a block.
fn end(block: &Block) -> usize {
    block.header.start + block.header.length + block.extent
}

/// The gaps of an accepted file of kind 1: before the first header, between blocks, and after the last.
fn gaps_of<'a>(file: &'a [u8], blocks: &[Block]) -> Vec<(&'static str, &'a [u8])> {
    let mut gaps = vec![("before", &file[..blocks[0].header.start])];
    gaps.extend(blocks.windows(2).map(|pair| ("between", &file[end(&pair[0])..pair[1].header.start])));
    gaps.push(("after", &file[end(&blocks[blocks.len() - 1])..]));
    gaps
}

fn of_gap(place: &str, gap: &[u8]) -> Shown {
    let bytes: Shown = gap.iter().map(|byte| format!("gap {place}, byte {byte}")).collect();
    let whole = [
        (gap.is_empty(), format!("no gap {place}")),
        (gap.len() > LONGEST_HEADER - 2, "a gap as long as the longest header".to_string()),
    ];
    bytes.into_iter().chain(whole.into_iter().filter(|(is, _)| *is).map(|(_, what)| what)).collect()
}

/// A block of kind 1, with the gap after it.
fn of_block_of_kind_1(file: &[u8], block: &Block, gap: &[u8]) -> Shown {
    let Header { start, length, .. } = block.header;
    let said = block.statements.iter().find(|statement| statement.key == b"edf_headersize");
    let data = &file[start + length..end(block)];
    true_ones([
        (length % 512 == 0, "kind 1, a header of a multiple of 512"),
        (length % 512 != 0, "kind 1, a header of no multiple of 512"),
        (said.is_some_and(|said| value_of(file, said) != length.to_string().as_bytes()), "kind 1, EDF_HeaderSize ignored"),
        (!data.is_empty() && data.iter().all(|byte| is_white(*byte)) && !gap.is_empty(), "whitespace as data, and then a gap"),
        (start > 0 && length == LONGEST_HEADER, "kind 1, 65,536 bytes after a gap"),
        (start > 0 && length == LONGEST_HEADER - 1, "kind 1, 65,535 bytes after a gap"),
    ])
}

fn of_kind_1(file: &[u8], blocks: &[Block]) -> Shown {
    let gaps = gaps_of(file, blocks);
    let mut shown: Shown = gaps.iter().flat_map(|(place, gap)| of_gap(place, gap)).collect();
    shown.extend(blocks.iter().zip(&gaps[1..]).flat_map(|(block, (_, gap))| of_block_of_kind_1(file, block, gap)));
    let full = blocks.len() == MOST_BLOCKS;
    let trailing = gaps.last().is_some_and(|(_, gap)| !gap.is_empty());
    shown.extend(true_ones([(full && trailing, "kind 1, 256 blocks and whitespace"), (full && !trailing, "kind 1, 256 blocks")]));
    shown
}

/// The patterns of an accepted file of kind 2.
fn of_kind_2(file: &[u8], blocks: &[Block]) -> Shown {
    let of_block = |(number, block): (usize, &Block)| {
        let Header { start, length, .. } = block.header;
        let (place, pattern) = (if number == 0 { "first" } else { "later" }, block.header.body - start - 1);
        assert!(pattern < 3 && file[start + pattern] == b'{');
        let longest = (pattern > 0 && length == LONGEST_HEADER).then(|| format!("kind 2, {place} header of 65,536 bytes with its pattern"));
        [format!("kind 2, {place} pattern of {pattern} bytes")].into_iter().chain(longest).collect::<Vec<_>>()
    };
    blocks.iter().enumerate().flat_map(of_block).collect()
}

/// The bytes from a brace up to the byte that ends the body or may not stand there, and that byte.
fn stop(file: &[u8], brace: usize) -> Option<(usize, u8)> {
    let found = (brace + 1..file.len()).find(|&i| matches!(file[i], 0 | b'{' | b'}' | 128..))?;
    Some((found - brace, file[found]))
}

/// A refused header that ends at either side of 65,536 bytes, counted from its brace.
fn of_long_header(file: &[u8], brace: usize, code: u8, place: &str) -> Shown {
    let length = match stop(file, brace) {
        Some((LONGEST_HEADER, byte)) if byte != b'}' => Some("a byte of refusal 4 just outside"),
        Some((length, b'}')) if length + 2 == LONGEST_HEADER && file.get(brace + length + 1) == Some(&b'\n') => Some("65,536 bytes"),
        Some((length, b'}')) if length + 2 == LONGEST_HEADER + 1 && file.get(brace + length + 1) == Some(&b'\n') => Some("65,537 bytes"),
        _ => None,
    };
    length.map(|what| format!("{code}, {place}, {what} from the brace")).into_iter().collect()
}

/// A file that is refused before its kind is known.
fn of_unknown_kind(file: &[u8], brace: usize, error: Error) -> Shown {
    let gap = if brace > 0 { "after a gap" } else { "at 0" };
    if error.code == 3 {
        let what = match file.get(brace) {
            Some(byte) if !NEAR.contains(byte) => "kind unknown, 3 at another byte".to_string(),
            Some(byte) => format!("kind unknown, 3 {gap}, byte {byte}"),
            None => format!("no header, 3 at {}", if brace == 0 { "0" } else { "the length" }),
        };
        return Shown::from([what]);
    }
    let text = folded_key(&file[brace..file.len().min(brace + 40)]).starts_with(b"{edf_");
    let mut shown = Shown::from([format!("kind unknown, {} {gap}", error.code)]);
    shown.extend(text.then(|| format!("kind unknown, {} {gap}, EDF_ key first", error.code)));
    shown.extend(true_ones([(brace > 0 && error.position == brace + LONGEST_HEADER - 1, "4 at the last of 65,536 bytes after a gap")]));
    shown.extend((brace > 0).then(|| of_long_header(file, brace, error.code, "kind unknown")).into_iter().flatten());
    shown
}

/// A file of kind 1 that is refused once its kind is known. What stands before the position is a file of its own, or a gap alone.
fn of_refused_kind_1(file: &[u8], error: Error) -> Shown {
    let Error { code, position } = error;
    let last = cut_anew(&file[..position]).map_or(0, |blocks| blocks.last().map_or(0, end));
    let gap = if last < position { "after a gap" } else { "after no gap" };
    let near = Some(file[position]).filter(|byte| code == 3 && NEAR.contains(byte));
    match code {
        4 => Shown::from(["kind 1, 4 in a later header".to_string()]),
        _ => near.map(|byte| format!("kind 1, 3 at byte {byte}")).into_iter().chain([format!("kind 1, {code} {gap}")]).collect(),
    }
}

/// The first fault of a header after check 6, whatever stands before it.
fn later_fault(file: &[u8], header: &Header, role: Role, statements: &[Statement]) -> Option<u8> {
    let fault = check_statements(file, header, statements).err().map(|error| error.code);
    fault.or_else(|| facts(file, role, statements).is_none().then_some(9))
}

/// A first header that proves to be of kind 2, and is refused for what stands before it.
fn of_first_pattern(file: &[u8], header: &Header, code: u8, later: Option<u8>) -> Shown {
    let lead = match &file[..header.start] {
        lead if lead.len() < 3 => format!("{:?}", String::from_utf8_lossy(lead)),
        _ => "more bytes".to_string(),
    };
    let mut shown = Shown::from([format!("kind 2, {code} at 0 after {lead}")]);
    shown.extend(later.map(|later| format!("kind 2, {code} at 0 before {later}")));
    shown
}

/// A file of kind 2 that is refused once its kind is known, for another reason.
fn of_refused_kind_2(file: &[u8], brace: usize, error: Error) -> Shown {
    let Error { code, position } = error;
    let white = file.get(position).is_some_and(|byte| is_white(*byte));
    let what = match (code, first_solid(file, position) == file.len()) {
        (3, true) if white => format!("kind 2, 3 at whitespace at the end, byte {}", file[position]),
        (3, false) if white => format!("kind 2, 3 at whitespace between, byte {}", file[position]),
        (14, _) => format!("kind 2, 14 at {}", if white { "whitespace" } else { "another byte" }),
        _ if position == 0 && brace > 0 => format!("kind 2, {code} at 0 after a pattern"),
        _ if position > 0 && white => format!("kind 2, {code} at a later pattern"),
        _ => "kind 2, another refusal".to_string(),
    };
    let later = (code == 5 && position > 0).then(|| of_long_header(file, first_solid(file, position), code, "later header of kind 2"));
    [what].into_iter().chain(later.into_iter().flatten()).collect()
}

fn of_refused(file: &[u8], error: Error) -> Shown {
    let brace = first_solid(file, 0);
    let read = braced_header(file, brace).and_then(|header| Ok((header, read_statements(file, &header)?)));
    let Ok((header, statements)) = read else { return of_unknown_kind(file, brace, error) };
    let role = role_of_first(&statements);
    match with_pattern(file, header) {
        _ if role == Role::Plain => of_refused_kind_1(file, error),
        Err(first) => of_first_pattern(file, &header, first.code, later_fault(file, &header, role, &statements)),
        Ok(header) => {
            assert_eq!(patterned_header(file, 0), Ok(header));
            of_refused_kind_2(file, brace, error)
        }
    }
}

fn shown(file: &[u8]) -> Shown {
    match cut_anew(file) {
        Ok(blocks) if blocks[0].facts.role == Role::Plain => of_kind_1(file, &blocks),
        Ok(blocks) => of_kind_2(file, &blocks),
        Err(error) => of_refused(file, error),
    }
}

/// How many cases are to show each of these at least.
const WANTED: &[(&str, usize)] = &[
    // Kind 1, accepted.
    ("no gap before", 500), ("no gap between", 500), ("no gap after", 500), ("a gap as long as the longest header", 15),
    ("whitespace as data, and then a gap", 250), ("kind 1, a header of a multiple of 512", 150),
    ("kind 1, a header of no multiple of 512", 1_000), ("kind 1, EDF_HeaderSize ignored", 40), ("kind 1, 65,535 bytes after a gap", 6),
    ("kind 1, 65,536 bytes after a gap", 15), ("kind 1, 256 blocks", 6), ("kind 1, 256 blocks and whitespace", 6),
    // Kind 1, refused.
    ("kind 1, 3 after a gap", 60), ("kind 1, 3 after no gap", 40), ("kind 1, 4 in a later header", 30), ("kind 1, 5 after a gap", 20),
    ("kind 1, 6 after a gap", 10), ("kind 1, 7 after a gap", 20), ("kind 1, 7 after no gap", 10), ("kind 1, 8 after a gap", 40),
    ("kind 1, 8 after no gap", 20), ("kind 1, 9 after a gap", 12), ("kind 1, 12 after a gap", 15), ("kind 1, 14 after a gap", 6),
    ("kind 1, 14 after no gap", 8),
    // No header, or one that is refused before the kind is known.
    ("no header, 3 at 0", 25), ("no header, 3 at the length", 25), ("kind unknown, 3 at another byte", 30),
    ("kind unknown, 4 at 0", 150), ("kind unknown, 4 after a gap", 150), ("kind unknown, 4 after a gap, EDF_ key first", 80),
    ("kind unknown, 5 at 0", 150), ("kind unknown, 5 after a gap", 200), ("kind unknown, 5 after a gap, EDF_ key first", 120),
    ("kind unknown, 6 at 0", 100), ("kind unknown, 6 after a gap", 100), ("kind unknown, 6 after a gap, EDF_ key first", 80),
    ("4 at the last of 65,536 bytes after a gap", 4), ("5, kind unknown, a byte of refusal 4 just outside from the brace", 4),
    ("5, kind unknown, 65,537 bytes from the brace", 20), ("6, kind unknown, 65,536 bytes from the brace", 3),
    // Kind 2: the first header.
    ("kind 2, first pattern of 0 bytes", 1_000), ("kind 2, first pattern of 1 bytes", 400), ("kind 2, first pattern of 2 bytes", 400),
    ("kind 2, 3 at 0 after \" \"", 25), ("kind 2, 3 at 0 after \"\\t\"", 20), ("kind 2, 3 at 0 after \"\\r\"", 20),
    ("kind 2, 3 at 0 after \"\\n\\n\"", 30), ("kind 2, 3 at 0 after \"\\n\\r\"", 15), ("kind 2, 3 at 0 after \" \\n\"", 20),
    ("kind 2, 3 at 0 after \"\\u{b}\"", 20), ("kind 2, 3 at 0 after \"\\u{c}\"", 20), ("kind 2, 3 at 0 after more bytes", 80),
    ("kind 2, 3 at 0 before 7", 15), ("kind 2, 3 at 0 before 8", 30), ("kind 2, 3 at 0 before 9", 60),
    ("kind 2, first header of 65,536 bytes with its pattern", 5), ("kind 2, 5 at 0 after \"\\n\"", 10), ("kind 2, 5 at 0 after \"\\r\\n\"", 10),
    ("kind 2, 5 at 0 before 7", 2), ("kind 2, 5 at 0 before 8", 4), ("kind 2, 5 at 0 before 9", 5),
    ("kind 2, 7 at 0 after a pattern", 15), ("kind 2, 8 at 0 after a pattern", 30), ("kind 2, 9 at 0 after a pattern", 100),
    ("kind 2, 10 at 0 after a pattern", 10), ("kind 2, 11 at 0 after a pattern", 80), ("kind 2, 12 at 0 after a pattern", 8),
    // Kind 2: later headers, and what is left.
    ("kind 2, later pattern of 0 bytes", 1_000), ("kind 2, later pattern of 1 bytes", 500), ("kind 2, later pattern of 2 bytes", 500),
    ("kind 2, later header of 65,536 bytes with its pattern", 4), ("5, later header of kind 2, 65,536 bytes from the brace", 5),
    ("kind 2, 14 at whitespace", 5), ("kind 2, 14 at another byte", 10),
];

/// What is to be shown with each byte of whitespace, and with each that is nearly whitespace.
const WITH_WHITE: [(&str, usize); 5] = [
    ("gap before, byte", 200), ("gap between, byte", 250), ("gap after, byte", 200), ("kind 2, 3 at whitespace at the end, byte", 10),
    ("kind 2, 3 at whitespace between, byte", 20),
];
const WITH_NEAR: [(&str, usize); 3] = [("kind unknown, 3 at 0, byte", 5), ("kind unknown, 3 after a gap, byte", 12), ("kind 1, 3 at byte", 4)];

fn wanted() -> Vec<(String, usize)> {
    let with = |names: &[(&str, usize)], bytes: &[u8]| -> Vec<(String, usize)> {
        names.iter().flat_map(|(name, least)| bytes.iter().map(move |byte| (format!("{name} {byte}"), *least))).collect()
    };
    let named = WANTED.iter().map(|(name, least)| (name.to_string(), *least));
    named.chain(with(&WITH_WHITE, &WHITE)).chain(with(&WITH_NEAR, &NEAR)).collect()
}

#[test]
fn both_sides_of_each_rule_are_reached_often() {
    let mut counts: BTreeMap<String, usize> = BTreeMap::new();
    let all = parallel::for_each(0..CASES, |number| shown(&case(SEED, number).file));
    all.into_iter().flatten().for_each(|what| *counts.entry(what).or_default() += 1);
    println!("seed {SEED}, {CASES} cases: {counts:#?}");
    for (what, least) in wanted() {
        let count = counts.get(&what).copied().unwrap_or(0);
        assert!(count >= least, "{what}: {count}");
    }
}
