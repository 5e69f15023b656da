//! Faults that the laws of independent blocks rule out, for copies of the second reader. Each is to be found by a law asked of the faulty
//! reader alone, without another reader to compare it with.

use crate::faults::{fault, Fault};

pub const INDEPENDENCE_FAULTS: &[Fault] = &[
    // A keyword is sought in other blocks.
    fault("keywords.rs", "[Some(own), general]", "[Some(own), general, block.checked_sub(1).and_then(|before| blocks.get(before))]"),
    fault("keywords.rs", "[Some(own), general]", "[Some(own), general, blocks.get(block + 1)]"),
    fault("keywords.rs", "[Some(own), general]", "[Some(own), general, blocks.first()]"),
    fault("keywords.rs", "[Some(own), general]", "[Some(own), general, blocks.last()]"),
    fault("keywords.rs", "blocks.get(block)", "blocks.get(block).and(blocks.first())"),
    fault("keywords.rs", "first.facts.role == Role::General", "first.facts.role != Role::Data"),
    fault("text.rs", "find(file, block, key)?", "find(file, block, key).or_else(|_| find(file, block + 1, key))?"),
    fault("real.rs", "find(file, block, key)?", "find(file, block, key).and((0..256).rev().find_map(|last| find(file, last, key).ok()).ok_or(Error { code: 16, position: 0 }))?"),
    // The general header: its data counts too, or it counts for two data blocks only, not at all, or first.
    fault("opening.rs", "let extent = facts.extent as usize;", "let extent = facts.extent as usize; let data = Header { body: start + header.length, close: start + header.length + extent, ..header }; let statements = match role { Role::General => [statements, read_statements(file, &data).unwrap_or_default()].concat(), _ => statements };"),
    fault("keywords.rs", "block > 0 &&", "block > 0 && block < 3 &&"),
    fault("keywords.rs", "[Some(own), general]", "[Some(own), general.filter(|_| false)]"),
    fault("keywords.rs", "[Some(own), general]", "[general, Some(own)]"),
    // A description takes from other blocks, or from the block's number.
    fault("describe.rs", "Fields { file, blocks, block };", "Fields { file, blocks, block: block - usize::from(block > 1) };"),
    fault("describe.rs", "blocks.get(block)", "blocks.get(block).and(blocks.last())"),
    fault("describe.rs", "array_length() <= own.extent as i128", "array_length() <= own.extent.min(blocks[usize::from(blocks[0].facts.role == Role::General)].extent) as i128"),
    fault("describe.rs", "origins(self.blocks, self.block)", "origins(self.blocks, self.block.max(1) - 1)"),
    fault("describe.rs", ".all(|key| self.value(key).is_some())", ".all(|key| self.blocks.iter().any(|block| block.statements.iter().any(|s| s.key == key.to_lowercase().as_bytes())))"),
    fault("describe.rs", r#""ByteOrder", &BYTE_ORDERS, 1)"#, r#""ByteOrder", &BYTE_ORDERS, Fields { block: 0, ..*self }.word(2, "ByteOrder", &["HighByteFirst", "LowByteFirst"], 1).unwrap_or(1))"#),
    fault("describe.rs", "i64::MIN, i64::MAX, 0)", "i64::MIN, i64::MAX, (self.block % 2) as i64)"),
    // Pixels of other blocks: counted from the file's start, from its end, of the first data block, of the block after.
    fault("array.rs", "let start = block.header.start + block.header.length;", "let start = block.header.length;"),
    fault("array.rs", "let start = block.header.start + block.header.length;", "let start = file.len() - block.extent;"),
    fault("array.rs", "let stored = stored(file, block)?;", "let stored = stored(file, block).and(stored(file, usize::from(cut(file)?[0].facts.role == super::rules::Role::General)))?;"),
    fault("pixel.rs", "let stored = stored(file, block)?;", "let stored = stored(file, block).or_else(|error| stored(file, block + 1).map_err(|_| error))?;"),
    // Positions that do not move with the block, or that tell its start or number.
    fault("keywords.rs", ".map(|s| s.value)", ".map(|s| Span { start: s.value.start - block.header.start, ..s.value })"),
    fault("keywords.rs", "places_in(b, &sought)", "places_in(b, &sought).into_iter().map(|s| Span { start: s.start + own.header.start - b.header.start, ..s }).collect::<Vec<_>>()"),
    fault("array.rs", "(header.start + header.length, bytes.len())", "(header.length, bytes.len())"),
    fault("keywords.rs", "refuse(18, 0)", "refuse(18, block)"),
    fault("real.rs", "demand(written.in_bounds(), 27, 0)", "demand(written.in_bounds(), 27, block)"),
    fault("describe.rs", "own.extent as i128, 20, 0)", "own.extent as i128, 20, own.header.start)"),
    fault("span.rs", "file.get(span.start..end)", "file.get(span.start..end).filter(|_| end <= 4_096)"),
    fault("origin.rs", "if stands_in(&blocks[block], value) =>", "if value.start >= 512 =>"),
    // Concatenated files: rows that do not move, bounds that are counted from the file's start, a block that takes bytes of the next.
    fault("opening.rs", "start: block.header.start,", "start: block.header.start.min(1_024),"),
    fault("opening.rs", "start: block.header.start,", "start: block.header.start.next_multiple_of(512),"),
    fault("opening.rs", "role == Role::Plain || length_kept(", "(role == Role::Plain && start < 2_048) || length_kept("),
    fault("header.rs", "rest.len().min(LONGEST_HEADER)", "rest.len().min(LONGEST_HEADER.saturating_sub(start))"),
    fault("opening.rs", "MOST_BLOCKS: usize = 256", "MOST_BLOCKS: usize = 255"),
    fault("opening.rs", "let extent = facts.extent as usize;", "let extent = if facts.extent == 0 { before.last().map_or(0, |block| block.extent).min(room as usize) } else { facts.extent as usize };"),
    // Gaps: some only before the first block, after the last or up to a length; the start of a row is that of its gap; a gap is taken for data.
    fault("opening.rs", "Some(Role::Plain) | None => first_solid(file, end)", "None => first_solid(file, end), Some(Role::Plain) => Some(first_solid(file, end)).filter(|&start| start == file.len()).unwrap_or(end)"),
    fault("opening.rs", "Some(Role::Plain) | None => first_solid(file, end)", "Some(Role::Plain) | None => Some(first_solid(file, end)).filter(|&start| start == file.len() || start < end + 8).unwrap_or(end)"),
    fault("opening.rs", "Some(Role::Plain) | None => first_solid(file, end)", "Some(Role::Plain) | None => Some(first_solid(file, end)).filter(|_| before.len() < 2).unwrap_or(end)"),
    fault("opening.rs", "judged(file, header, statements, role, before)", "{ let end = before.last().map_or(0, |block| block.header.start + block.header.length + block.extent); judged(file, Header { start: end, length: header.length + header.start - end, ..header }, statements, role, before) }"),
    fault("opening.rs", "judged(file, header, statements, role, &[])", "judged(file, Header { start: 0, length: header.length + header.start, ..header }, statements, role, &[])"),
    fault("opening.rs", "let extent = facts.extent as usize;", "let extent = if role == Role::Plain { first_solid(file, start + header.length + facts.extent as usize) - start - header.length } else { facts.extent as usize };"),
    fault("array.rs", "let start = block.header.start + block.header.length;", "let start = super::white::first_solid(file, block.header.start + block.header.length + block.extent) - block.extent;"),
    fault("keywords.rs", ".map(|s| s.value)", ".map(|s| Span { start: s.value.start - block.header.start.min(3), ..s.value })"),
];
