//! The generated cases stand often on both sides of each rule on origins: what the headers of a described block hold.

use edf_tests::answer::Call;
use edf_tests::generate::{case, Case};
use edf_tests::parallel;
use edf_tests::reader::opening::{cut_anew, Block};
use edf_tests::reader::rules::Role;
use edf_tests::reader::white::stripped;
use edf_tests::reader::{describe, Description, Origin};
use std::collections::{BTreeMap, BTreeSet};

/// The first of the cases that the library is compared on.
const SEED: u64 = 1;
const CASES: usize = 20_000;
const OFTEN: usize = 50;

/// The keys that the seven fields have their origin from, in the order of 01's table.
const KEYS: [&str; 7] =
    ["DataType", "ByteOrder", "Compression", "Dim_1", "DataRasterConfiguration", "RasterOrientation", "DataValueOffset"];

/// The values of the seven fields where no header has them.
fn defaults(d: &Description) -> [bool; 7] {
    [
        d.data_type == 7, d.order == 1, d.compression == 1, d.dim_1 == 0, d.configuration == 1, d.orientation == 1, d.offset == 0,
    ]
}

/// A described block of a file, with the file's first block.
struct Described<'a> {
    file: &'a [u8],
    own: &'a Block,
    /// None for the first block itself.
    first: Option<&'a Block>,
    description: Description,
}

fn has(block: &Block, key: &str) -> bool {
    block.statements.iter().any(|statement| statement.key == key.to_lowercase().as_bytes())
}

impl Described<'_> {
    /// The general header.
    fn general(&self) -> Option<&Block> {
        self.first.filter(|first| first.facts.role == Role::General)
    }

    /// A field with its default written, in both headers, and in a first block only that is not general.
    fn of_field(&self, field: usize) -> Vec<String> {
        let (key, origin) = (KEYS[field], self.description.origins[field]);
        let in_general = self.general().is_some_and(|general| has(general, key));
        let in_other = self.first.is_some_and(|first| first.facts.role != Role::General && has(first, key));
        let cases = [
            (origin != Origin::Default && defaults(&self.description)[field], "written with its default"),
            (has(self.own, key) && in_general, "in both headers"),
            (!has(self.own, key) && in_other, "in the first block, which is not general"),
        ];
        cases.into_iter().filter(|(shown, _)| *shown).map(|(_, what)| format!("{key} {what}")).collect()
    }

    /// A field that no header has, but the general one with EDF_ before its key.
    fn of_edf_key(&self, field: usize) -> Option<String> {
        let named = self.general().is_some_and(|general| has(general, &format!("EDF_{}", KEYS[field])));
        (named && self.description.origins[field] == Origin::Default).then(|| "a field's key after EDF_".to_string())
    }

    /// Where Dim_1 and Dim_2 stand: in the own header, the general one, both, or neither.
    fn of_dims(&self) -> String {
        let place = |key| match (has(self.own, key), self.general().is_some_and(|general| has(general, key))) {
            (true, false) => "own",
            (false, true) => "general",
            (true, true) => "both",
            (false, false) => "none",
        };
        format!("Dim_1 {} Dim_2 {}", place("Dim_1"), place("Dim_2"))
    }

    /// Whether a key is written with white in it, or in other letters than the papers use.
    fn of_spelling(&self, header: &Block, name: &str) -> Vec<String> {
        let written = header.statements.iter().map(|statement| &self.file[statement.first..statement.equals]);
        let otherwise = |bytes: &[u8], key: &[u8]| stripped(bytes).eq_ignore_ascii_case(key) && bytes.trim_ascii() != key;
        let spelled = written.filter(|bytes| KEYS.iter().any(|key| otherwise(bytes, key.as_bytes())));
        spelled.map(|_| format!("{name} key spelled otherwise")).collect()
    }

    fn all(&self) -> BTreeSet<String> {
        let mut all: BTreeSet<String> = (0..7).flat_map(|field| self.of_field(field)).collect();
        all.extend((0..7).filter_map(|field| self.of_edf_key(field)));
        all.insert(self.of_dims());
        all.extend(self.of_spelling(self.own, "own"));
        all.extend(self.general().into_iter().flat_map(|general| self.of_spelling(general, "general")));
        all
    }
}

/// What a case shows in the blocks that it describes.
fn shown(case: &Case) -> BTreeSet<String> {
    let blocks = cut_anew(&case.file).unwrap_or_default();
    let numbers = case.calls.iter().filter_map(|call| match call {
        Call::Describe { block } => Some(*block),
        _ => None,
    });
    let described = numbers.filter_map(|number| {
        let description = describe(&case.file, number).ok()?;
        let first = blocks.first().filter(|_| number > 0);
        Some(Described { file: &case.file, own: &blocks[number], first, description })
    });
    described.flat_map(|block| block.all()).collect()
}

/// All that is to be shown often.
fn wanted() -> Vec<String> {
    let written = KEYS.iter().filter(|key| **key != "Dim_1").map(|key| format!("{key} written with its default"));
    let others = ["in both headers", "in the first block, which is not general"];
    let fields = KEYS.iter().flat_map(|key| others.map(|what| format!("{key} {what}")));
    let rest = [
        "Dim_1 own Dim_2 none", "Dim_1 own Dim_2 own", "Dim_1 own Dim_2 general", "Dim_1 general Dim_2 own",
        "Dim_1 general Dim_2 general", "Dim_1 none Dim_2 own", "Dim_1 none Dim_2 general", "Dim_1 none Dim_2 none",
        "own key spelled otherwise", "general key spelled otherwise", "a field's key after EDF_",
    ];
    written.chain(fields).chain(rest.map(str::to_string)).collect()
}

#[test]
fn both_sides_of_each_rule_are_reached_often() {
    let mut counts: BTreeMap<String, usize> = BTreeMap::new();
    let all = parallel::for_each(0..CASES, |number| shown(&case(SEED, number)));
    all.into_iter().flatten().for_each(|what| *counts.entry(what).or_default() += 1);
    println!("seed {SEED}, {CASES} cases: {counts:#?}");
    for what in wanted() {
        assert!(counts.get(&what).is_some_and(|&count| count >= OFTEN), "{what}");
    }
}
