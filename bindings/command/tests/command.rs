//! The command as a user runs it: arguments, what it prints, its exit status, and the files that it makes.

use std::ffi::{OsStr, OsString};
use std::fs;
use std::io::{Read, Write};
use std::os::unix::ffi::OsStringExt;
use std::path::{Path, PathBuf};
use std::process::{Command, Output, Stdio};

fn fixture(name: &str) -> PathBuf {
    Path::new(env!("CARGO_MANIFEST_DIR")).join("../../tests/fixtures").join(name)
}

/// The files of tests/fixtures and of its folder requests.
fn fixtures() -> Vec<PathBuf> {
    let entries = ["", "requests"].map(|folder| fs::read_dir(fixture(folder)).unwrap()).into_iter().flatten();
    let mut paths: Vec<PathBuf> = entries.map(|entry| entry.unwrap().path()).collect();
    paths.retain(|path| path.extension() == Some(OsStr::new("edf")));
    paths.sort();
    assert!(paths.len() > 120);
    paths
}

/// A folder of a test's own, empty at first.
fn folder(name: &str) -> PathBuf {
    let folder = Path::new(env!("CARGO_TARGET_TMPDIR")).join(name);
    let _ = fs::remove_dir_all(&folder);
    fs::create_dir_all(&folder).unwrap();
    folder
}

struct Ended {
    status: i32,
    out: String,
    err: String,
}

fn ended(output: Output) -> Ended {
    let text = |bytes| String::from_utf8(bytes).expect("what is printed is UTF-8");
    Ended { status: output.status.code().expect("no signal"), out: text(output.stdout), err: text(output.stderr) }
}

fn edf<S: AsRef<OsStr>>(words: &[S]) -> Ended {
    ended(Command::new(env!("CARGO_BIN_EXE_edf")).args(words).stdin(Stdio::null()).output().unwrap())
}

/// The words of a command line, some of them paths.
macro_rules! words {
    ($($word:expr),*) => { &[$(OsString::from($word)),*] };
}

#[test]
fn list_is_the_lister() {
    for path in fixtures() {
        let expected = fs::read_to_string(path.with_extension("list")).unwrap();
        let answer = edf(words!["list", &path]);
        assert_eq!(answer.out, expected, "{}", path.display());
        assert_eq!(answer.status, i32::from(expected.contains("refused")), "{}", path.display());
        assert_eq!(answer.err, "");
    }
}

#[test]
fn list_of_several_has_headings() {
    let (good, bad) = (fixture("raster_7.edf"), fixture("past_end.edf"));
    let answer = edf(words!["list", &good, "no such file", &bad]);
    let line = "blocks 1\n0 0 512 512 1.Image.Psd UnsignedShorto HighByteFirsto 3x2o 7o 1d 0d\n";
    assert_eq!(answer.out, format!("{}:\n{line}{}:\nrefused 12 0\n", good.display(), bad.display()));
    assert_eq!(answer.err, "edf: no such file: No such file or directory (os error 2)\n");
    assert_eq!(answer.status, 3);
}

/// A header of 512 bytes with these statements, and 16 bytes of data.
fn block(statements: &str) -> String {
    format!("{{ {statements:<507} }}\n0123456789abcdef")
}

/// A file of a general block and a data block, each with these statements besides its own.
fn general_and_data(general: &str, own: &str) -> String {
    block(&format!("EDF_DataFormatVersion = 2.42 ; EDF_DataBlocks = 1 ; EDF_BinarySize = 16 ; {general}"))
        + &block(&format!("EDF_DataBlockID = 1.Image.Psd ; EDF_BinarySize = 16 ; {own}"))
}

#[test]
fn list_tells_where_each_field_came_from() {
    let file = folder("origins").join("origins.edf");
    for (general, own, fields) in [
        ("", "", "FloatIEEE32d HighByteFirstd 0d 1d 1d 0d"),
        ("ByteOrder = LowByteFirst ;", "DataType = SignedByte ; Dim_1 = 2 ;", "SignedByteo LowByteFirstg 2o 1d 1d 0d"),
        ("DataType = SignedByte ; Dim_1 = 2 ;", "ByteOrder = HighByteFirst ; Dim_2 = 3 ;", "SignedByteg HighByteFirsto 2x3g 1d 1d 0d"),
        ("RasterOrientation = 2 ;", "DataRasterConfiguration = 1 ;", "FloatIEEE32d HighByteFirstd 0d 1o 2g 0d"),
        ("DataRasterConfiguration = 2 ;", "DataValueOffset = 0 ; Compression = None ;", "FloatIEEE32d HighByteFirstd 0d 2g 1d 0o"),
        ("DataValueOffset = 0 ;", "RasterOrientation = 1 ;", "FloatIEEE32d HighByteFirstd 0d 1d 1o 0g"),
    ] {
        fs::write(&file, general_and_data(general, own)).unwrap();
        let answer = edf(words!["list", &file]);
        assert_eq!(answer.out, format!("blocks 2\n0 0 512 16 general\n1 528 512 16 1.Image.Psd {fields}\n"));
        assert_eq!(answer.status, 0);
    }
}

#[test]
fn standard_input() {
    let mut child = Command::new(env!("CARGO_BIN_EXE_edf"))
        .args(["list", "-"])
        .stdin(Stdio::piped())
        .stdout(Stdio::piped())
        .spawn()
        .unwrap();
    child.stdin.take().unwrap().write_all(&fs::read(fixture("k1_raster_6.edf")).unwrap()).unwrap();
    let answer = ended(child.wait_with_output().unwrap());
    assert_eq!(answer.out, "blocks 1\n0 0 512 512 - UnsignedShorto HighByteFirsto 3x2o 6o 1d 0d\n");
}

#[test]
fn header_and_get() {
    let path = fixture("title_escapes.edf");
    let answer = edf(words!["header", &path, "0"]);
    assert!(answer.out.starts_with("EDF_DataBlockID = 1.Image.Psd\nEDF_BinarySize = 512\nByteOrder = HighByteFirst\n"));
    assert!(answer.out.ends_with("\nTitle = a;b {c} d\\e\\nf\n"), "{}", answer.out);
    assert_eq!(edf(words!["get", &path, "0", "title"]).out, "a;b {c} d\\e\nf\n");
    assert_eq!(edf(words!["get", &path, "0", " DIM_ 1"]).out, "3\n");

    let general = fixture("general_defaults.edf");
    let answer = edf(words!["header", &general]);
    let headings: Vec<&str> = answer.out.lines().filter(|line| line.starts_with("block ")).collect();
    assert_eq!(headings, ["block 0: general", "block 1: 1.Image.Psd", "block 2: 2.Image.Psd"]);
    assert_eq!(edf(words!["get", &general, "2", "DataType"]).out, "UnsignedShort\n");

    let missing = edf(words!["get", &path, "0", "Subtitle"]);
    assert_eq!((missing.status, missing.out.as_str()), (1, ""));
    assert!(missing.err.contains("title_escapes.edf: error 16 at 0: no such block or keyword"), "{}", missing.err);
    assert_eq!(edf(words!["header", &path, "1"]).status, 1);
    assert_eq!(edf(words!["get", &path, "18446744073709551615", "Title"]).status, 1);
    let key = OsString::from_vec(vec![b'T', 0xff]);
    assert_eq!(edf(&[OsString::from("get"), path.into(), "0".into(), key]).status, 1);
}

/// What `get --real` prints for a value: its line, without the end.
fn real(file: &Path, value: &str) -> Result<String, String> {
    fs::write(file, block(&format!("Size = 16 ; w = {value} ;"))).unwrap();
    let answer = edf(words!["get", "--real", file, "0", "W"]);
    match answer.status {
        0 => Ok(answer.out.strip_suffix('\n').expect("a line").to_string()),
        status => {
            assert_eq!((status, answer.out.as_str()), (1, ""), "{value}");
            Err(answer.err.strip_prefix(&format!("edf: {}: ", file.display())).expect("the file's name").trim_end().to_string())
        }
    }
}

#[test]
fn get_real_prints_the_number_and_its_unit() {
    let file = folder("real").join("real.edf");
    for (written, printed) in [
        ("32.5_deg", "32.5 deg"),
        ("+1.50e-10_m", "1.5e-10 m"),
        ("-.5_rad", "-0.5 rad"),
        ("9.90376e-11", "9.90376e-11"),
        ("-0", "-0"),
        ("-.0_deg", "-0 deg"),
        ("007.", "7"),
        ("0.1e-4", "0.00001"),
        ("9e-6", "9e-6"),
        ("9007199254740992", "9007199254740992"),
        ("1e16_m", "1e16 m"),
        ("10e22", "1e23"),
        ("9007199254740992e-22", "9.007199254740992e-7"),
    ] {
        assert_eq!(real(&file, written), Ok(printed.to_string()), "{written}");
    }
    let saxs = fixture("fabio_hdr_saxs.edf");
    assert_eq!(edf(words!["get", "--real", &saxs, "0", "Sample Distance"]).out, "9.82514 m\n");
    assert_eq!(edf(words!["get", &saxs, "0", "Sample Distance"]).out, "9.82514_m\n");
}

#[test]
fn get_real_refuses_as_get_does() {
    let file = folder("no_real").join("real.edf");
    let bounds = "number outside the bounds: digits over 9,007,199,254,740,992 or a power of ten outside -22 to 22";
    for (written, error) in [
        ("1e23", format!("error 27 at 0: {bounds}")),
        ("9007199254740993", format!("error 27 at 0: {bounds}")),
        ("1_mm", "error 18 at 0: bad number or range".to_string()),
        ("", "error 18 at 0: bad number or range".to_string()),
    ] {
        assert_eq!(real(&file, written), Err(error), "{written}");
    }
    for (key, code) in [("w", 16), ("Title", 18)] {
        let answer = edf(words!["get", "--real", fixture("fabio_hdr_saxs.edf"), "0", key]);
        assert_eq!((answer.status, answer.err.contains(&format!(": error {code} at 0: "))), (1, true), "{}", answer.err);
    }
    assert!(edf(words!["get", "--real", fixture("nul_in_header.edf"), "0", "w"]).err.contains(": error 4 at 152: "));
    assert_eq!(edf(words!["get", "--real", fixture("no_such_file.edf"), "0", "w"]).status, 3);
}

/// What is printed is read as the same float as what is written, bit for bit, over all powers of ten.
#[test]
fn get_real_reads_back() {
    let file = folder("reads_back").join("real.edf");
    for power in -22..=22 {
        for digits in ["1", "-3", "123456789", "4503599627370497", "-8999999999999999", "9007199254740991"] {
            let written = format!("{digits}e{power}");
            let printed = real(&file, &format!("{written}_deg")).unwrap();
            let number = printed.strip_suffix(" deg").expect(&printed);
            let bits = |text: &str| text.parse::<f64>().map(f64::to_bits);
            assert_eq!(bits(number), bits(&written), "{written} {printed}");
        }
    }
}

#[test]
fn values_over_the_limit_of_text_are_shown_as_they_stand() {
    let body = format!("{{\nLong = {} ;\n", "x".repeat(1500));
    let file = folder("long").join("long.edf");
    fs::write(&file, format!("{body:<2046}}}\n")).unwrap();
    assert_eq!(edf(words!["header", &file, "0"]).out, format!("Long = {}\n", "x".repeat(1500)));
    assert!(edf(words!["get", &file, "0", "Long"]).err.contains("error 25 at 0: text over 1,023 characters"));
}

#[test]
fn export_raw_npy_pgm() {
    let (folder, path) = (folder("export"), fixture("raster_7.edf"));
    let export = |name: &str| {
        let out = folder.join(name);
        let answer = edf(words!["export", &path, "0", &out]);
        assert_eq!((answer.status, answer.err.as_str()), (0, ""));
        assert!(answer.out.starts_with(out.to_str().unwrap()), "{}", answer.out);
        fs::read(out).unwrap()
    };
    assert_eq!(export("a.raw"), [1, 0, 2, 0, 3, 0, 4, 0, 5, 0, 6, 0]);
    assert_eq!(export("a.PGM"), b"P5\n3 2\n65535\n\0\x01\0\x02\0\x03\0\x04\0\x05\0\x06");
    let npy = export("a.npy");
    assert_eq!(npy[..10], *b"\x93NUMPY\x01\x00\x76\x00");
    let fields = "{'descr': '<u2', 'fortran_order': False, 'shape': (2, 3), }";
    assert_eq!(npy[10..128], *format!("{fields:<117}\n").as_bytes());
    assert_eq!(npy[128..], [1, 0, 2, 0, 3, 0, 4, 0, 5, 0, 6, 0]);
}

#[test]
fn export_of_other_shapes() {
    let folder = folder("shapes");
    let cube = fixture("silx_3d_uint16.edf");
    let out = folder.join("cube.npy");
    assert_eq!(edf(words!["export", &cube, "0", &out]).status, 0);
    assert!(String::from_utf8_lossy(&fs::read(&out).unwrap()[..128]).contains("'shape': (2, 3, 4), }"));
    let answer = edf(words!["export", &cube, "0", folder.join("cube.pgm")]);
    assert_eq!((answer.status, answer.err.contains("two dimensions, not three")), (1, true));
    let floats = fixture("type_absent.edf");
    let answer = edf(words!["export", &floats, "0", folder.join("floats.pgm")]);
    assert_eq!((answer.status, answer.err.contains("not FloatIEEE32")), (1, true));
    let row = edf::write(&edf::Frame::image(edf::DataType::SignedByte, &[3]), "", &[1, 2, 255]).unwrap();
    let file = folder.join("row.edf");
    fs::write(&file, row).unwrap();
    assert_eq!(edf(words!["export", &file, "0", folder.join("row.npy")]).status, 0);
    let npy = fs::read(folder.join("row.npy")).unwrap();
    assert!(String::from_utf8_lossy(&npy[..128]).contains("{'descr': '|i1', 'fortran_order': False, 'shape': (3,), }"));
    assert_eq!(npy[128..], [1, 2, 255]);
}

#[test]
fn export_that_cannot_be() {
    let (folder, path) = (folder("refused"), fixture("raster_7.edf"));
    assert_eq!(edf(words!["export", &path, "0", folder.join("a.tif")]).status, 2);
    assert_eq!(edf(words!["export", &path, "0", folder.join("none/a.raw")]).status, 3);
    assert_eq!(edf(words!["export", &path, "1", folder.join("a.raw")]).status, 1);
    assert!(!folder.join("a.raw").exists());
    let own = folder.join("own.raw");
    fs::copy(&path, &own).unwrap();
    assert_eq!(edf(words!["export", &own, "0", &own]).status, 2);
    assert_eq!(fs::read(&own).unwrap(), fs::read(&path).unwrap());
    std::os::unix::fs::symlink("/dev/full", folder.join("full.raw")).unwrap();
    let answer = edf(words!["export", &path, "0", folder.join("full.raw")]);
    assert_eq!((answer.status, answer.err.contains("No space left")), (3, true));
    // `rt ci` takes no checkout that has links.
    fs::remove_file(folder.join("full.raw")).unwrap();
}

#[test]
fn check_tells_what_is_wrong_and_where() {
    let good = edf(words!["check", fixture("raster_7.edf"), fixture("fabio_multi_10.edf")]);
    assert_eq!(good.status, 0);
    assert!(good.out.contains("raster_7.edf: ok, 1 block\n") && good.out.contains("fabio_multi_10.edf: ok, 10 blocks\n"));

    let answer = edf(words!["check", fixture("nul_in_header.edf")]);
    assert_eq!(answer.status, 1);
    let lines: Vec<&str> = answer.out.lines().collect();
    assert!(lines[0].ends_with("nul_in_header.edf: error 4 at 152: a byte that can't stand in a header: 0, above 127, or `{`"));
    assert_eq!(lines[2], "    00000090  69 74 6c 65 20 3d 20 61 00 62 00 20 3b 0d 0a 20  itle = a.b. ;.. ");
    assert_eq!(lines[3].find("^^"), Some(4 + 10 + 3 * 8));

    let answer = edf(words!["check", fixture("type_unknown.edf")]);
    assert!(answer.out.contains("type_unknown.edf: block 0: error 17 at 1: unknown word in DataType\n"));
}

/// The lines of `check` for a file with these bytes, without the name of the file, and the exit status.
fn checked(name: &str, bytes: &str) -> (Vec<String>, i32) {
    let file = folder(name).join("checked.edf");
    fs::write(&file, bytes).unwrap();
    let answer = edf(words!["check", &file]);
    assert_eq!(answer.err, "");
    let start = format!("{}: ", file.display());
    (answer.out.lines().filter_map(|line| line.strip_prefix(&start)).map(str::to_string).collect(), answer.status)
}

/// A note for each of three fields that neither header has, whether the block is described or refused. What the general header has is
/// written. Notes do not change the exit status.
#[test]
fn check_notes_what_is_not_written() {
    let fields = [
        ("DataType = UnsignedByte ;", "block 1: note: DataType is not written; FloatIEEE32 is assumed"),
        ("ByteOrder = LowByteFirst ;", "block 1: note: ByteOrder is not written; HighByteFirst is assumed"),
        ("Dim_1 = 2 ;", "block 1: note: Dim_1 is not written; the array is empty"),
    ];
    for places in 0..27 {
        let place = |field: usize| places / [1, 3, 9][field] % 3; // in neither header, in the block's own, in the general one
        let at = |number: usize| (0..3).filter(move |&field| place(field) == number);
        let statements = |number: usize| at(number).map(|field| fields[field].0).collect::<String>();
        let notes = || at(0).map(|field| fields[field].1);
        let expected = notes().chain(["ok, 2 blocks"]).map(str::to_string).collect();
        assert_eq!(checked("notes", &general_and_data(&statements(2), &statements(1))), (expected, 0), "{places}");
        let refused = general_and_data(&statements(2), &(statements(1) + "Compression = Gzip ;"));
        let expected = ["block 1: error 17 at 3: unknown word in Compression"].into_iter().chain(notes()).map(str::to_string).collect();
        assert_eq!(checked("notes", &refused), (expected, 1), "{places}");
    }
}

/// Compression, RasterOrientation, DataRasterConfiguration and DataValueOffset get no note; a written default gets none either.
#[test]
fn check_notes_nothing_else() {
    let written = "DataType = FloatIEEE32 ; ByteOrder = HighByteFirst ; Dim_1 = 1 ; Size = 16 ;";
    assert_eq!(checked("nothing", &block(written)), (vec!["ok, 1 block".to_string()], 0));
    let one_byte = "DataType = UnsignedByte ; Dim_1 = 1 ; Size = 16 ;";
    let lines = ["block 0: note: ByteOrder is not written; HighByteFirst is assumed", "ok, 1 block"].map(str::to_string);
    assert_eq!(checked("one_byte", &block(one_byte)), (lines.to_vec(), 0));
}

/// A block that is refused, whatever its error, has notes too: T of DataType, O of ByteOrder, D of Dim_1. What is assumed may be the cause.
#[test]
fn check_notes_refused_blocks() {
    let notes = [
        ('T', "block 0: note: DataType is not written; FloatIEEE32 is assumed"),
        ('O', "block 0: note: ByteOrder is not written; HighByteFirst is assumed"),
        ('D', "block 0: note: Dim_1 is not written; the array is empty"),
    ];
    for (statements, error, noted) in [
        ("DataType = Float ;", "error 17 at 1: unknown word in DataType", "OD"),
        ("ByteOrder = Low ; Dim_1 = 1 ;", "error 17 at 2: unknown word in ByteOrder", "T"),
        ("Dim_1 = 0 ;", "error 18 at 4: bad number or range in Dim_1 to Dim_3", "TO"),
        ("DataValueOffset = x ;", "error 18 at 7: bad number or range in DataValueOffset", "TOD"),
        ("Dim_1=1; Dim_2=1; Dim_3=1; Dim_4=1;", "error 19 at 0: Dim_1 to Dim_4 all found: at most three dimensions are read", "TO"),
        ("ByteOrder = LowByteFirst ; Dim_1 = 5 ;", "error 20 at 0: data shorter than the array", "T"),
        ("DataValueOffset = 1 ; Dim_1 = 1 ;", "error 21 at 0: nonzero offset on floats", "TO"),
        ("DataType = SignedShort ; ByteOrder = LowByteFirst ; Dim_1 = 9 ;", "error 20 at 0: data shorter than the array", ""),
    ] {
        let noted = notes.iter().filter(|(letter, _)| noted.contains(*letter)).map(|(_, note)| note.to_string());
        let expected = [format!("block 0: {error}")].into_iter().chain(noted).collect();
        assert_eq!(checked("refused_block", &block(&format!("Size = 16 ; {statements}"))), (expected, 1), "{statements}");
    }
}

/// The notes of a block stand after its error and the bytes there, and before those of the next block.
#[test]
fn check_notes_stand_after_the_bytes() {
    let file = folder("after").join("after.edf");
    let statements = "Size = 16 ; ByteOrder = LowByteFirst ;";
    fs::write(&file, block(&format!("{statements} Dim_1 = 5 ;")) + &block(statements)).unwrap();
    let out = edf(words!["check", &file]).out;
    let lines: Vec<&str> = out.lines().map(|line| line.rsplit(": ").next().unwrap()).collect();
    assert_eq!(lines[0], "data shorter than the array");
    assert!(lines[1..5].iter().all(|line| line.starts_with("    ")) && lines[1..5].iter().any(|line| line.trim() == "^^"), "{out}");
    let assumed = "DataType is not written; FloatIEEE32 is assumed";
    assert_eq!(lines[5..], [assumed, assumed, "Dim_1 is not written; the array is empty"], "{out}");
}

/// A file that does not open has no notes.
#[test]
fn check_notes_no_refused_file() {
    assert_eq!(checked("refused_file", "no header"), (vec!["error 3 at 0: no start of a header here".to_string()], 1));
    let no_number = block("Size = x ;");
    assert_eq!(checked("refused_file", &no_number), (vec!["error 9 at 0: a rule on EDF_ keys or Size broken".to_string()], 1));
}

/// How many of DataType, ByteOrder and Dim_1 stand in no header in reach of a block, by the lists of their keywords.
fn not_written(bytes: &[u8], number: usize) -> usize {
    let file = edf::File::open(bytes).unwrap();
    let in_reach = file.blocks().filter(|block| block.kind() == edf::BlockKind::General || block.number() == number);
    let keys: Vec<String> = in_reach.flat_map(|block| block.keywords()).map(|keyword| keyword.key().to_ascii_lowercase()).collect();
    ["datatype", "byteorder", "dim_1"].iter().filter(|&&key| !keys.iter().any(|written| written == key)).count()
}

/// The notes that a line of a listing asks for: one for each `d` after a type, a byte order or dimensions, and for a block that is
/// refused one for each keyword that is not written.
fn notes_of_line(line: &str, bytes: &[u8]) -> usize {
    let fields: Vec<&str> = line.split(' ').collect();
    match fields[..] {
        [number, _, _, _, _, "refused", ..] => not_written(bytes, number.parse().unwrap()),
        [_, _, _, _, _, _, _, _, ..] => fields[5..8].iter().filter(|field| field.ends_with('d')).count(),
        _ => 0,
    }
}

/// The status and the errors are those of the listing, each with the bytes there, and so are the notes.
#[test]
fn check_of_every_fixture() {
    let mut noted = [0, 0]; // of blocks that are described, of blocks that are refused
    for path in fixtures() {
        let (bytes, listing) = (fs::read(&path).unwrap(), fs::read_to_string(path.with_extension("list")).unwrap());
        let answer = edf(words!["check", &path]);
        assert_eq!(answer.status, i32::from(listing.contains("refused")), "{}", path.display());
        let lines_with = |words: &str| answer.out.lines().filter(|line| line.contains(words)).count();
        let (refused, described): (Vec<&str>, Vec<&str>) = listing.lines().partition(|line| line.contains("refused"));
        let notes = [described, refused.clone()].map(|lines| lines.iter().map(|line| notes_of_line(line, &bytes)).sum::<usize>());
        assert_eq!(lines_with(": note: "), notes[0] + notes[1], "{}: {}", path.display(), answer.out);
        assert_eq!(lines_with("^^") + lines_with("the file ends here"), refused.len(), "{}: {}", path.display(), answer.out);
        for (_, refusal) in refused.iter().filter_map(|line| line.split_once("refused ")) {
            let (code, position) = refusal.split_once(' ').unwrap();
            assert!(lines_with(&format!(": error {code} at {position}: ")) > 0, "{}: {}", path.display(), answer.out);
        }
        noted = [noted[0] + notes[0], noted[1] + notes[1]];
    }
    assert!(noted[0] > 0 && noted[1] > 0, "{noted:?}");
}

/// The mark of a bad field stands under its value.
#[test]
fn check_points_at_the_field() {
    let folder = folder("fields");
    for (statement, code, position) in [
        ("Dim_1 = 2 ; Dim_2 = *0 ;", 18, 4),
        ("Dim_1 = 2 ; DataRasterConfiguration = *3 ;", 18, 5),
        ("Dim_1 = 2 ; RasterOrientation = *x ;", 18, 6),
        ("Dim_1 = 2 ; DataValueOffset = *1.5 ;", 18, 7),
        ("Dim_1 = 2 ; DataType = FloatIEEE32 ; DataValueOffset = *1 ;", 21, 0),
        ("Dim_1 = 2 ; Dim_2 = 2 ; Dim_3 = 2 ; Dim_4 = *2 ;", 19, 0),
        ("Dim_1 = 2 ; Compression = *Gzip ;", 17, 3),
        ("DataType = UnsignedByte ; Dim_1 = 9 ; Size = *8 ;", 20, 0),
    ] {
        let size = if statement.contains("Size") { "" } else { "Size = 8 ; " };
        let body = format!("{{ {size}{statement}");
        let mark = body.find('*').unwrap();
        let file = folder.join("field.edf");
        fs::write(&file, format!("{:<510}}}\n12345678", body.replace('*', ""))).unwrap();
        let answer = edf(words!["check", &file]);
        assert!(answer.out.contains(&format!("error {code} at {position}: ")), "{statement}: {}", answer.out);
        let lines: Vec<&str> = answer.out.lines().collect();
        let marked = lines.iter().position(|line| line.trim() == "^^").expect(statement);
        let row = usize::from_str_radix(&lines[marked - 1][4..12], 16).unwrap();
        assert_eq!(row + (lines[marked].find('^').unwrap() - 14) / 3, mark, "{statement}");
    }
}

/// No damage makes the command do anything but answer; `check` agrees with `list`.
#[test]
fn damaged_files() {
    let folder = folder("damaged");
    let whole = fs::read(fixture("general_defaults.edf")).unwrap();
    let mut cases: Vec<Vec<u8>> = (0..whole.len()).step_by(171).map(|length| whole[..length].to_vec()).collect();
    for byte in [0, b'{', b'}', b';', b'=', 200] {
        for at in (0..600).step_by(41) {
            let mut damaged = whole.clone();
            damaged[at] = byte;
            cases.push(damaged);
        }
    }
    for (number, bytes) in cases.iter().enumerate() {
        let file = folder.join(format!("{number}.edf"));
        fs::write(&file, bytes).unwrap();
        let listed = edf(words!["list", &file]);
        let checked = edf(words!["check", &file]);
        assert!(listed.status <= 1 && listed.status == checked.status, "{number}: {} {}", listed.out, checked.out);
        assert_eq!((listed.err.as_str(), checked.err.as_str()), ("", ""));
        assert!(edf(words!["header", &file]).status <= 1);
    }
}

#[test]
fn unreadable_paths() {
    for path in [fixture("no_such_file.edf"), fixture(""), fixture("raster_7.edf").join("inside")] {
        for name in ["list", "check", "header"] {
            let answer = edf(words![name, &path]);
            assert_eq!((answer.status, answer.out.as_str()), (3, ""), "{name} {}", path.display());
            assert!(answer.err.starts_with("edf: ") && answer.err.lines().count() == 1, "{}", answer.err);
        }
    }
    let empty = folder("empty").join("empty.edf");
    fs::write(&empty, "").unwrap();
    assert_eq!(edf(words!["list", &empty]).out, "refused 3 0\n");
    assert!(edf(words!["check", &empty]).out.ends_with("the file ends here, after 0 bytes\n"));
}

#[test]
fn file_names_of_any_bytes() {
    let file = folder("names").join(OsString::from_vec(b"\xff name.edf".to_vec()));
    fs::copy(fixture("raster_7.edf"), &file).unwrap();
    assert_eq!(edf(words!["check", &file]).status, 0);
}

#[test]
fn bad_arguments() {
    for line in ["", "lists", "list", "get a 0", "get a b c", "header a 0 0", "export a 0", "--lost", "list --all a", "list --real a"] {
        let words: Vec<&str> = line.split_whitespace().collect();
        let answer = edf(&words);
        assert_eq!((answer.status, answer.out.as_str()), (2, ""), "{line}");
        assert!(answer.err.starts_with("edf: ") && answer.err.ends_with("\nTry: edf --help\n"), "{}", answer.err);
    }
}

#[test]
fn help_and_version() {
    let help = edf(&["--help"]);
    assert_eq!((help.status, help.err.as_str()), (0, ""));
    let text = help.out.split_whitespace().collect::<Vec<_>>().join(" ");
    let letters = "o the block's own header, g the general header, d nowhere: the default";
    let notes = "A note says what is assumed for a block, read or refused,";
    for words in ["list", "header", "get", "get --real FILE BLOCK KEY", "export", "check", letters, notes, "Exit status"] {
        assert!(text.contains(words), "{words}");
    }
    assert_eq!(edf(&["check", "-h"]).out, help.out);
    assert_eq!(edf(&["--version"]).out, concat!("edf ", env!("CARGO_PKG_VERSION"), "\n"));
}

#[test]
fn a_reader_who_goes() {
    let path = fixture("fabio_multi_10.edf");
    let files = std::iter::repeat_n(&path, 500);
    let mut child = Command::new(env!("CARGO_BIN_EXE_edf"))
        .arg("list")
        .args(files)
        .stdout(Stdio::piped())
        .stderr(Stdio::piped())
        .spawn()
        .unwrap();
    let mut start = [0; 100];
    child.stdout.take().unwrap().read_exact(&mut start).unwrap();
    let answer = ended(child.wait_with_output().unwrap());
    assert_eq!((answer.status, answer.err.as_str()), (141, ""));
}

#[test]
fn a_full_disk() {
    let full = fs::OpenOptions::new().write(true).open("/dev/full").unwrap();
    let command = Command::new(env!("CARGO_BIN_EXE_edf")).arg("list").arg(fixture("raster_7.edf")).stdout(full).output().unwrap();
    let answer = ended(command);
    assert_eq!((answer.status, answer.err.contains("standard output: No space left")), (3, true));
}

/// Files of the greatest length and of one byte more; their data is a hole.
#[test]
fn the_limit_of_a_gibibyte() {
    let folder = folder("large");
    let most: u64 = 1 << 30;
    let make = |name: &str, length: u64| {
        let path = folder.join(name);
        let body = format!("{{\nDataType = UnsignedShort ;\nDim_1 = 1048576 ;\nDim_2 = 511 ;\nSize = {} ;\n", length - 512);
        let mut file = fs::File::create(&path).unwrap();
        file.write_all(format!("{body:<510}}}\n").as_bytes()).unwrap();
        file.set_len(length).unwrap();
        path
    };
    let greatest = make("greatest.edf", most);
    let line = "0 0 512 1073741312 - UnsignedShorto HighByteFirstd 1048576x511o 1d 1d 0d";
    assert_eq!(edf(words!["list", &greatest]).out, format!("blocks 1\n{line}\n"));
    let over = make("over.edf", most + 1);
    assert_eq!(edf(words!["list", &over]).out, "refused 1 0\n");
    assert!(edf(words!["check", &over]).out.ends_with("over.edf: error 1 at 0: file over 1,073,741,824 bytes\n"));
    fs::remove_dir_all(folder).unwrap();
}
