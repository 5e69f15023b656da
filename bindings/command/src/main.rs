//! The command `edf`: list, look into, check and export files of the ESRF Data Format.
#![forbid(unsafe_code)]

mod arguments;
mod check;
mod context;
mod export;
mod failure;
mod header;
mod input;
mod list;
mod output;
mod progress;

use arguments::Command;
use failure::{Failure, Status};
use output::Output;
use std::process::ExitCode;

const HELP: &str = "\
edf: list, look into, check and export files of the ESRF Data Format

    edf list FILE...            a line for each block: number, start, header length, data length, identity, and the
                                array: type, byte order, dimensions, raster configuration, orientation, value offset,
                                each with a letter for where it is written: o the block's own header, g the general
                                header, d nowhere: the default
    edf header FILE [BLOCK]     the keywords of a block, or of every block
    edf get FILE BLOCK KEY      the value of a keyword as text
    edf get --real FILE BLOCK KEY
                                the value of a keyword as a real number: the shortest decimal that is read as the same
                                64-bit float, with an exponent below 0.00001 and from 1e16 on; after it a space and the
                                unit, m, deg or rad, if it is written with one. As in 9.90376e-11 or 32.5 deg
    edf export FILE BLOCK OUT   the array of a block, by the ending of OUT: .raw (its bytes, low byte first), .npy (numpy)
                                or .pgm (a grey image; UnsignedByte and UnsignedShort)
    edf check FILE...           whether every block can be read; if not, what is wrong and the bytes there. A note says what
                                is assumed for a block, read or refused, whose DataType, ByteOrder or Dim_1 is written
                                nowhere: neither in its own header nor in the general header. Notes do not change the exit
                                status
    edf --help | --version

FILE may be - for standard input. Blocks are numbered from 0; whitespace around them, which a file may have that does not
start with an EDF_ key, is in no block. After -- no word is an option.

Exit status: 0 all is well; 1 a file, block or keyword is refused; 2 the command line is wrong; 3 a file cannot be read or
written; 141 whoever reads the output has gone.
";

fn main() -> ExitCode {
    let mut output = Output::new();
    let ended = run(&mut output).and_then(|status| output.flush().map(|()| status));
    let status = ended.unwrap_or_else(|failure| {
        failure.tell();
        failure.status()
    });
    ExitCode::from(status.number())
}

fn run(output: &mut Output) -> Result<Status, Failure> {
    match arguments::command(std::env::args_os().skip(1))? {
        Command::Help => output.line(HELP.trim_end()).map(|()| Status::Well),
        Command::Version => output.line(concat!("edf ", env!("CARGO_PKG_VERSION"))).map(|()| Status::Well),
        Command::List { files } => list::list(&files, output),
        Command::Header { file, block } => header::header(&file, block, output),
        Command::Get { file, block, key } => header::get(&file, block, &key, output),
        Command::GetReal { file, block, key } => header::get_real(&file, block, &key, output),
        Command::Export { file, block, out } => export::export(&file, block, &out, output),
        Command::Check { files } => check::check(&files, output),
    }
}
