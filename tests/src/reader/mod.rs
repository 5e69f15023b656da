//! The second reader: plain and slow, each rule of 01 and 02 by itself.

pub mod array;
pub mod describe;
pub mod element;
pub mod error;
pub mod header;
pub mod identity;
pub mod keywords;
pub mod lister;
pub mod memo;
pub mod number;
pub mod opening;
pub mod orders;
pub mod origin;
pub mod pixel;
pub mod real;
pub mod rules;
pub mod span;
pub mod statement;
pub mod text;
pub mod white;
pub mod writer;

#[cfg(test)]
pub mod samples;

pub use array::{read_array, stored_array};
pub use describe::{describe, Description};
pub use error::Error;
pub use keywords::{find, whole_number};
pub use lister::{list, printed};
pub use opening::{open, Row};
pub use origin::Origin;
pub use pixel::{read_pixel, Pixel};
pub use real::{real, Real};
pub use span::{part, Span};
pub use text::{escape, text, unescape};
pub use writer::{write, Frame};
