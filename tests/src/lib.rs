//! A second reader of the ESRF Data Format, written from the papers "01" and "02" alone,
//! and generated cases to compare readers with.

pub mod answer;
pub mod both;
pub mod compare;
pub mod files;
pub mod generate;
pub mod independence;
pub mod library;
pub mod parallel;
pub mod planted;
pub mod reader;
pub mod told;
