//! Tables of calls with the answers that 01 gives them, and 02 in its No. 1, 2 and 4, worked out by hand: both sides of each rule. The second
//! reader and the library must both answer so.

mod arrays;
mod columns;
mod configurations;
mod gaps;
mod long_headers;
mod opening;
mod reals;
mod values;
mod writing;
