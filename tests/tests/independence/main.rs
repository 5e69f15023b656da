//! Blocks are independent (02, No. 3): pairs of files that share a block, and concatenated files. The laws are asked of the library's own
//! answers; each of these answers is compared with the second reader's too. EDF_SEED and EDF_PAIRS say which pairs, and how many in all.

mod alone;
mod edited;
mod general;
mod joined;
mod limits;
mod moved;
mod other_kinds;
mod run;
