//! The ship's risk monitor a second time, written from documents 01 and 02 alone.
//! Each module uses only modules listed before it.

pub mod refusal;
pub mod bytes;
pub mod end;
pub mod tree_file;
pub mod tree_judge;
pub mod opinion_sheet;
pub mod mean;
pub mod sheet_judge;
pub mod cut;
pub mod evaluation;
pub mod monitor;
pub mod work_windows;
pub mod mirror;
pub mod cut_sets;
pub mod levels;
pub mod hours;
pub mod mirror_files;
pub mod node_lines;
pub mod set_lines;
pub mod hex;
pub mod calls;
pub mod vectors;
pub mod mirror_calls;
pub mod framing;
pub mod describe;
pub mod random;
pub mod examples;
pub mod cases;
pub mod compare;
