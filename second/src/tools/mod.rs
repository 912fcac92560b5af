//! What the binary adds to the library: the judge, vector files, made cases and timings.

pub mod bench;
pub mod case;
pub mod cases;
pub mod edit_lists;
pub mod faults;
pub mod grammars;
pub mod json;
pub mod judge;
pub mod labels;
pub mod make;
pub mod one_rule;
pub mod plan;
pub mod pool;
pub mod random;
pub mod shapes;
pub mod spoil;
pub mod spread;
pub mod texts;
pub mod trees;
pub mod vary;
pub mod vectors;
