//! LLVM's text, as far as it is read here: the functions of a module, their blocks and their
//! instructions. The count of copies and the search for wide products both stand on it.

pub mod blocks;
pub mod calls;
pub mod text;
