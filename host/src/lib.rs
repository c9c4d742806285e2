//! The firmware for Rust programs: a safe wrapper over its archive. Around it stand the programs
//! that hold the archive to the second program, and the one that measures it.

// The archive, and the safe wrapper over it.
pub mod archive;
pub mod declared;
pub mod field;

// The board written in the ordinary way, and what both boards have in common.
pub mod boards;
pub mod ordinary;

// What holds them to the second program: random chains and stored cases; decks, for the bench.
pub mod decks;
pub mod differ;
pub mod player;
pub mod translate;

// The clock; the compiled module's text, the count of copies in it and the search for wide products.
pub mod copies;
pub mod llvm;
pub mod products;
pub mod speed;
