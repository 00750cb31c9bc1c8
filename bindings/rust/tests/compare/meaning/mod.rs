//! docs/SCOPE.md once more, written from the scope alone and in its order: plain arithmetic in 128 bits, sentence by sentence. A
//! refusal is its number, and the tests of an operation stand in the order that the document gives.

pub mod demand;
pub mod designs;
pub mod layers;
pub mod products;
pub mod records;
pub mod rows;
pub mod scores;
pub mod singles;
pub mod stores;
pub mod table;
