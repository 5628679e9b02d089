//! The program of document 01 made of the original's vectors, sessions for it, and what holds the program against them.

pub mod bench;
pub mod child;
pub mod choice;
pub mod count;
pub mod edges;
pub mod lines;
pub mod make;
pub mod manners;
pub mod mix;
pub mod pieces;
pub mod places;
pub mod program;
pub mod record;
pub mod rounds;
pub mod spoil;
pub mod state;
pub mod walk;
