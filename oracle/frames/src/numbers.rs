//! Document 01's operations, the numbers given back, and what each party has.

pub const NEW: u8 = 0x00;
pub const CLONE: u8 = 0x01;
pub const RELEASE: u8 = 0x02;
pub const LENGTH: u8 = 0x03;
pub const GET: u8 = 0x04;
pub const SET: u8 = 0x05;
pub const PUSH_BACK: u8 = 0x06;
pub const DROP_LAST: u8 = 0x07;
pub const OPEN_WALK: u8 = 0x08;
pub const NEXT: u8 = 0x09;
pub const NEXT_BACK: u8 = 0x0A;
pub const CLOSE_WALK: u8 = 0x0B;
pub const HAND_OVER: u8 = 0x0C;
pub const FREE_NODES: u8 = 0x0D;
pub const FIRST: u8 = 0x0E;
pub const LAST: u8 = 0x0F;
pub const COMPARE: u8 = 0x10;

pub const OPERATIONS: usize = 0x11;

pub const DONE: u8 = 0;
pub const NO_PARTY: u8 = 1;
pub const NO_OPERATION: u8 = 2;
pub const NOT_HOST: u8 = 3;
pub const OUT_OF_RANGE: u8 = 4;
pub const SOURCE_EMPTY: u8 = 5;
pub const ALREADY_LIVE: u8 = 6;
pub const BAD_BITS: u8 = 7;
pub const NOTHING_THERE: u8 = 8;
pub const FULL: u8 = 9;
pub const NO_NODES: u8 = 10;
pub const ILL_FORMED: u8 = 11;
pub const NO_ROOM: u8 = 12;
pub const RAGGED: u8 = 13;
pub const NOT_A_FRAME: u8 = 14;

pub const HOST: u8 = 0;
pub const PARTIES: u8 = 8;
pub const SLOTS: u8 = 8;
pub const WALKS: u8 = 2;
