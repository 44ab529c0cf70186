//! The sizes of what the calls are lent, 01's limits, and how the records lie in a desk's words.

/// Words of a desk. All zeros are an empty desk.
pub const DESK_WORDS: usize = ENTRIES_AT + COPIES * ENTRY_WORDS;

/// Words in which `read_text` tells a refused line.
pub const REFUSAL_WORDS: usize = 2;

/// Entries of each of the four lists of a search's line: the most nodes of a graph.
pub const LINE_NODES: usize = 4_096;

/// The most ends of a search.
pub const SEARCH_ENDS: usize = 4_096;

/// Words of a net's row in a laid-out page: number, first vertex, vertices, first junction,
/// junctions.
pub const NET_WORDS: usize = 5;

/// Words of a junction's row in a laid-out page: vertex, joining end vertex, letter.
pub const JUNCTION_WORDS: usize = 3;

/// Words of all nets' rows.
pub const NETS_WORDS: usize = NET_WORDS * NETS;

/// Entries of each of the three lists of a page's vertices.
pub const VERTICES: usize = 512;

/// Words of all junctions' rows.
pub const JOINS_WORDS: usize = JUNCTION_WORDS * VERTICES / 2;

/// The most records of each kind on a desk.
pub const BOXES: usize = 64;
pub const PORTS: usize = 256;
pub const NETS: usize = 64;
pub const ENDS: usize = 256;

/// The most undo entries on the pile, so the most undos in a row.
pub const COPIES: usize = 32;

/// Where the lists begin in a desk's words, each with its count, and where the undo entries begin.
/// Word 0 is the number of undo entries.
pub const BOXES_AT: usize = 1;
pub const PORTS_AT: usize = BOXES_AT + 1 + BOXES * BOX_WORDS;
pub const NETS_AT: usize = PORTS_AT + 1 + PORTS * PORT_WORDS;
pub const ENDS_AT: usize = NETS_AT + 1 + NETS * NET_ID_WORDS;
pub const ENTRIES_AT: usize = ENDS_AT + 1 + ENDS * END_WORDS;

/// Words of a box's row on a desk: id, least x, least y, greatest x, greatest y.
pub const BOX_WORDS: usize = 5;

/// Words of a port's row on a desk: box, x, y, directions.
pub const PORT_WORDS: usize = 4;

/// Words of a net's row on a desk: id.
pub const NET_ID_WORDS: usize = 1;

/// Words of an end's row on a desk: net, x, y, mark.
pub const END_WORDS: usize = 4;

/// Words of an undo entry, of which the latest stands first: what it does, a place, and room for the
/// longest row.
pub const ENTRY_WORDS: usize = 2 + BOX_WORDS;

/// The word of coordinate 0.
pub const ORIGIN: u32 = 1 << 31;

/// The first word of an undo entry is one of these and a kind added up: the last record of that
/// kind goes, or a record of that kind comes back, at the place and with the row that follow.
pub const UNDO_ADD: u32 = 0;
pub const UNDO_RETIRE: u32 = 4;

/// Kinds of records in undo entries.
pub const KIND_BOX: u32 = 0;
pub const KIND_PORT: u32 = 1;
pub const KIND_NET: u32 = 2;
pub const KIND_END: u32 = 3;

/// Ids go from 1 to this: every word but 0.
pub const GREATEST_ID: u32 = 4_294_967_295;

/// Coordinates go from minus this to this, in steps.
pub const GREATEST_COORDINATE: i32 = 4_194_304;

/// Steps to the unit.
pub const STEPS: i32 = 256;

/// A port's directions are a sum of these.
pub const NEG_X: u32 = 1;
pub const POS_X: u32 = 2;
pub const NEG_Y: u32 = 4;
pub const POS_Y: u32 = 8;

/// Bytes of stack that suffice for a call; measured, not proved: a layout takes 522,600 of a
/// thread's, a search 457,000, the other calls 17,448 at most.
pub const STACK: usize = 640 * 1024;
