/* Calls on a clue desk and the leader lines of its page. Link target/staticlib/libclue_desk.a, which `bindings/build` makes.
 *
 * Slices. A slice is a pointer and a length in entries. The pointer is aligned for its type and never null, also where the
 * length is 0. A slice that a call may write overlaps no other slice of the same call. Beyond that every call takes any memory
 * and any arguments: it reads and writes nothing outside the slices, and ends.
 *
 * Numbers. Every call returns a number; 0 is done. What each refusal means, and what it leaves behind:
 *
 *    1  a lent output or desk is below its size                                              everything unchanged
 *    2  a field out of range, least above greatest, x and y lists unequal, over 4,096 ends,
 *       or the words are no desk                                                             outputs zero, desk unchanged
 *    3  id live already                                                                      desk unchanged
 *    4  box, net or place unknown                                                            desk unchanged
 *    5  box has ports, or net has ends                                                       desk unchanged
 *    6  that list is full                                                                    desk unchanged
 *    7  nothing to undo                                                                      desk unchanged
 *    8  over 2,048 implicit anchors or 4,096 nodes                                           outputs zero
 *    9  start is no node                                                                     outputs zero
 *   10  an end is no node                                                                    outputs zero
 *   11  no line                                                                              outputs zero
 *   12  net has under two endpoints             (12 to 15: in a net's row of layout)         net has no vertex or junction
 *   13  an endpoint is no node                                                               same
 *   14  a net's line of one node                                                             same
 *   15  page vertices or net ends over limit                                                 same
 *   16  text line malformed or refused                                                       desk empty
 *
 * Numbers are tried in this order.
 *
 * Threads. The library has no state of its own: calls on different desks and outputs may run at once. A desk is for one caller
 * at a time; search and layout only read it, so several of them may share one.
 *
 * Stack. search and layout keep their scratch on the stack: see CLUE_DESK_STACK. There is no heap.
 *
 * Units. A coordinate is a count of steps, 256 to the unit, from -CLUE_DESK_COORDINATE to CLUE_DESK_COORDINATE.
 * Ids go from 1 to CLUE_DESK_ID, so that every uint32_t but 0 is one.
 */
#ifndef CLUE_DESK_H
#define CLUE_DESK_H

#include <stddef.h>
#include <stdint.h>

#ifdef __cplusplus
extern "C" {
#endif

/* Sizes of slices, in entries. A larger slice is taken too. */
#define CLUE_DESK_WORDS 2661          /* a desk; all zeros are an empty one */
#define CLUE_DESK_REFUSAL_WORDS 2     /* read_text: line and inner number */
#define CLUE_DESK_LINE_NODES 4096     /* search: each of lx, ly, kinds, dirs */
#define CLUE_DESK_NET_WORDS 5         /* layout: a net's row in nets */
#define CLUE_DESK_NETS_WORDS 320      /* layout: nets */
#define CLUE_DESK_VERTICES 512        /* layout: each of x, y, kinds */
#define CLUE_DESK_JUNCTION_WORDS 3    /* layout: a junction's row in joins */
#define CLUE_DESK_JOINS_WORDS 768     /* layout: joins */

/* Limits. */
#define CLUE_DESK_BOXES 64
#define CLUE_DESK_PORTS 256
#define CLUE_DESK_NETS 64
#define CLUE_DESK_ENDS 256
#define CLUE_DESK_COPIES 32           /* undos in a row */
#define CLUE_DESK_SEARCH_ENDS 4096
#define CLUE_DESK_ID 4294967295
#define CLUE_DESK_COORDINATE 4194304

/* The words of a desk, for a caller that reads them. Only calls should write them: all but read_text test what is said here and
 * get 2 if it does not hold.
 *
 *   from word               stands
 *   0                       the number of undo entries, 0 to CLUE_DESK_COPIES
 *   CLUE_DESK_BOXES_AT      the number of boxes; behind it their rows: id, least x, least y, greatest x, greatest y
 *   CLUE_DESK_PORTS_AT      the number of ports; behind it their rows: box, x, y, directions
 *   CLUE_DESK_NETS_AT       the number of nets; behind it their rows: id
 *   CLUE_DESK_ENDS_AT       the number of ends; behind it their rows: net, x, y, mark
 *   CLUE_DESK_ENTRIES_AT    the undo entries, the latest first
 *
 * Rows stand in kept order and have as many words as is said below. So field f of box i, both counted from 0, is
 * desk[CLUE_DESK_BOXES_AT + 1 + i * CLUE_DESK_BOX_WORDS + f], and word w of undo entry k is
 * desk[CLUE_DESK_ENTRIES_AT + k * CLUE_DESK_ENTRY_WORDS + w]. What stands behind the last row of a list and behind the last
 * undo entry says nothing.
 *
 * A coordinate's word is the coordinate plus CLUE_DESK_ORIGIN; the coordinate is (int32_t)(word - CLUE_DESK_ORIGIN).
 *
 * An undo entry says what the undo does; what it does not use of its words says nothing.
 *
 *   word    holds
 *   0       CLUE_DESK_UNDO_ADD and a kind added up: the last record of that kind goes; or
 *           CLUE_DESK_UNDO_RETIRE and a kind: a record of that kind comes back
 *   1       if it comes back: at which place, the number of records before it
 *   2 ..    if it comes back: its row
 *
 * The first entry undoes the latest change. Each entry is about the lists as the undos of those before it leave them. */
#define CLUE_DESK_BOXES_AT 1
#define CLUE_DESK_PORTS_AT 322
#define CLUE_DESK_NETS_AT 1347
#define CLUE_DESK_ENDS_AT 1412
#define CLUE_DESK_ENTRIES_AT 2437

#define CLUE_DESK_BOX_WORDS 5
#define CLUE_DESK_PORT_WORDS 4
#define CLUE_DESK_NET_ID_WORDS 1
#define CLUE_DESK_END_WORDS 4
#define CLUE_DESK_ENTRY_WORDS 7

#define CLUE_DESK_ORIGIN 2147483648   /* the word of coordinate 0 */

#define CLUE_DESK_UNDO_ADD 0
#define CLUE_DESK_UNDO_RETIRE 4
#define CLUE_DESK_KIND_BOX 0
#define CLUE_DESK_KIND_PORT 1
#define CLUE_DESK_KIND_NET 2
#define CLUE_DESK_KIND_END 3

/* Bytes of stack that suffice for a call; measured, not proved: layout takes 522,600 of a thread's, search 457,000, the other calls
 * 17,448 at most. */
#define CLUE_DESK_STACK 655360

/* A port's directions are a sum of these; the direction onward of a line's node is one of them. */
#define CLUE_DESK_NEG_X 1
#define CLUE_DESK_POS_X 2
#define CLUE_DESK_NEG_Y 4
#define CLUE_DESK_POS_Y 8

/* Reads a page text: empties lists and pile, then adds the text's lines without undo entries. A line has at most 96 bytes with its
 * LF. 0, or 16, or 1.
 * refusal: the 1-based line and the inner number (0 if the line is malformed) at 16, zeros at 0; zeros behind them. */
uint32_t read_text(uint32_t *desk, size_t desk_len, const uint8_t *text, size_t text_len, uint32_t *refusal, size_t refusal_len);

/* Additions. At 0 the record is put last in its list, and an undo entry is laid on the pile; a 33rd entry drops the oldest. */

/* A box from (x0, y0) to (x1, y1). 0, 1, 2, 3 or 6. */
uint32_t add_box(uint32_t *desk, size_t desk_len, uint32_t id, int32_t x0, int32_t y0, int32_t x1, int32_t y1);

/* A port of the box id; directions from 0 to 15. 0, 1, 2, 4 or 6. */
uint32_t add_port(uint32_t *desk, size_t desk_len, uint32_t id, int32_t x, int32_t y, uint32_t directions);

/* A net. 0, 1, 2, 3 or 6. */
uint32_t add_net(uint32_t *desk, size_t desk_len, uint32_t id);

/* An end of a net; mark 1 if a port is there, else 0. 0, 1, 2, 4 or 6. */
uint32_t add_end(uint32_t *desk, size_t desk_len, uint32_t net, int32_t x, int32_t y, uint32_t mark);

/* Retirements. At 0 the record is taken out of its list, and an undo entry is laid on the pile. Boxes and nets retire by id,
 * ports and ends by the number of records before them in their list. */

/* 0, 1, 2, 4 or 5. */
uint32_t retire_box(uint32_t *desk, size_t desk_len, uint32_t id);

/* 0, 1, 2 or 4. */
uint32_t retire_port(uint32_t *desk, size_t desk_len, uint32_t at);

/* 0, 1, 2, 4 or 5. */
uint32_t retire_net(uint32_t *desk, size_t desk_len, uint32_t id);

/* 0, 1, 2 or 4. */
uint32_t retire_end(uint32_t *desk, size_t desk_len, uint32_t at);

/* Undoes the latest change of the pile and takes its entry off; there is no redo. 0, 1, 2 or 7. */
uint32_t undo(uint32_t *desk, size_t desk_len);

/* The line from (x, y) to one of the ends (ex[i], ey[i]), on the graph of the desk's page, pruned (prune 1) or not (0).
 * 0, 1, 2, 8, 9, 10 or 11.
 * At 0: the line's nodes from start to end in lx, ly, kinds ('S' start, 'N' normal, 'E' end; only the last node has 'E') and dirs
 * (the direction onward, 0 at the end), zeros behind them. */
uint32_t search(const uint32_t *desk, size_t desk_len, uint32_t prune, int32_t x, int32_t y, const int32_t *ex, size_t ex_len, const int32_t *ey, size_t ey_len, int32_t *lx, size_t lx_len, int32_t *ly, size_t ly_len, uint8_t *kinds, size_t kinds_len, uint8_t *dirs, size_t dirs_len);

/* All nets of the desk on its page's graph, pruned (prune 1) or not (0), in kept order; then their wires separated (separate 1)
 * or not (0). 0, 1, 2 or 8; 0 even if every net is refused.
 * At 0, with zeros behind them:
 *   nets          a row for each net: its number (0, 12, 13, 14, 15), first vertex, vertices, first junction, junctions
 *   x, y, kinds   the vertices: place, and 'R' root start, 'B' branch start, 'D' dummy, 'N' normal, 'E' end, 'C' end on a corner,
 *                 'L' end on a line segment
 *   joins         a row for each junction: vertex, joining end vertex, 'C' or 'L', as they were made
 * Indices of vertices are those of x, y and kinds, so a net's own vertices begin at its first vertex.
 *
 * Of a net with number 0 each endpoint is the place of a start ('R', 'B') or of an 'E', separated or not. What number 0 does not say:
 *   - After separation a branch ('C', 'L') may end beside the line that it joins, on nothing: one of the two moved, the other did not.
 *   - Two nets may share a stretch, also after separation.
 *   - Where no line is found the net gets a fallback wire, straight or with one corner, which may cross boxes. It is told by its
 *     start, 'R', that is not followed by 'D'. */
uint32_t layout(const uint32_t *desk, size_t desk_len, uint32_t prune, uint32_t separate, uint32_t *nets, size_t nets_len, int32_t *x, size_t x_len, int32_t *y, size_t y_len, uint8_t *kinds, size_t kinds_len, uint32_t *joins, size_t joins_len);

#ifdef __cplusplus
}
#endif

#endif
