/* ragbasalt.h: the voting frame controller of a web press, for C (C11) and C++ (C++17) on x86-64. Version 4.
 *
 * Link with the archive libragbasalt.a. What a caller needs to know is in this file: sections 1 to 11 tell what is
 * computed and in which form, then come limits, structs and calls. (In the repository `./ragbasalt library` builds the
 * archive, examples/board/board.c is a board that calls it, and examples/card/card.c one that does so through cards.)
 *
 * 1. What this is
 *
 * A press has n controllers, the nodes. All have the same plan, and in each frame all get the same sensor readings.
 * Many times a second each node computes its setpoints, sends a message to all nodes, takes over what more than half of
 * the messages say, and puts its setpoints out. The plane, which stands before the drives, hands on one of the n setpoints
 * for each actuator. So a node that a fault left with a wrong memory gets it right again from the others.
 *
 * There are calls on a plan (read, write, test), on one node (what a board calls in each frame), on a card (one node with a
 * page of registers, which a host drives by interrupts), on a system of n nodes under faults (to try out a plan), and on a
 * run, which is a file of frames that is listed line by line.
 *
 * 2. A frame, in six steps
 *
 * n, F, C, S and A are the plan's numbers of nodes, frames, cells, sensors and actuators (section 4).
 *
 * Memory:    a node's memory is a counter and C cells; at power-on the counter is 0 and each cell has its initial pattern.
 * Compute:   with g = counter mod F the tasks of frame g run in their order, each seeing what those before it wrote; then
 *            the counter becomes (g + 1) mod F.
 * Broadcast: the node sends its new counter and the cells that are voted in frame g, and 0 for every other cell.
 * Vote:      the counter that more than half of the n messages hold is taken over, unless it is F or above; then, with
 *            g' = (counter + F - 1) mod F, each cell voted in g' takes the value that more than half of the messages hold;
 *            where there is no such value, the node's own stays.
 * Setpoints: setpoint i is, after the vote, the pattern in the cell of actuator i.
 * Plane:     for each actuator it hands on the value that most nodes put out. Of tied values, which equally many nodes put
 *            out and no other value more, it hands on the one that it last handed on, if that is among them; else that
 *            whose lowest-numbered holder is lowest. At power-on the value last handed on is the initial pattern of the
 *            actuator's cell.
 *
 * A node hears itself: its own message is one of the n. More than half is of all n: 2 of 3, 3 of 4, and both of 2. Votes
 * and plane compare bits: +0 and -0 differ, and a NaN equals a NaN of the same bits. Any memory may be computed on, since a
 * fault may leave anything: a counter of F or above works as counter mod F in Compute. Frames are also counted from
 * power-on: in frame t a node whose memory is right runs the plan's frame g = t mod F.
 *
 * A tie at the plane, as an example: of 4, 5, 5, 4, 6 from nodes 0 to 4 it hands on 5 if it last handed on 5, else 4; 4 also
 * if it last handed on 6, which one node alone puts out.
 *
 * More words, said of a system from power-on:
 *
 *   good, bad    of a node in a frame. A good node does the above. What a bad one holds after the frame, sends to each node
 *                and puts out is whatever the caller says (section 8).
 *   good count   of a node: R at the system's power-on (R is in section 5); 0 after a frame in which it was bad, 1 more
 *                after one in which it was good, up to R. A board that restarts alone was bad.
 *   works        a node works in a frame if it is good in it and its good count was R before it.
 *   single       the single controller: one memory that computes in each frame and never fails or votes. Its setpoints
 *                are what the press should get.
 *   equal        a node whose memory after a frame is the single controller's: counter and C cells, bit for bit.
 *   agreement    of a node's vote: how many of the messages hold the value that more than half of them hold, 0 where there
 *                is none; the least over the counter (also one that is not taken over) and the cells voted in g'. Of a
 *                frame: the least over its good nodes, 0 if all are bad.
 *
 * While in every frame from power-on on more than half of the nodes work, the plane hands on the single controller's
 * setpoints, and every node whose good count is R is equal, whatever bad nodes do. With 1 or 2 nodes that is only while no
 * node is bad. From the first frame on in which not more than half work nothing vouches for a value until the next power-on:
 * on a tie a wrong one stays as a right one does.
 *
 * 3. Numbers and patterns
 *
 * A pattern is the 64 bits of an IEEE 754 binary64 value, a C `double`, in a uint64_t (memcpy takes one to the other).
 * Sensors, cells, setpoints and the constants of tasks are patterns: 0 is +0.0, 0x3FF0000000000000 is 1.0. A sensor and an
 * initial pattern may be any, also a NaN or an infinity.
 *
 * Nodes, frames, cells, targets, sensors and actuators count from 0, lines of a text or of a run from 1. A mask is a set of
 * nodes: bit i for node i.
 *
 * Each sum, difference and product is rounded once, to nearest, ties to even; subnormal values are kept; a NaN that comes
 * out is always 0x7FF8000000000000.
 *
 * 4. The plan
 *
 * A plan is a cycle of F frames: which tasks run in each of them, and which cells are voted in it. A node's counter says
 * which frame of the cycle comes next.
 *
 *   field        letter   limits    in struct ragbasalt_plan
 *   nodes        n        1 to 7
 *   frames       F        1 to 16   the frames of the plan's cycle
 *   cells        C        1 to 32   initial[c] is cell c's pattern at power-on
 *   sensors      S        1 to 16
 *   actuators    A        1 to 8    actuator_cells[i] is the cell of actuator i
 *   task_count            0 to 64   tasks[0] to tasks[task_count - 1]
 *   votes                           bit c of votes[f] set: cell c is voted in frame f
 *
 * A task writes one cell, its target, in one frame. a and b are the values in the cells that it names:
 *
 *   kind       source   first    second   the target becomes
 *   10 Take    sensor   0        0        the sensor's pattern as it is
 *   11 Sum     cell a   cell b   0        a + b
 *   12 Diff    cell a   cell b   0        a - b
 *   13 Scale   cell a   factor   0        factor * a
 *   14 Limit   cell a   low      high     low if a < low or a is a NaN; high if a > high; else a's own pattern
 *   15 Wind    cell a   rate     cap      what Limit gives, from -cap to cap, of old + rate * a; old is the target's value
 *                                         before the task, and product and sum are rounded each
 *   16 Cam     cell a   0        0        entry(i) as a double; i is 0 if a < 0 or a is a NaN, 512 if a > 512, else the
 *                                         whole part of a
 *
 * entry(i) = (1536 * i * i - 2 * i * i * i + 1024) / 2048 in whole numbers, the remainder dropped: 0, 32,768 and 65,536 at
 * 0, 256 and 512. -cap is cap with its sign bit set: where cap is +0, Wind gives -0 for a NaN or a value below 0.
 *
 * The rules, beside the limits above:
 * - a task's frame is below F, its target and the cells that it names below C, its sensor below S;
 * - factor, low, high, rate and cap are finite; low <= high as doubles (+0 and -0 either way); cap has sign bit 0, so
 *   that -0 is no cap;
 * - what the table shows as 0 is 0;
 * - the tasks' frames do not fall from one task to the next; tasks of one frame run in the order in which they stand;
 * - votes are of frames below F and of cells below C; actuator_cells are below C;
 * - there is a recovery period (section 5);
 * - what is past the counts is 0: initial from C, votes from F, actuator_cells from A; and each task from task_count on
 *   is 10 0 0 0 0 0.
 *
 * A struct that keeps all of them is a plan; every other one is refused with 7. To learn why, write the lines of section 6
 * by a program of your own and read them with ragbasalt_plan_read: it answers with a number of section 9 and the line. If
 * the text is accepted, the struct read from it and yours differ past the counts.
 *
 * 5. The recovery period R
 *
 * R is the number of good frames after which a node's memory is right again, whatever was in it, while more than half of
 * the nodes work. It follows from the plan alone. After the first good frame the cells voted in it are known, and no others.
 * In each later frame the tasks are gone through in order: a target becomes known if all cells that the task reads are known,
 * and unknown if not (Take reads no cell, Sum and Diff a and b, Wind a and its target, the others a); then the cells voted in
 * that frame become known. R is the least number of good frames after which all cells are known, whichever frame of the cycle
 * came first: from 1 to 1 + F * C, so at most 513. Where every cell is voted in every frame it is 1. A cell that no task
 * writes and that is never voted is never known. A plan without R is refused, a text with 6 and a struct with 7.
 *
 * 6. The text of a plan
 *
 * Lines of 57 bytes: six numbers in columns of width 4, 4, 4, 4, 20, 20, then a line feed (byte 10). A number is unsigned
 * and decimal, at most 2^64 - 1, right-justified with blanks (byte 32) before it; no sign, no zeros before it, and 0 is `0`.
 * In C "%4" PRIu64 four times, "%20" PRIu64 twice and "\n", each number having room in its column.
 *
 *   1st        2nd        3rd       4th      5th       6th
 *   0          n          F         C        S         A         the header
 *   1          cell       0         0        initial   0         a cell
 *   10 to 16   frame      target    source   first     second    a task
 *   20         frame      cell      0        0         0         a vote
 *   30         actuator   cell      0        0         0         an actuator
 *
 * In this order: one header; cells 0 to C - 1; tasks, frames not falling; votes, strictly rising by frame and, in a frame,
 * by cell; actuators 0 to A - 1. Tasks or votes may be missing. The longest text has 617 lines, 35,169 bytes. A plan has one
 * text and one struct: reading and writing undo each other.
 *
 * An example: three nodes; cell 0 takes the sensor in frame 0; cell 1 becomes cell 0 + cell 1 in frame 1, is voted there,
 * and is the setpoint. R is 3.
 *
 *      0   3   2   2                   1                   1
 *      1   0   0   0                   0                   0
 *      1   1   0   0                   0                   0
 *     10   0   0   0                   0                   0
 *     11   1   1   0                   1                   0
 *     20   1   1   0                   0                   0
 *     30   0   1   0                   0                   0
 *
 * 7. A run and its listing
 *
 * A run is a file of lines, one for each frame from power-on, of 9 + 20 * S bytes: mask (width 4), fill (4), S sensor
 * patterns (20 each), a line feed; columns as in section 6. The mask's nodes are bad in the frame, and all its fault bytes
 * (section 8) are fill, 0 to 255. There are at most 100,000 lines.
 *
 * A line of the listing has 21 + 20 * A bytes: frame number (width 8), how many nodes worked in the frame (4), how many were
 * equal after it (4), A setpoints that the plane hands on (20 each), the agreement (4), a line feed. A refusal's line has
 * 13: its number (4) and the line that it is about (8), a line feed. It ends a listing.
 *
 * To list `file`, a const uint8_t * to `length` bytes, under the plan text `text`, line by line:
 *
 *   ragbasalt_plan plan;
 *   ragbasalt_run run;
 *   uint8_t line[RAGBASALT_MAX_LINE_BYTES];
 *   size_t at = 0, count;
 *   ragbasalt_answer answer = ragbasalt_listing_start(text, text_length, &plan, &run);
 *   while (answer == RAGBASALT_DONE) {
 *       answer = ragbasalt_listing_next(&plan, &run, file + at, length - at, line, sizeof line, &count);
 *       if (count == 0)
 *           break;                           // the end of the file, or a refusal
 *       fwrite(line, 1, count, stdout);
 *       at += 9 + 20 * (size_t)plan.sensors; // a line that was run had all its bytes
 *   }
 *   if (ragbasalt_listing_refusal(answer, line, sizeof line, &count) == RAGBASALT_DONE)
 *       fwrite(line, 1, count, stdout);      // no byte where nothing was refused
 *
 * 8. Messages, mailboxes, fault bytes
 *
 * Numbers in them are big-endian. With m = 2 + 8 * C:
 *
 *   message       m bytes: the counter (2), cells 0 to C - 1 (8 each), 0 where a cell is not voted
 *   mailbox       n * m bytes: the n messages that a node got, node 0's first, its own among them; one that did not come,
 *                 or came damaged, is m zero bytes
 *   fault bytes   n * p bytes, p = (n + 1) * m + 8 * A: for each node j, from 0 on, p bytes at j * p:
 *                   its memory after the frame, as a message with all its cells     m bytes at j * p
 *                   its message to node i, for i from 0 to n - 1                    m bytes at j * p + (1 + i) * m
 *                   its setpoint k, for k from 0 to A - 1                           8 bytes at j * p + (n + 1) * m + 8 * k
 *
 * Only the bytes of bad nodes count, and of their messages only those to good nodes. Good nodes send one message to all.
 * Zero bytes are a message like any other, of counter 0 and +0 in every cell: where more than half of a mailbox is missing,
 * zeros are voted in and the agreement does not show it. A board that misses so many counts itself bad.
 *
 * 9. Answers
 *
 * A call answers number + 256 * line, and 0 where it is done (ragbasalt_number_of and ragbasalt_line_of take it apart).
 * The line counts from 1 and is 0 where no line is meant.
 *
 *   number   refused is                                                                        line
 *   1        a text of length 0, above 35,169, or no multiple of 57                            0
 *   2        a column or line end not of the form of section 6, or a number above 2^64 - 1     of the text
 *   3        a first line that is no header, or a header number outside its limits             1
 *   4        an unknown kind; a line out of order, also a cell or an actuator that is not      of the text
 *            the next one due; a 65th task; at the end, cells or actuators that are missing    (missing: one past the last)
 *   5        any other index out of range, what has to be 0 and is not, a constant             of the text
 *            against the rules of section 4
 *   6        a text without a recovery period                                                  0
 *   7        a struct that is no plan                                                          0
 *   8        a length that is not exact (sensors, setpoints, a message, a mailbox, fault       0
 *            bytes), or a place that is too short (a text, a line, histories)
 *   9        a mask of 2^n or above; a good count above R, of one of the n nodes               0
 *   10       a run line that is not of its form, a mask of 2^n or above or a fill above 255    of the run
 *            in it, or any byte after line 100,000 (line 100,001)
 *   11       histories of a plan of more than 5 nodes, or of a length that is not 1 to 4       0
 *   12       an access outside a card's page, or a write to a byte of it other than 4 and 5    0
 *
 * A text is refused with 1 first, then by its first bad line, and in one line with 2, 3, 4, 5 in this order; last come
 * missing lines (4), then 6. Other calls try 7, 9, 11, 12, 8 and 10 in this order; each call below names those that it can
 * give.
 *
 * Refused, every word and byte behind the pointers stays as it was, but for the one number that a call gives (count, period,
 * agreement, a page's byte), which is then 0. Not refused, a call on a memory, a card, a system or a run writes the words of
 * the plan's n nodes and C cells and the first A of `handed`; all words past them stay. On a card it also writes phase, flags
 * and mask, a delivery that changes nothing too; which of the bins' bytes it writes is in section 11. Power-on writes all
 * words and bytes, zeros past the plan's.
 *
 * Any words may stand in a memory, a card, a system or a run: a counter counts by its low 16 bits, and is written with those
 * above them 0; a phase counts modulo 4, flags and mask by bits 0 and 1, and they are written as they count; a good count
 * above 65,535 counts as 65,535, which is above every R; `handed` may hold any patterns, and the first A of them are read.
 *
 * 10. What a caller must keep to
 *
 * - A pointer is valid for its whole length, which is counted in elements (S sensors, not their bytes), is aligned for its
 *   type, and is not null where the length is not 0; a pointer to a struct or to one number is valid and not null.
 * - A buffer that a call writes overlaps no other buffer of the call.
 * - While a call runs no other thread writes a buffer that it has, or reads one that it writes. Buffers that are only read, as
 *   one plan for all threads, may be shared. The archive has no state of its own, so calls on different buffers may run at
 *   once.
 * - The calling thread's floating-point environment is the one that a thread has unless something changes it: rounding to
 *   nearest, subnormal results not flushed to zero, subnormal operands not read as zero, every exception masked (MXCSR
 *   0x1F80, its six flags left aside). Each thread has its own. Calls such as fesetround, feenableexcept and _mm_setcsr
 *   change it, and linking with -Ofast or -ffast-math (gcc, clang) sets both flushes before main. In another environment
 *   setpoints can differ in their last bit or be 0, a plan against the rules can be accepted, and with an exception
 *   unmasked a call can end by a signal. ragbasalt_arithmetic_holds, the last function below, tells.
 * - There is stack. Measured on this archive, a call takes below its caller at most 25,300 bytes on a plan or on one node,
 *   31,500 on a card or a system, 33,600 for ragbasalt_listing_start and 72,100 for ragbasalt_listing_next. Allow for some
 *   more.
 *
 * Everything else is answered: with these kept no content of a buffer, no length, no mask and no number makes a call trap or
 * run for ever.
 *
 * The archive is for every x86-64 processor and the System V calling convention. It needs memcpy and memset and allocates
 * nothing. It uses the red zone, the 128 bytes below the stack pointer: a handler that interrupts a call on its own stack
 * leaves them alone, and saves the SSE registers and MXCSR.
 *
 * Time: every call makes the plan of its struct and tests it, R included. Measured, and not proved: ragbasalt_plan_check
 * takes 11,000 to 15,000 instructions on plans with an R of at most some 15, and 101,000 on one with R = 512. A node's call
 * takes up to 5,000 more, a vote of 32 cells without a majority 14,000; a card's tick takes the node's call of the phase that
 * it leaves and some 1,700 more, its other calls 200 at most beside the test of the plan. ragbasalt_system_frame takes 6,000 to 23,000 more on
 * the plans of tests/listings with at most one bad node; with seven nodes and 64 tasks and 32 votes in one frame up to
 * 53,000, and up to 98,000 where four of the seven are bad.
 *
 * 11. The card
 *
 * A card is one node that a frame timer drives by ticks. Its host reads and writes a page of 16 bytes, and delivers the
 * messages that the node gets, its own too, into bins. Here a card is two structs that the caller keeps, ragbasalt_card and
 * ragbasalt_bins, and the timer's ticks and what the host does are calls on them.
 *
 *   byte      read                                                     written
 *   0, 1      the memory's counter as it is now, big-endian            refused with 12
 *   2         the phase: 0 compute, 1 broadcast, 2 vote, 3 sync        refused with 12
 *   3         the flags: bit 0 frame timer due, bit 1 bins full,       refused with 12
 *             bit 2 the interrupt line
 *   4         the interrupt mask for flag bits 0 and 1                 bits 0 and 1 are kept, the others count for nothing
 *   5         0                                                        clears flag bits 0 and 1 where it has ones
 *   6 to 15   0                                                        refused with 12
 *
 * The interrupt line is 1 while flag bit 0 and mask bit 0 are, or flag bit 1 and mask bit 1; it is made at each read and kept
 * nowhere. A flag stays set until a write to byte 5 clears it, or power-on.
 *
 * A tick sets flag bit 0, moves the phase on, and does what the phase that it leaves says:
 *
 *   0 compute     computes with the tick's sensors; the phase is then 1
 *   1 broadcast   nothing more; the phase is then 2
 *   2 vote        votes on the n bins, of which an empty one counts as m zero bytes (section 8); the phase is then 3
 *   3 sync        writes the setpoints to the tick's place and empties all bins; the phase is then 0
 *
 * Every tick is refused with 8 where the sensors or the place have another length, though sensors are read in phase 0 alone
 * and the place is written in phase 3 alone. A tick does not wait for bins, and gives no agreement.
 *
 * The bins are n of 1 + m bytes, one after another: a mark, 1 in a filled bin and any other value in an empty one, and a
 * message. Bin j is for node j's message, and its mark is bytes[j * (1 + m)]. In phase 1 a delivery with a number below n
 * writes mark and message, so a bin delivered again has the later bytes. In another phase, or with a number from n up, it is
 * not refused and changes nothing. Flag bit 1 is set by a delivery to a bin that was empty where no bin is empty any more, and
 * by nothing else: a full bin delivered again does not set it, and emptying the bins does not clear it. Emptying writes 0 to
 * the n marks and leaves the messages. What is past the n bins is neither read nor, but at power-on, written.
 *
 * A frame on a card: four ticks that are not refused, from phase 0 with all bins empty, are the node's frame of section 2 for
 * the sensors of the first tick and the last bytes delivered into each bin between the first and the second, an empty bin
 * counting as m zero bytes; the setpoints come with the fourth, and then it is phase 0 again with all bins empty. What else
 * was called in between, reads, writes, other deliveries and calls that were refused, makes no difference.
 *
 * A host by interrupts writes 3 to byte 4 after power-on. Whenever the line is raised it reads byte 3 and writes what it read
 * to byte 5, before it does anything else: so a flag that is set meanwhile raises the line again. Then,
 *
 *   with bit 0, it reads byte 2:
 *     1    makes the message of the card's memory (ragbasalt_node_message), sends it to all and delivers it to its own card
 *     0    puts out the setpoints of the tick that came just now
 *   with bit 1: every bin has a message; where it did not come before the vote one is missing, and counts as zeros (section 8)
 *
 * Messages that come from others it delivers as they come while byte 2 is 1. One that comes before its own card has left
 * compute it keeps and delivers then, since a delivery in another phase is lost without a refusal; one that comes after
 * broadcast is too late for this frame. Calls on one card are made one after another: a handler that interrupts one of them
 * makes none on the same card.
 *
 * A fault may leave any words in a card and any bytes in its bins. A phase that is not the other nodes' stays apart from
 * theirs, as four ticks come back to it. So a host whose node comes back from a fault begins again while the others are in
 * compute: it powers the card on, or it sets phase, flags and marks to 0 and leaves the memory as it is, for the votes to put
 * right; then it writes the mask.
 */
#ifndef RAGBASALT_H
#define RAGBASALT_H

#include <stddef.h>
#include <stdint.h>

#ifdef __cplusplus
extern "C" {
#endif

/* The version rises where a struct, a parameter, a layout or a meaning changes. A program built with the header of another version
 * does not link: it asks for a function that the archive does not have. */
#define RAGBASALT_VERSION 4u
uint64_t ragbasalt_version_4(void);
#if defined(__has_attribute)
#if __has_attribute(retain)
#define RAGBASALT_KEPT __attribute__((used, retain)) /* a linker that leaves out what nobody uses keeps it too */
#endif
#endif
#if !defined(RAGBASALT_KEPT) && defined(__GNUC__)
#define RAGBASALT_KEPT __attribute__((used))
#endif
#if defined(RAGBASALT_KEPT)
RAGBASALT_KEPT static uint64_t (*const ragbasalt_version_of_header)(void) = ragbasalt_version_4;
#undef RAGBASALT_KEPT
#endif

/* ---- limits */

/* The most that a plan can have; the least is 1, and 0 of tasks. */
#define RAGBASALT_MAX_NODES 7u
#define RAGBASALT_MAX_FRAMES 16u
#define RAGBASALT_MAX_CELLS 32u
#define RAGBASALT_MAX_SENSORS 16u
#define RAGBASALT_MAX_ACTUATORS 8u
#define RAGBASALT_MAX_TASKS 64u

/* Bytes that are enough for every plan. */
#define RAGBASALT_MAX_TEXT_BYTES 35169u
#define RAGBASALT_MAX_MESSAGE_BYTES (2u + 8u * RAGBASALT_MAX_CELLS)
#define RAGBASALT_MAX_MAILBOX_BYTES (RAGBASALT_MAX_NODES * RAGBASALT_MAX_MESSAGE_BYTES)
#define RAGBASALT_MAX_BINS_BYTES (RAGBASALT_MAX_NODES * (1u + RAGBASALT_MAX_MESSAGE_BYTES))
#define RAGBASALT_MAX_FAULTS_BYTES (RAGBASALT_MAX_NODES * ((RAGBASALT_MAX_NODES + 1u) * RAGBASALT_MAX_MESSAGE_BYTES + 8u * RAGBASALT_MAX_ACTUATORS))

/* The longest line of a listing; the line of a refusal. */
#define RAGBASALT_MAX_LINE_BYTES 181u
#define RAGBASALT_REFUSAL_LINE_BYTES 13u

/* Fault histories are listed for plans of at most so many nodes, and for 1 to so many frames. The bytes are enough for all:
 * those of 5 nodes, R = 1 and 4 frames, 7,396 histories, which were counted, not proved, to be the most. */
#define RAGBASALT_MAX_HISTORIES_NODES 5u
#define RAGBASALT_MAX_HISTORIES_FRAMES 4u
#define RAGBASALT_MAX_HISTORIES_BYTES 29584u

/* The page of a card. */
#define RAGBASALT_PAGE_BYTES 16u

/* ---- answers (section 9) */

typedef uint64_t ragbasalt_answer;

/* Compilers that can do so warn where an answer is not looked at. */
#if defined(__cplusplus)
#define RAGBASALT_ANSWER [[nodiscard]] ragbasalt_answer
#elif defined(__GNUC__)
#define RAGBASALT_ANSWER __attribute__((warn_unused_result)) ragbasalt_answer
#else
#define RAGBASALT_ANSWER ragbasalt_answer
#endif

enum ragbasalt_number {
    RAGBASALT_DONE = 0,
    RAGBASALT_REFUSED_TEXT_LENGTH = 1,
    RAGBASALT_REFUSED_MALFORMED = 2,
    RAGBASALT_REFUSED_HEADER = 3,
    RAGBASALT_REFUSED_ORDER = 4,
    RAGBASALT_REFUSED_RANGE = 5,
    RAGBASALT_REFUSED_UNRECOVERABLE = 6,
    RAGBASALT_REFUSED_PLAN = 7,
    RAGBASALT_REFUSED_LENGTH = 8,
    RAGBASALT_REFUSED_MASK = 9, /* or a good count */
    RAGBASALT_REFUSED_RUN_LINE = 10,
    RAGBASALT_REFUSED_HISTORIES = 11,
    RAGBASALT_REFUSED_PAGE = 12
};

static inline unsigned ragbasalt_number_of(ragbasalt_answer answer)
{
    return (unsigned)(answer & 255u);
}

/* The line of the text or of the run, from 1; 0 where no line is meant. */
static inline uint64_t ragbasalt_line_of(ragbasalt_answer answer)
{
    return answer >> 8;
}

/* ---- plans, memories, cards, systems, runs: structs of 64-bit words, but for a card's bins */

/* The kinds of a task; what they compute and what source, first and second are is in section 4. */
enum ragbasalt_kind {
    RAGBASALT_TAKE = 10,
    RAGBASALT_SUM = 11,
    RAGBASALT_DIFF = 12,
    RAGBASALT_SCALE = 13,
    RAGBASALT_LIMIT = 14,
    RAGBASALT_WIND = 15,
    RAGBASALT_CAM = 16
};

/* What a kind does not have is 0; an unused task is 10 0 0 0 0 0. */
typedef struct ragbasalt_task {
    uint64_t kind, frame, target, source, first, second;
} ragbasalt_task;

/* What is past the counts is zero, but for the kind of unused tasks, which is 10. */
typedef struct ragbasalt_plan {
    uint64_t nodes, frames, cells, sensors, actuators, task_count;
    uint64_t initial[RAGBASALT_MAX_CELLS]; /* patterns */
    ragbasalt_task tasks[RAGBASALT_MAX_TASKS];
    uint64_t votes[RAGBASALT_MAX_FRAMES]; /* for each frame, bit c set where cell c is voted in it */
    uint64_t actuator_cells[RAGBASALT_MAX_ACTUATORS];
} ragbasalt_plan;

typedef struct ragbasalt_memory {
    uint64_t counter;
    uint64_t cells[RAGBASALT_MAX_CELLS]; /* patterns */
} ragbasalt_memory;

/* What a card is but for its bins. */
typedef struct ragbasalt_card {
    ragbasalt_memory memory;
    uint64_t phase; /* modulo 4: an enum ragbasalt_phase */
    uint64_t flags; /* bits 0 and 1; the interrupt line is not kept */
    uint64_t mask;  /* bits 0 and 1 */
} ragbasalt_card;

/* The plan's n bins, 1 + ragbasalt_message_size bytes each: a mark, 1 in a filled bin, then a message. */
typedef struct ragbasalt_bins {
    uint8_t bytes[RAGBASALT_MAX_BINS_BYTES];
} ragbasalt_bins;

/* The bytes of a card's page; those that are not here read as 0 (section 11). */
enum ragbasalt_page {
    RAGBASALT_PAGE_COUNTER = 0, /* and 1 */
    RAGBASALT_PAGE_PHASE = 2,
    RAGBASALT_PAGE_FLAGS = 3,
    RAGBASALT_PAGE_MASK = 4, /* also written */
    RAGBASALT_PAGE_CLEAR = 5 /* only written */
};

enum ragbasalt_phase {
    RAGBASALT_PHASE_COMPUTE = 0,
    RAGBASALT_PHASE_BROADCAST = 1,
    RAGBASALT_PHASE_VOTE = 2,
    RAGBASALT_PHASE_SYNC = 3
};

/* Bits of page byte 3; the first two also of bytes 4 and 5. */
enum ragbasalt_flag {
    RAGBASALT_FLAG_TIMER = 1, /* frame timer due */
    RAGBASALT_FLAG_FULL = 2,  /* bins full */
    RAGBASALT_FLAG_LINE = 4   /* the interrupt line */
};

typedef struct ragbasalt_system {
    ragbasalt_memory nodes[RAGBASALT_MAX_NODES];
    uint64_t good[RAGBASALT_MAX_NODES];       /* good counts */
    uint64_t handed[RAGBASALT_MAX_ACTUATORS]; /* patterns: what the plane last handed on for each actuator */
} ragbasalt_system;

/* A run between two lines. */
typedef struct ragbasalt_run {
    ragbasalt_system system;
    ragbasalt_memory single; /* the single controller's */
    uint64_t period;         /* R, for the caller to read: no call reads it */
    uint64_t frame;          /* the number of the next frame: its line's number less 1; from 100,000 on the next line is refused with 10 as line 100,001 */
} ragbasalt_run;

#if defined(__cplusplus)
#define RAGBASALT_ASSERT(fact) static_assert(fact, "a struct of ragbasalt.h does not lie as the archive's words do")
#else
#define RAGBASALT_ASSERT(fact) _Static_assert(fact, "a struct of ragbasalt.h does not lie as the archive's words do")
#endif
RAGBASALT_ASSERT(sizeof(ragbasalt_plan) == 8 * 446 && offsetof(ragbasalt_plan, initial) == 8 * 6 && offsetof(ragbasalt_plan, tasks) == 8 * 38);
RAGBASALT_ASSERT(sizeof(ragbasalt_task) == 8 * 6 && offsetof(ragbasalt_plan, votes) == 8 * 422 && offsetof(ragbasalt_plan, actuator_cells) == 8 * 438);
RAGBASALT_ASSERT(sizeof(ragbasalt_memory) == 8 * 33 && offsetof(ragbasalt_memory, cells) == 8);
RAGBASALT_ASSERT(sizeof(ragbasalt_card) == 8 * 36 && offsetof(ragbasalt_card, phase) == 8 * 33 && offsetof(ragbasalt_card, flags) == 8 * 34);
RAGBASALT_ASSERT(offsetof(ragbasalt_card, mask) == 8 * 35 && sizeof(ragbasalt_bins) == 1813 && RAGBASALT_MAX_BINS_BYTES == 1813);
RAGBASALT_ASSERT(sizeof(ragbasalt_system) == 8 * 246 && offsetof(ragbasalt_system, good) == 8 * 231 && offsetof(ragbasalt_system, handed) == 8 * 238);
RAGBASALT_ASSERT(sizeof(ragbasalt_run) == 8 * 281 && offsetof(ragbasalt_run, single) == 8 * 246 && offsetof(ragbasalt_run, period) == 8 * 279);
#undef RAGBASALT_ASSERT

/* ---- plans (sections 4 to 6) */

/* Writes the plan of a text. 1 to 6. */
RAGBASALT_ANSWER ragbasalt_plan_read(const uint8_t *text, size_t text_length, ragbasalt_plan *plan);

/* Writes the plan's text at the front of `text`, leaves what is after it, and gives its bytes in `count`. 7; 8 where
 * `text` has fewer bytes. */
RAGBASALT_ANSWER ragbasalt_plan_write(const ragbasalt_plan *plan, uint8_t *text, size_t text_length, size_t *count);

/* 0 for a plan, or 7. */
RAGBASALT_ANSWER ragbasalt_plan_check(const ragbasalt_plan *plan);

/* Gives the recovery period R in `period`. 7. */
RAGBASALT_ANSWER ragbasalt_plan_period(const ragbasalt_plan *plan, size_t *period);

/* Lists the fault histories of `frames` frames from power-on: the sequences of masks in which every frame has more than
 * half of the nodes working, each once, rising as sequences, the first frame's mask leading. Writes them at the front of
 * `masks`, one byte a mask, leaves what is after them, and gives in `count` how many histories they are. 7; 11 for more
 * than 5 nodes, or `frames` not 1 to 4; 8 where `masks` has fewer than count * frames bytes. */
RAGBASALT_ANSWER ragbasalt_plan_histories(const ragbasalt_plan *plan, size_t frames, uint8_t *masks, size_t masks_length, size_t *count);

/* The bytes of a message, of a mailbox, of the fault bytes and of the text. No answers: 0 for a struct that is no plan. */
size_t ragbasalt_message_size(const ragbasalt_plan *plan);
size_t ragbasalt_mailbox_size(const ragbasalt_plan *plan);
size_t ragbasalt_faults_size(const ragbasalt_plan *plan);
size_t ragbasalt_text_size(const ragbasalt_plan *plan);

/* ---- one node (section 2). Any memory is taken, whatever a fault left in it. In a frame a board calls compute and message,
 * exchanges the messages, then calls vote and setpoints. The plane is not among these calls: what stands before the drives
 * does it, and remembers what it last handed on. */

/* Writes the memory at power-on: counter 0, the initial patterns, zeros past them. 7. */
RAGBASALT_ANSWER ragbasalt_node_power_on(const ragbasalt_plan *plan, ragbasalt_memory *memory);

/* Computes: runs the tasks of frame counter mod F on the memory and moves the counter on. `sensors`: S patterns. 7, 8. */
RAGBASALT_ANSWER ragbasalt_node_compute(const ragbasalt_plan *plan, ragbasalt_memory *memory, const uint64_t *sensors, size_t sensors_length);

/* Writes the message of a memory that has computed; the cells in it are those voted in frame (counter + F - 1) mod F.
 * `message`: ragbasalt_message_size bytes. 7, 8. */
RAGBASALT_ANSWER ragbasalt_node_message(const ragbasalt_plan *plan, const ragbasalt_memory *memory, uint8_t *message, size_t message_length);

/* Votes: takes over into the memory what more than half of the messages hold. `mailbox`: ragbasalt_mailbox_size bytes. Gives
 * the vote's agreement in `agreement`. 7, 8. */
RAGBASALT_ANSWER ragbasalt_node_vote(const ragbasalt_plan *plan, ragbasalt_memory *memory, const uint8_t *mailbox, size_t mailbox_length, size_t *agreement);

/* Writes the memory's setpoints. `setpoints`: A patterns. 7, 8. */
RAGBASALT_ANSWER ragbasalt_node_setpoints(const ragbasalt_plan *plan, const ragbasalt_memory *memory, uint64_t *setpoints, size_t setpoints_length);

/* A frame of the single controller: computes on the memory, then writes its setpoints. 7, 8. */
RAGBASALT_ANSWER ragbasalt_single_frame(const ragbasalt_plan *plan, ragbasalt_memory *memory, const uint64_t *sensors, size_t sensors_length, uint64_t *setpoints,
                                        size_t setpoints_length);

/* ---- a card (section 11). Any card and any bins are taken, whatever a fault left in them. */

/* Writes the card at power-on: memory at power-on, phase, flags and mask 0; and the bins, all bytes 0, so empty. 7. */
RAGBASALT_ANSWER ragbasalt_card_power_on(const ragbasalt_plan *plan, ragbasalt_card *card, ragbasalt_bins *bins);

/* Gives byte `at` of the page in `value`. 7; 12 for `at` above 15. */
RAGBASALT_ANSWER ragbasalt_card_read(const ragbasalt_plan *plan, const ragbasalt_card *card, uint64_t at, uint8_t *value);

/* Writes byte `at` of the page: 4, the mask, of which bits 0 and 1 are kept, or 5, whose ones clear flags. 7; 12 for another
 * `at`. */
RAGBASALT_ANSWER ragbasalt_card_write(const ragbasalt_plan *plan, ragbasalt_card *card, uint64_t at, uint8_t value);

/* Delivers a message into bin `number`: in phase 1, and where there is this bin; else nothing changes. `message`:
 * ragbasalt_message_size bytes, also where nothing changes. 7, 8. */
RAGBASALT_ANSWER ragbasalt_card_deliver(const ragbasalt_plan *plan, ragbasalt_card *card, ragbasalt_bins *bins, uint64_t number, const uint8_t *message, size_t message_length);

/* A tick of the frame timer: computes in phase 0, votes in phase 2, writes `setpoints` and empties the bins in phase 3, and
 * moves the phase on. `sensors`: S patterns, `setpoints`: A, both in every phase. 7, 8. */
RAGBASALT_ANSWER ragbasalt_card_tick(const ragbasalt_plan *plan, ragbasalt_card *card, ragbasalt_bins *bins, const uint64_t *sensors, size_t sensors_length, uint64_t *setpoints,
                                     size_t setpoints_length);

/* ---- the whole system: n nodes and the plane */

/* Writes the system at power-on: every node's memory at power-on, its good count R, and as `handed` the initial patterns of
 * the actuators' cells; zeros past the nodes and the actuators. 7. */
RAGBASALT_ANSWER ragbasalt_system_power_on(const ragbasalt_plan *plan, ragbasalt_system *system);

/* A frame of all nodes: writes the system after it, and what the plane hands on, in `setpoints` and in the system's `handed`,
 * by which the next frame's plane remembers it; what stands in `setpoints` before is not read. The nodes of `mask` are bad,
 * and `faults`, ragbasalt_faults_size bytes also where no node is bad, has what they hold, send and put out (section 8). `sensors`: S patterns,
 * `setpoints`: A. Gives the frame's agreement in `agreement`. 7, 9, 8. */
RAGBASALT_ANSWER ragbasalt_system_frame(const ragbasalt_plan *plan, ragbasalt_system *system, const uint64_t *sensors, size_t sensors_length, uint64_t mask,
                                        const uint8_t *faults, size_t faults_length, uint64_t *setpoints, size_t setpoints_length, size_t *agreement);

/* Gives in `count` how many nodes work in a frame with this mask; to be called before the frame. 7, 9. */
RAGBASALT_ANSWER ragbasalt_system_working(const ragbasalt_plan *plan, const ragbasalt_system *system, uint64_t mask, size_t *count);

/* Gives in `count` how many nodes have this memory: counter and C cells, bit for bit. 7, 9. */
RAGBASALT_ANSWER ragbasalt_system_equal(const ragbasalt_plan *plan, const ragbasalt_system *system, const ragbasalt_memory *memory, size_t *count);

/* ---- a run and its listing, line by line (section 7) */

/* Writes the plan of a text and its run at power-on. 1 to 6. */
RAGBASALT_ANSWER ragbasalt_listing_start(const uint8_t *text, size_t text_length, ragbasalt_plan *plan, ragbasalt_run *run);

/* Reads the first 9 + 20 * S bytes of `rest`, what is left of a run file, as a line, runs its frame, writes the listing's
 * line at the front of `line`, leaves what is after it, and gives its bytes in `count`. The next call takes `rest` from
 * 9 + 20 * S bytes further on. At the end of the file, where `rest_length` is 0, no line is written and `count` is 0. 7; 9 for
 * a good count; 8 where `line` has fewer than 21 + 20 * A bytes, at the end too; 10. */
RAGBASALT_ANSWER ragbasalt_listing_next(const ragbasalt_plan *plan, ragbasalt_run *run, const uint8_t *rest, size_t rest_length, uint8_t *line, size_t line_length, size_t *count);

/* Writes the line that a listing ends with where a call gave this answer, at the front of `line`, and gives its bytes in
 * `count`: 13, or 0 for RAGBASALT_DONE and for a number that no call gives. The line's number is the answer's for 2, 4, 5
 * and 10, 1 for 3 and 0 for the others. 8 where `line` has fewer than 13 bytes, for RAGBASALT_DONE too. */
RAGBASALT_ANSWER ragbasalt_listing_refusal(ragbasalt_answer answer, uint8_t *line, size_t line_length, size_t *count);

/* ---- the thread's arithmetic (section 10) */

/* 1 if the archive's arithmetic is IEEE 754's in this thread, 0 if not; to be asked once in each thread, before its first
 * call. It lets the archive compute on hard operands: ties, subnormals, a product that overflows. All are integers here, so
 * that no compiler works them out beforehand. Exceptions that are not masked are seen where the compiler is gcc or clang;
 * with another one a call made here can end by their signal. Takes 4 KB of stack beside the call's. */
static inline int ragbasalt_arithmetic_holds(void)
{
    static const uint64_t operands[7] = {
        UINT64_C(0x3FF0000000000000), /* cell 0: 1 */
        UINT64_C(0x3FF0000000000001), /* cell 1: 1 + 2^-52 */
        UINT64_C(0x3CA0000000000000), /* cell 2: 2^-53 */
        UINT64_C(0x7FEFFFFFFFFFFFFF), /* cell 3: the largest finite value */
        UINT64_C(0x0010000000000000), /* cell 4: 2^-1022, the least positive value that is not subnormal */
        UINT64_C(0x0000000000000003), /* cell 5: 3 * 2^-1074 */
        UINT64_C(0xBFF0000000000002)  /* cell 6: -(1 + 2^-51) */
    };
    static const ragbasalt_task steps[10] = {
        {RAGBASALT_SUM, 0, 7, 0, 2, 0}, /* ties */
        {RAGBASALT_SUM, 0, 8, 1, 2, 0},
        {RAGBASALT_DIFF, 0, 9, 2, 1, 0},
        {RAGBASALT_SCALE, 0, 10, 3, UINT64_C(0x4000000000000000), 0}, /* 2 * a overflows */
        {RAGBASALT_SCALE, 0, 11, 4, UINT64_C(0x3FE0000000000000), 0}, /* a / 2 is subnormal */
        {RAGBASALT_SCALE, 0, 12, 5, UINT64_C(0x3FE0000000000000), 0}, /* the same, and a tie */
        {RAGBASALT_SUM, 0, 13, 4, 5, 0},                              /* b is subnormal, the sum is not */
        {RAGBASALT_LIMIT, 0, 14, 5, 0, 0},                            /* a, which is subnormal, is above 0 */
        {RAGBASALT_WIND, 0, 6, 1, UINT64_C(0x3FF0000000000001), UINT64_C(0x3FF0000000000000)}, /* +0 if rounded twice */
        {RAGBASALT_TAKE, 0, 0, 0, 0, 0}                               /* unused */
    };
    static const uint64_t results[9] = {
        UINT64_C(0x3FF0000000000000), UINT64_C(0x3FF0000000000002), UINT64_C(0xBFF0000000000000),
        UINT64_C(0x7FF0000000000000), UINT64_C(0x0008000000000000), UINT64_C(0x0000000000000002),
        UINT64_C(0x0010000000000003), 0, 0
    };
    ragbasalt_plan plan;
    ragbasalt_memory memory;
    const uint64_t sensor = 0;
    size_t i;
#if defined(__GNUC__) && defined(__SSE__)
    if ((__builtin_ia32_stmxcsr() & 0x1F80u) != 0x1F80u)
        return 0;
#endif
    plan.nodes = plan.frames = plan.sensors = plan.actuators = 1;
    plan.cells = 15;
    plan.task_count = 9;
    memory.counter = 0;
    for (i = 0; i < RAGBASALT_MAX_CELLS; i++) {
        plan.initial[i] = 0;
        memory.cells[i] = i < 7 ? operands[i] : 0;
    }
    for (i = 0; i < RAGBASALT_MAX_TASKS; i++)
        plan.tasks[i] = steps[i < 9 ? i : 9];
    for (i = 0; i < RAGBASALT_MAX_FRAMES; i++)
        plan.votes[i] = i == 0 ? 0x7FFF : 0;
    for (i = 0; i < RAGBASALT_MAX_ACTUATORS; i++)
        plan.actuator_cells[i] = 0;
    if (ragbasalt_node_compute(&plan, &memory, &sensor, 1) != RAGBASALT_DONE)
        return 0;
    for (i = 0; i < 9; i++)
        if (memory.cells[steps[i].target] != results[i])
            return 0;
    return 1;
}

#ifdef __cplusplus
}
#endif

#endif
