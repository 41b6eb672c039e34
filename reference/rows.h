/*
 * What a soak has to reach. site_machine.h has the rows of the rules' tables, and includes this after them. Here is what
 * docs/SITE_MACHINE.md says in its text, and docs/FORMATS.md of frames, sessions and the console. A table is a macro; its rows
 * are ROW(name, words).
 */
#ifndef ROWS_H
#define ROWS_H

/* What the tables leave to the text. */
#define EVENT_ROWS(ROW) \
    ROW(HEARD_NOTHING, "a PDU that is no C_RAND and no C_ACKU") \
    ROW(HEARD_NO_ASK, "an answer of a radio that was not asked") \
    ROW(HEARD_ELSEWHERE, "a burst on another slot than the control slot") \
    ROW(HEARD_NO_ROOM, "a request without room") \
    ROW(NOISE_COUNTS, "noise on the control slot") \
    ROW(NOISE_FULL, "noise on the control slot, whose noise number is 15") \
    ROW(ACTIVE_MARKS, "activity on the slot of a call") \
    ROW(ACTIVE_NOTHING, "activity on a slot without a call") \
    ROW(TICK_QUIET, "a tick ends a call that was quiet for `hang` ticks") \
    ROW(TICK_LONG, "a tick ends a call that has lasted `maximum` ticks") \
    ROW(TICK_ASKS_AGAIN, "a tick asks a radio again") \
    ROW(TICK_GIVES_UP, "a tick gives up an ask") \
    ROW(TICK_BEGINS, "a tick begins the call of the first line") \
    ROW(TICK_NO_ROOM, "a tick without room") \
    ROW(TICK_NO_SLOT, "a tick with a line and no free slot") \
    ROW(POLL_SENDS, "a poll sends a PDU that waits") \
    ROW(FILL_MOVE, "a poll fills with C_MOVE") \
    ROW(FILL_LATE_ENTRY, "a poll fills with a late entry") \
    ROW(FILL_ALOHA, "a poll fills with C_ALOHA") \
    ROW(FILL_BACKOFF, "a poll fills with a backoff between its least and its greatest") \
    ROW(FILL_MOST_BACKOFF, "a poll fills with the greatest backoff") \
    ROW(LOST_CONTROL, "the control carrier is lost, or comes up again") \
    ROW(LOST_CALL, "a carrier is lost that has a call")

/* Frames and faults of carriers, and what is written to them. */
#define LINK_ROWS(ROW) \
    ROW(HELLO_1, "HELLO of version 1, and its WELCOME") \
    ROW(HELLO_2, "HELLO of version 2, and its WELCOME") \
    ROW(HELLO_VERSION, "HELLO of a version that is not served, and its REFUSED 1") \
    ROW(HELLO_CARRIER, "HELLO with another carrier or LPCN, and its REFUSED 2") \
    ROW(RX_PDU, "RX with a PDU") \
    ROW(RX_NOISE, "RX with a word that means none") \
    ROW(RX_REPEAT, "RX that is sent again (version 2)") \
    ROW(POLL_DONE, "POLL, and its DONE") \
    ROW(TX_1, "TX of version 1") \
    ROW(TX_2, "TX of version 2") \
    ROW(TX_ROUND, "TX with the number 255") \
    ROW(ACTIVE_SLOT, "ACTIVE") \
    ROW(BYE_ENDS, "BYE") \
    ROW(FAULT_TYPE, "UnknownType") \
    ROW(FAULT_LENGTH, "BadLength") \
    ROW(FAULT_SLOT, "BadSlot of an RX") \
    ROW(FAULT_ACTIVE_SLOT, "BadSlot of an ACTIVE") \
    ROW(FAULT_PAD, "BadPad") \
    ROW(FAULT_NO_HELLO, "another frame before HELLO") \
    ROW(FAULT_SECOND_HELLO, "a second HELLO") \
    ROW(OPENED, "a connection is opened") \
    ROW(OPENED_AGAIN, "a connection is opened that is open") \
    ROW(CUT_UP, "the connection of a carrier that is up is cut") \
    ROW(CUT_DOWN, "the connection of a carrier that is not up is cut") \
    ROW(OCTETS_CLOSED, "octets on a connection that has ended") \
    ROW(UNLISTED, "an input of a carrier that is not in the site file") \
    ROW(FRAME_IN_PIECES, "a frame that comes in pieces") \
    ROW(FLIPS_MENDED, "a burst with one to three flipped bits") \
    ROW(FLIPS_READ, "a burst with more flipped bits, which means a PDU") \
    ROW(FLIPS_LOST, "a burst with more flipped bits, which means none")

/* Replies to operators. */
#define CONSOLE_ROWS(ROW) \
    ROW(STATUS_ALOHA, "status .. fill aloha") \
    ROW(STATUS_MOVE, "status .. fill move") \
    ROW(RADIOS_SOME, "radios: fewer than 16") \
    ROW(RADIOS_MANY, "radios: 16, and more are registered") \
    ROW(CALLS_NONE, "calls: none on the carrier") \
    ROW(CALLS_GROUP, "calls: a talkgroup call") \
    ROW(CALLS_RADIO, "calls: an individual call") \
    ROW(CALLS_NO_CARRIER, "calls: error no carrier") \
    ROW(LINES_GROUP, "lines: a line of a talkgroup") \
    ROW(LINES_RADIO, "lines: a line of a radio") \
    ROW(LINES_NONE, "lines: none from this place on") \
    ROW(SLOTS_CONTROL, "slots: control") \
    ROW(SLOTS_DOWN, "slots: down") \
    ROW(SLOTS_CALL, "slots: call") \
    ROW(SLOTS_FREE, "slots: free") \
    ROW(SLOTS_WAITING, "slots: waiting") \
    ROW(DROP_DONE, "drop: ok") \
    ROW(DROP_STRANGER, "drop: error not registered") \
    ROW(DROP_BUSY, "drop: error busy") \
    ROW(END_DONE, "end: ok") \
    ROW(END_NO_CALL, "end: error no call") \
    ROW(END_NO_CARRIER, "end: error no carrier") \
    ROW(MOVE_DONE, "move: ok") \
    ROW(STAY_DONE, "stay: ok") \
    ROW(UNKNOWN_COMMAND, "error unknown command") \
    ROW(TOO_LONG, "error line too long")

#define ALL_ROWS(ROW) \
    REQUEST_ROWS(ROW) CLOSE_ROWS(ROW) TALKGROUP_ROWS(ROW) INDIVIDUAL_ROWS(ROW) ANSWER_ROWS(ROW) EVENT_ROWS(ROW) LINK_ROWS(ROW) CONSOLE_ROWS(ROW)

#define NAME_OF(name, words) name,
typedef enum { ALL_ROWS(NAME_OF) ROW_COUNT } Row;
#undef NAME_OF

/* Counts a row. Only a soak counts: it has the array `reached`, and defines SOAK before it includes this. */
#ifdef SOAK
static unsigned long reached[ROW_COUNT];
#define REACHED(row) ((void)reached[row]++)
#else
#define REACHED(row) ((void)(row))
#endif

#endif
