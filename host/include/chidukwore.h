/*
 * Chidukwore: a proved deck editor core for bench terminals. A C program needs this header and libwindow.a, which is for Linux on x86-64
 * and calls memmove and memset, and nothing else.
 *
 * The core keeps nothing between calls. The host owns five stores of bytes and a record; each call is lent the stores, is handed the
 * record by value and hands one back. Between calls the host hands record and stores on untouched: it reads them, and writes none of
 * them, but for the screen, which it may overwrite (the next call then names the rows that differ from what it finds there).
 *
 *   text    T bytes, 1 to 65,536: the document
 *   recall  T bytes, the same T: the recall text
 *   held    T bytes, the same T: the held text, which CUT took and PASTE inserts
 *   side    4,096 bytes, in quarters of 1,024: quotation, its recall text, pattern, replacement
 *   screen  rows times columns bytes, row by row; rows 1 to 64, columns 1 to 256
 *
 * Painting is lent two: the screen, which it only reads, and a buffer of any length for the bytes that go to a terminal. Receiving is lent
 * the bytes that came from one, and only reads them.
 *
 * A call trusts the host with its pointers, and asks nothing else beforehand: each pointer is that of as many bytes as the length beside
 * it says, no two that are lent to one call overlap, and none is null, not even with length 0. Whatever the numbers and the bytes are, the
 * call answers; what is wrong is refused with a number, and then no byte of any store has changed.
 */
#ifndef CHIDUKWORE_H
#define CHIDUKWORE_H

#include <stddef.h>
#include <stdint.h>

#ifdef __cplusplus
extern "C" {
#endif

/* Refusals. A call gives the first that applies: opening checks 1, 2, 3, 8, a key checks 1, 4, 5, 6, 8, painting checks 1, 3, 7,
 * converting checks 1, 4. Receiving has 9 alone. */
enum {
    CHIDUKWORE_OK = 0,
    CHIDUKWORE_SIZE = 1,    /* a store's length, rows or columns are not as above; painting: or the named rows are off the screen, out of
                               order, or 0 and another; or the cursor is off the screen; converting: the old side store has 1,024 bytes */
    CHIDUKWORE_LONG = 2,    /* opening: the stated length is more than T */
    CHIDUKWORE_TEXT = 3,    /* opening: a byte of the text is neither 10 nor 32 to 126; painting: a byte of the screen is not 32 to 126;
                               place is its index, from 0 */
    CHIDUKWORE_SESSION = 4, /* key: record and stores are not a session, as said at the record; converting: so of the old stores */
    CHIDUKWORE_KEY = 5,     /* key: no such key, a byte that is not allowed, one of the two deletions that are not carried out, or in QUOTED
                               MARK, CUT or PASTE */
    CHIDUKWORE_FULL = 6,    /* key: the finished text would not fit its store */
    CHIDUKWORE_ROOM = 7,    /* painting: there are more bytes than the buffer holds */
    CHIDUKWORE_LINE = 8,    /* opening: a line of the text has more than 1,024 bytes, its newline not counted; place is the index of the first
                               byte of the first such line. Key: the finished document would have such a line; place is 0 */
    CHIDUKWORE_SEQUENCE = 9 /* receiving: a byte that no key continues */
};

/* Kinds of key, with what a, b and c say. Numbers that name no key are refused with CHIDUKWORE_KEY. */
enum {
    CHIDUKWORE_INSERT = 0,   /* a: the byte */
    CHIDUKWORE_FUNCTION = 1, /* a: action, b: direction, c: place */
    CHIDUKWORE_RECALL = 2,
    CHIDUKWORE_QUOTE = 3,
    CHIDUKWORE_FIND = 4, /* a: direction */
    CHIDUKWORE_REPLACE = 5,
    CHIDUKWORE_MARK = 6,
    CHIDUKWORE_CUT = 7,
    CHIDUKWORE_PASTE = 8,
    CHIDUKWORE_NEWLINE = 9, /* a newline, then as many spaces as its line has leading spaces left of the cursor; an insert of 10 has none */
    CHIDUKWORE_TAB = 10     /* spaces up to the next column that is a multiple of eight, at least one */
};
enum { CHIDUKWORE_MOVE = 0, CHIDUKWORE_DELETE = 1 };
enum { CHIDUKWORE_LEFT = 0, CHIDUKWORE_RIGHT = 1 };
enum {
    CHIDUKWORE_CHARACTER = 0,
    CHIDUKWORE_WORD = 1,
    CHIDUKWORE_LINE_BEGINNING = 2,
    CHIDUKWORE_LINE_ENDING = 3,
    CHIDUKWORE_DOCUMENT = 4
};

/* What the record's mark is where the document has none: the largest size. */
#define CHIDUKWORE_NO_MARK SIZE_MAX

/* The session record. A host hands it on and need not look into it; the lengths tell where the texts lie.
 *
 * With the stores it is a session if all of these hold, as they do of whatever an accepted call gives back:
 *   mode is 0 or 1;
 *   the lengths fit: l + r, rl + rr and held_left + held_right are at most T, and ql + qr, qrl + qrr, xl + xr and pl at most 1,024, sums
 *   that never wrap;
 *   every byte of a text is 10 or 32 to 126, and every byte of text, recall, held and side that belongs to none is 0;
 *   no line of the document has more than 1,024 bytes, its newline not counted; the quotation's are not looked at;
 *   of each recall text at least one half is empty, rl or rr is 0 and qrl or qrr is 0; so of the held text, held_left or held_right;
 *   mark is at most l + r, or CHIDUKWORE_NO_MARK;
 *   in MAIN the quotation and its recall text are empty: ql, qr, qrl and qrr are 0;
 *   the cursor is visible: top < its row <= top + rows, rows from 1, and left <= its column <= left + columns, columns from 0. In QUOTED
 *   it is the quotation's, which stands on lines of its own at the document's cursor, the first begun by >. */
struct chidukwore_record {
    size_t l, r;       /* document: its first l bytes are text[0 .. l), the others the last r bytes of text */
    size_t ql, qr;     /* quotation, likewise in side[0 .. 1024) */
    size_t rl, rr;     /* both halves of the document's recall text, one after the other at the front of recall */
    size_t qrl, qrr;   /* both halves of the quotation's recall text, at side[1024] */
    size_t xl, xr;     /* both halves of the replacement, at side[3072] */
    size_t pl;         /* pattern, at side[2048] */
    size_t mode;       /* 0 MAIN, 1 QUOTED */
    size_t top, left;  /* window offsets r and c: rows and columns of the text above and left of the screen */
    size_t rows, columns;
    size_t held_left, held_right; /* both halves of the held text, one after the other at the front of held */
    size_t mark;                  /* how many bytes of the document lie left of the mark, or CHIDUKWORE_NO_MARK */
};

/* What a call answers. After a refusal everything but code and place is 0. */
struct chidukwore_answer {
    size_t code;        /* 0, or a refusal */
    size_t place;       /* for CHIDUKWORE_TEXT, and for an opening's CHIDUKWORE_LINE; else 0 */
    size_t steps;       /* of moves, deletions and searches; of CUT the bytes that it took, of NEWLINE and TAB those that they inserted */
    size_t lines;       /* the newlines that the steps of moves, deletions and searches went over or removed */
    size_t bell;        /* 1 where no place, match or mark was found */
    size_t first, last; /* the rows to repaint, from 1; 0 and 0: none */
    size_t row, column; /* the cursor on the screen: rows from 1, columns from 0 up to and including columns */
};

struct chidukwore_reply {
    struct chidukwore_answer answer;
    struct chidukwore_record record;
};

/* Opens the first n bytes of text: the cursor at its beginning, everything else emptied, the screen painted, all rows named.
 * Refused, it hands back a record of zeros, but for its mark, which is CHIDUKWORE_NO_MARK. */
struct chidukwore_reply chidukwore_open(size_t n, size_t rows, size_t columns, uint8_t *text, size_t text_length, uint8_t *recall,
                                        size_t recall_length, uint8_t *held, size_t held_length, uint8_t *side, size_t side_length,
                                        uint8_t *screen, size_t screen_length);

/* Presses a key. Refused, it hands back the record it was given. */
struct chidukwore_reply chidukwore_key(struct chidukwore_record record, size_t kind, size_t a, size_t b, size_t c, uint8_t *text,
                                       size_t text_length, uint8_t *recall, size_t recall_length, uint8_t *held, size_t held_length,
                                       uint8_t *side, size_t side_length, uint8_t *screen, size_t screen_length);

/* Converts a session from before a quarter of the side store had 1,024 bytes. Then it had 256: old is the side store of 1,024 bytes, and
 * with it the record is a session as said above, its lengths in the quarters at most 256 in the place of 1,024; lines of the document may
 * have 1,024 bytes as above. text, recall, held and old are only read. The new side store, of 4,096 bytes, is written over, and goes on
 * with the other three and with the record, which comes back as it was given. Of the answer only code is not 0. Refused, no byte has
 * changed. */
struct chidukwore_reply chidukwore_convert(struct chidukwore_record record, const uint8_t *text, size_t text_length, const uint8_t *recall,
                                           size_t recall_length, const uint8_t *held, size_t held_length, const uint8_t *old,
                                           size_t old_length, uint8_t *side, size_t side_length);

/* What painting answers. */
struct chidukwore_painting {
    size_t code;  /* 0, or a refusal */
    size_t place; /* for CHIDUKWORE_TEXT only */
    size_t count; /* how many bytes it wrote at the front of the buffer; those behind them are as they were. Refused: 0 */
};

/* Writes the bytes that bring a terminal up to date, in sequences of ECMA-48: for each row from first to last the spot of its first cell
 * and its cells, then the cursor's spot. first, last, row and column are those of an answer: 0 and 0, or 1 <= first <= last <= rows;
 * 1 <= row <= rows; column <= columns. A buffer of rows * (columns + 7) + 9 bytes is always large enough. */
struct chidukwore_painting chidukwore_paint(size_t rows, size_t columns, size_t first, size_t last, size_t row, size_t column,
                                            const uint8_t *screen, size_t screen_length, uint8_t *buffer, size_t buffer_length);

/* What bytes received so far give:
 *   used is not 0 and code is 0: a key, as the numbers that chidukwore_key takes;
 *   used is 0: more bytes are needed; code is 0;
 *   code is CHIDUKWORE_SEQUENCE: no key. used counts up to and including the first byte that no key continues, so 1 to 3.
 * All other numbers are 0. */
struct chidukwore_heard {
    size_t code;    /* 0, or CHIDUKWORE_SEQUENCE */
    size_t used;    /* how many of the bytes the answer is about, from the first on; the next call begins behind them */
    size_t kind;    /* of the key, with a, b and c */
    size_t a, b, c;
};

/* The first key of the bytes that a terminal sent. length may be 0. Keys have 1 to 3 bytes, and no key's bytes begin another's, so it does
 * not matter in which pieces they arrive: a host keeps the bytes that were not used, at most 2, in front of the next that it reads.
 * docs/KEYBOARD.md has the bytes of every key. */
struct chidukwore_heard chidukwore_receive(const uint8_t *bytes, size_t length);

#ifdef __cplusplus
}
#endif

#endif
