/*
 * Nekbrod, a proved risk monitor for fault trees: the calls for C and C++.
 *
 * The monitor holds one tree file and one opinion sheet, answers a level with an enclosure of the top probability, at
 * an hour of a book of work windows too, lists the tree's minimal cut sets, and writes the mirror of both files, which
 * is of what must work. It has no memory of its own: what it holds is two lengths, which the caller keeps between
 * calls, and the bytes of both files, which lie in two stores that the caller lends at each call. Calls that write to
 * different memory may run at the same time.
 *
 * Each function is proved to answer and to write what is said here for every content of the memory it is lent
 * (docs/PROMISES.md). That memory is the caller's part, and nothing checks it:
 * - a pointer and the length after it name that many readable places (writable, where the pointer is not to const);
 * - memory that a call writes overlaps nothing else that the same call is lent;
 * - nothing else writes to lent memory during the call.
 * A slice of length 0 may have the null pointer: it is a short one, and nothing is read or written through it.
 *
 * Build: tools/staticlib.sh, then link target/staticlib/libcapi.a (x86-64 Linux).
 */
#ifndef NEKBROD_H
#define NEKBROD_H

#include <stdbool.h>
#include <stddef.h>
#include <stdint.h>

#ifdef __cplusplus
extern "C" {
#endif

/* The version of this header: major, minor and patch, a byte each. nekbrod_version answers that of the library. */
#define NEKBROD_VERSION 0x000700u

/* Ends are counted in units: one unit is a billionth, so this is the probability 1. */
#define NEKBROD_ONE 1000000000u
/*
 * No accepted tree file and no accepted opinion sheet is longer: stores of these lengths never cause refusal 20, nor a
 * buffer of the second one refusal 30, nor two buffers of these refusal 31.
 */
#define NEKBROD_LARGEST_TREE 7175u
#define NEKBROD_LARGEST_SHEET 17434u
/* No book is longer: 256 work windows of 10 bytes. */
#define NEKBROD_LARGEST_BOOK 2560u
/* No accepted tree has more nodes: work slices of this many places never cause refusal 25. */
#define NEKBROD_MOST_NODES 1024u
/* Bits of a mark byte: the node's lower end is exact, its upper end is exact. */
#define NEKBROD_LOWER_EXACT 1u
#define NEKBROD_UPPER_EXACT 2u

/*
 * What is held: the lengths in bytes of the tree file and of the opinion sheet, each 0 where none is held. It goes into
 * each call and comes back from each that can change it. A monitor that holds nothing starts with {0, 0}.
 */
typedef struct nekbrod_state {
    size_t tree_len;
    size_t sheet_len;
} nekbrod_state;

/*
 * The numbers of the refusals, those of documents 01 and 02, each with what it says and, after the colon, the place
 * that comes with it. An offset is in bytes from 0 in the file handed in, or in the book.
 */
/* Of a file handed in. */
#define NEKBROD_TOO_SHORT 1u        /* the file is shorter than its header (tree 9, sheet 26): the file's length */
#define NEKBROD_WRONG_LETTERS 2u    /* wrong letters at the front: 0 */
#define NEKBROD_WRONG_VERSION 3u    /* the file's version is not 1: 3 */
#define NEKBROD_WRONG_COUNT 4u      /* the number of nodes is out of range: 7; of events: 7; of experts: 9 */
#define NEKBROD_WRONG_LENGTH 5u     /* the length is not as the counts require: the file's length */
#define NEKBROD_UNKNOWN_KIND 6u     /* unknown kind of record or entry: offset of its byte */
#define NEKBROD_WRONG_FIELD 7u      /* a wrong field of a record: offset of the record; the inputs of all gates are too
                                       few: offset of the first link; a score out of rule: offset of the score */
#define NEKBROD_WRONG_LINK 8u       /* a link that is not below its gate: offset of the link */
#define NEKBROD_NOT_BELOW NEKBROD_WRONG_LINK /* the same, as callers may have it */
#define NEKBROD_LINKED_BEFORE 9u    /* a node that is linked a second time: offset of the second link */
#define NEKBROD_NUMBER_ORDER 10u    /* four numbers out of order or above 1: offset of the entry */
#define NEKBROD_WRONG_TERM 11u      /* a term above 7, or not 0 after the last expert: offset of the term */
#define NEKBROD_NOBODY_SPOKE 12u    /* an opinion entry in which nobody spoke: offset of the entry */
#define NEKBROD_WRONG_FRACTIONS 28u /* a fraction entry with numerators that fall or exceed the denominator, a
                                       denominator not from 1 to 1000000, or a last byte not 0: offset of the entry */
#define NEKBROD_SHORT_STORE 20u     /* the store is shorter than the accepted file: 0 */
/* Of a level, and of what is held and lent for it. */
#define NEKBROD_WRONG_LEVEL 13u /* the level is out of range: 0 */
#define NEKBROD_NO_TREE 21u     /* no tree is held: 0 */
#define NEKBROD_NO_SHEET 22u    /* no sheet is held: 0 */
#define NEKBROD_CHANGED 23u     /* held bytes are no longer an accepted file, or the held length is beyond the store:
                                   0 for the tree, 1 for the sheet */
#define NEKBROD_OTHER_TREE 24u  /* the sheet is for another tree, or not for its number of events: 0 */
#define NEKBROD_SHORT_SLICE 25u /* a work slice is shorter than the tree has nodes: 0 */
/* Of cut sets; 21 and 23 are of them too. */
#define NEKBROD_MANY_EVENTS 26u /* the held tree has more than 64 basic events: 0 */
#define NEKBROD_SHORT_LIST 27u  /* the slice is shorter than the number of minimal cut sets: 0 */
/* Of work windows; 13 and 21 to 25 are of them too. */
#define NEKBROD_WRONG_BOOK 29u   /* the book's length is above 2560 or no multiple of 10: that length; a window's event
                                    is not below the held tree's number of basic events: offset of the event; a
                                    window's end hour is not after its first hour: offset of the end hour */
#define NEKBROD_SHORT_BUFFER 30u /* the buffer is shorter than the held sheet: 0 */
/* Of the mirror; 21 to 24 are of it too. */
#define NEKBROD_SHORT_MIRROR 31u /* a buffer is shorter than its held file: 0 */

/*
 * Why a call was refused, by one of the numbers above. Number 0: it was not refused, and the place is 0. A refused call
 * changes no state, no store, no buffer and no slice.
 */
typedef struct nekbrod_refusal {
    size_t number;
    size_t place;
} nekbrod_refusal;

/* What a hand-in or a mirroring answers: the state after it, as it went in after a mirroring, and the refusal. */
typedef struct nekbrod_answer {
    nekbrod_state state;
    nekbrod_refusal refusal;
} nekbrod_answer;

/* What judging answers: the refusal, and the nodes and basic events of the held tree, both 0 where it is refused. */
typedef struct nekbrod_standing {
    nekbrod_refusal refusal;
    size_t nodes;
    size_t events;
} nekbrod_standing;

/*
 * What a question answers: the state, as it went in; the refusal; the root's lower and upper end in units, whether each
 * is exact, and the number of basic events of the held tree, E. Refused, the reply has the enclosure that says nothing,
 * 0 to NEKBROD_ONE with neither end exact, and its events are 0.
 *
 * A node's exact lower end is its unreliability, reckoned without any rounding, with every basic event at the lower end
 * of its own cut, which is not rounded either; its exact upper end is that with every event at the upper end. An end
 * that is reported is called exact where it equals that number, and only there. Any other lies outward of it, a lower
 * end below and an upper end above, by less than 2 * E - 1 units.
 */
typedef struct nekbrod_reply {
    nekbrod_state state;
    nekbrod_refusal refusal;
    uint32_t lower;
    uint32_t upper;
    bool lower_exact;
    bool upper_exact;
    size_t events;
} nekbrod_reply;

/* What counting answers: the refusal, and how many minimal cut sets the held tree has, 0 where it is refused. */
typedef struct nekbrod_set_count {
    nekbrod_refusal refusal;
    uint64_t count;
} nekbrod_set_count;

/* What listing answers: the state, as it went in; the refusal; and how many sets it wrote, 0 where it is refused. */
typedef struct nekbrod_listing {
    nekbrod_state state;
    nekbrod_refusal refusal;
    uint64_t count;
} nekbrod_listing;

/* The library's version, as NEKBROD_VERSION has that of the header: equal where both are of one delivery. */
uint32_t nekbrod_version(void);

/*
 * Hands in a tree file.
 * Reads file[0 .. file_len). Accepted, it is copied to the front of the store, the rest of the store stays, and the
 * state holds it in place of the one before, beside the sheet as before. Refused by the first fault of 1 to 9, else by
 * 20.
 */
nekbrod_answer nekbrod_hand_in_tree(nekbrod_state state, const uint8_t *file, size_t file_len, uint8_t *tree_store,
                                    size_t tree_store_len);

/*
 * Hands in an opinion sheet.
 * Reads sheet[0 .. sheet_len). Accepted, it is copied to the front of the store, the rest of the store stays, and the
 * state holds it in place of the one before, beside the tree as before. Refused by the first fault of 1 to 7, 10 to 12
 * and 28, else by 20.
 */
nekbrod_answer nekbrod_hand_in_sheet(nekbrod_state state, const uint8_t *sheet, size_t sheet_len, uint8_t *sheet_store,
                                     size_t sheet_store_len);

/* Drops both files: the state that holds nothing. Reads and writes no store, and is never refused. */
nekbrod_state nekbrod_drop_both(nekbrod_state state);

/*
 * Judges whether level k of n can be put to the held pair, and writes nothing. n is 1 to 1000 and k is 0 to n.
 * Reads both stores as far as the held lengths: both files are judged afresh, as their bytes stand.
 * Refused by 13, 21, 22, 23 for the tree, 23 for the sheet, or 24, in that order.
 */
nekbrod_standing nekbrod_judge(nekbrod_state state, const uint8_t *tree_store, size_t tree_store_len,
                               const uint8_t *sheet_store, size_t sheet_store_len, uint32_t k, uint32_t n);

/*
 * Questions level k of n. Judges and reads as nekbrod_judge does, refused as it is, and by 25 after all else.
 * Answered, it writes for each node i of the held tree lower[i] and upper[i], the node's ends in units, and marks[i],
 * NEKBROD_LOWER_EXACT plus NEKBROD_UPPER_EXACT as these ends are exact; the root is the last node. What is said of the
 * reply's ends holds of each node's: exact, or outward of the node's own exact end by less than 2 * E - 1 units, where
 * E is reply.events. Places from the number of nodes on stay. Whatever probability each basic event has inside its cut,
 * the top probability lies from reply.lower to reply.upper, the ends included.
 */
nekbrod_reply nekbrod_question(nekbrod_state state, const uint8_t *tree_store, size_t tree_store_len,
                               const uint8_t *sheet_store, size_t sheet_store_len, uint32_t k, uint32_t n,
                               uint32_t *lower, size_t lower_len, uint32_t *upper, size_t upper_len, uint8_t *marks,
                               size_t marks_len);

/*
 * Questions level k of n at an hour, with the parts that are out of service then. Hours are counted from
 * commissioning. The book is a row of work windows of 10 bytes, numbers low byte first: a 16-bit basic event at byte 0,
 * a 32-bit first hour at 2 and a 32-bit end hour at 6. A window is open from its first hour to the hour before its end
 * hour. An event in an open window is counted as failed with certainty, whatever the held sheet says of it; overlapping
 * windows count once, and a book of length 0 has none.
 * Judges and reads as nekbrod_judge does, and reads book[0 .. book_len). Refused as it is, and then by 29, 30 and 25,
 * in that order, before anything is written; by 29 for the length first, then window by window, the event before the
 * end hour.
 * Answered, it writes to the front of the buffer a sheet as long as the held one, NEKBROD_LARGEST_SHEET bytes at most:
 * the entry of each event in an open window has the four numbers NEKBROD_ONE, and all else is as held. The buffer holds
 * that sheet afterwards, its rest stays, and the held sheet stays too. The reply and what is written to the work slices
 * are what nekbrod_question gives for this state, tree and level with the buffer as the sheet store, so that all it
 * says of them holds of the sheet in the buffer.
 * Nothing is remembered between hours: each call reads the whole book, and the hour may go back.
 */
nekbrod_reply nekbrod_question_at_hour(nekbrod_state state, const uint8_t *tree_store, size_t tree_store_len,
                                       const uint8_t *sheet_store, size_t sheet_store_len, const uint8_t *book,
                                       size_t book_len, uint32_t k, uint32_t n, uint32_t hour, uint8_t *buffer,
                                       size_t buffer_len, uint32_t *lower, size_t lower_len, uint32_t *upper,
                                       size_t upper_len, uint8_t *marks, size_t marks_len);

/*
 * Counts the minimal cut sets of the held tree, and writes nothing. A minimal cut set is a set of basic events under
 * which the root fails when they fail and no others do, while under no set strictly inside it does.
 * Reads the store as far as the held length: the tree is judged afresh, as its bytes stand. No sheet is needed.
 * Refused by 21, 23 for the tree, or 26, in that order.
 */
nekbrod_set_count nekbrod_count_cut_sets(nekbrod_state state, const uint8_t *tree_store, size_t tree_store_len);

/*
 * Lists the minimal cut sets of the held tree. Judges and reads as nekbrod_count_cut_sets does, refused as it is, and
 * by 27 after all else, before anything is written.
 * Answered, sets[0 .. listing.count) holds every minimal cut set once and no other set, each as a number with bit i set
 * exactly for basic event i; in which order is left open. Places from listing.count on stay.
 */
nekbrod_listing nekbrod_list_cut_sets(nekbrod_state state, const uint8_t *tree_store, size_t tree_store_len,
                                      uint64_t *sets, size_t sets_len);

/*
 * Mirrors the held pair: writes the tree file and the opinion sheet of what must work. Their top probability is that of
 * the top event not happening, the main engine working.
 * Reads both stores as far as the held lengths: both files are judged afresh, as their bytes stand. Refused by 21, 22,
 * 23 for the tree, 23 for the sheet, 24, or 31 where either buffer is shorter than its held file, in that order, before
 * anything is written.
 * Answered, the mirrored files stand at the front of the two buffers, each as long as the held one. The rest of both
 * buffers stays, and so do the stores and the state. The tree has AND and OR exchanged, and all else as held. The sheet
 * has its header as held. An entry of four numbers a, b, c and d has NEKBROD_ONE minus d, minus c, minus b and minus a.
 * A fraction entry has its denominator, and that minus d, minus c, minus b and minus a. An entry of opinions becomes
 * the fraction entry of its mean, mirrored likewise: its denominator is 100 times the score of all listed experts.
 * The mirrored files are accepted and belong together: the same state with the two buffers as stores is a monitor that
 * holds them. At each level and node its lower end is NEKBROD_ONE minus the upper end of the held pair, and exact where
 * that is; its upper end is NEKBROD_ONE minus the lower end of the held pair, and exact where that is.
 * Mirroring twice restores the bytes of the tree file, and every interval and mark at each level and node. It does not
 * restore the bytes of an entry of opinions, which stays a fraction entry.
 */
nekbrod_answer nekbrod_mirror(nekbrod_state state, const uint8_t *tree_store, size_t tree_store_len,
                              const uint8_t *sheet_store, size_t sheet_store_len, uint8_t *tree_buffer,
                              size_t tree_buffer_len, uint8_t *sheet_buffer, size_t sheet_buffer_len);

#ifdef __cplusplus
}
#endif

#endif
