/*
 * What the calls answer where slices are null, empty or too short, and that nothing beside a slice is touched. All of
 * it is done twice: with slices that end where unmapped memory begins, and with slices that begin where it ends. The
 * rest of their page is filled and looked at in the end; files are on pages that can't be written. And that header and
 * library are of one version. Prints ok, or each line that fails.
 *
 * Build at the repository's root, after tools/staticlib.sh:
 *     cc -Iinclude examples/c/short_slices.c target/staticlib/libcapi.a -o short_slices
 */
#define _DEFAULT_SOURCE
#include <nekbrod.h>
#include <stdio.h>
#include <stdlib.h>
#include <string.h>
#include <sys/mman.h>
#include <unistd.h>

/* Tree 7: one basic event; and its sheet: the entry (0, 1, 1, 2). */
static const uint8_t TREE[14] = {'F', 'T', 'F', 1, 0, 7, 0, 1, 0};
static const uint8_t SHEET[43] = {'F', 'T', 'S', 1, 0, 7, 0, 1, [31] = 1, [35] = 1, [39] = 2};

/* Work windows of its event: from hour 5 to hour 7, and from hour 6 to the last end hour there is. */
static const uint8_t BOOK[20] = {[2] = 5, [6] = 7, [12] = 6, [16] = 255, 255, 255, 255};

/* The entry of an event in an open window. */
static const uint8_t CERTAIN[17] = {0, 0, 202, 154, 59, 0, 202, 154, 59, 0, 202, 154, 59, 0, 202, 154, 59};

/* An OR of two basic events, whose minimal cut sets are the two alone. */
static const uint8_t TWO[28] = {'F', 'T', 'F', 1, 0, 7, 0, 3, [15] = 1, [19] = 2, [22] = 2, [26] = 1};

/* A sheet for it: 1, 1, 2 and 3 thirds, and Low from one expert of score 2, which is 14, 26, 26 and 38 of 200. */
static const uint8_t TWO_SHEET[60] = {'F', 'T', 'S', 1, 0, 7, 0, 2, [9] = 1, 2, [26] = 2, 3, [30] = 1, [33] = 1,
                                      [36] = 2, [39] = 3, [43] = 1, 2};

/* The mirror of the two: an AND, no to two thirds, and 162, 174, 174 and 186 of 200. */
static const uint8_t AND_OF_TWO[28] = {'F', 'T', 'F', 1, 0, 7, 0, 3, [15] = 1, [19] = 1, [22] = 2, [26] = 1};
static const uint8_t MIRRORED_SHEET[60] = {'F', 'T', 'S', 1, 0, 7, 0, 2, [9] = 1, 2, [26] = 2, 3, [33] = 1, [36] = 2,
                                           [39] = 2, [43] = 2, 200, [47] = 162, [50] = 174, [53] = 174, [56] = 186};

static const nekbrod_state NOTHING = {0, 0};
static const nekbrod_state BOTH = {sizeof TREE, sizeof SHEET};

static int failures = 0;

static void expect(bool holds, int line)
{
    if (!holds) {
        printf("short_slices.c:%d: failed\n", line);
        failures++;
    }
}
#define EXPECT(holds) expect(holds, __LINE__)

/* Where a slice lies on its page: at its end, or at its start. */
static bool at_the_end = true;

/* A slice on a page of its own between two unmapped ones. */
struct slice {
    uint8_t *page;
    uint8_t *bytes;
    size_t len;
};

static struct slice slices[1024];
static size_t slice_count = 0;

static size_t page_size(void)
{
    return (size_t)sysconf(_SC_PAGESIZE);
}

/* That many bytes, all filled. */
static uint8_t *at_the_edge(size_t len)
{
    size_t page = page_size();
    uint8_t *pages = mmap(NULL, 3 * page, PROT_NONE, MAP_PRIVATE | MAP_ANONYMOUS, -1, 0);
    if (pages == MAP_FAILED || mprotect(pages + page, page, PROT_READ | PROT_WRITE) != 0 ||
        slice_count == sizeof slices / sizeof slices[0]) {
        perror("short_slices");
        exit(2);
    }
    memset(pages + page, 0xee, page);
    uint8_t *bytes = at_the_end ? pages + 2 * page - len : pages + page;
    slices[slice_count++] = (struct slice){pages + page, bytes, len};
    return bytes;
}

/* A file, which no call may write. */
static uint8_t *copy_at_the_edge(const uint8_t *bytes, size_t len)
{
    uint8_t *copy = memcpy(at_the_edge(len), bytes, len);
    if (mprotect(slices[slice_count - 1].page, page_size(), PROT_READ) != 0) {
        perror("short_slices");
        exit(2);
    }
    return copy;
}

static bool filled(const void *memory, size_t len)
{
    const uint8_t *bytes = memory;
    for (size_t i = 0; i < len; i++) {
        if (bytes[i] != 0xee) {
            return false;
        }
    }
    return true;
}

static bool refused(nekbrod_refusal refusal, size_t number, size_t place)
{
    return refusal.number == number && refusal.place == place;
}

static bool same(nekbrod_state one, nekbrod_state other)
{
    return one.tree_len == other.tree_len && one.sheet_len == other.sheet_len;
}

static void hand_in_short(void)
{
    uint8_t *tree = copy_at_the_edge(TREE, sizeof TREE), *sheet = copy_at_the_edge(SHEET, sizeof SHEET);
    uint8_t *store = at_the_edge(13);
    nekbrod_answer answer = nekbrod_hand_in_tree(BOTH, NULL, 0, NULL, 0);
    EXPECT(refused(answer.refusal, NEKBROD_TOO_SHORT, 0) && same(answer.state, BOTH));
    answer = nekbrod_hand_in_sheet(BOTH, NULL, 0, NULL, 0);
    EXPECT(refused(answer.refusal, NEKBROD_TOO_SHORT, 0) && same(answer.state, BOTH));
    answer = nekbrod_hand_in_tree(BOTH, tree, 8, NULL, 0);
    EXPECT(refused(answer.refusal, NEKBROD_TOO_SHORT, 8) && same(answer.state, BOTH));
    answer = nekbrod_hand_in_tree(NOTHING, tree, sizeof TREE, NULL, 0);
    EXPECT(refused(answer.refusal, NEKBROD_SHORT_STORE, 0) && same(answer.state, NOTHING));
    answer = nekbrod_hand_in_sheet(NOTHING, sheet, sizeof SHEET, NULL, 0);
    EXPECT(refused(answer.refusal, NEKBROD_SHORT_STORE, 0) && same(answer.state, NOTHING));
    answer = nekbrod_hand_in_tree(NOTHING, tree, sizeof TREE, store, 13);
    EXPECT(refused(answer.refusal, NEKBROD_SHORT_STORE, 0) && same(answer.state, NOTHING) && filled(store, 13));
    uint8_t *tree_store = at_the_edge(sizeof TREE), *sheet_store = at_the_edge(sizeof SHEET);
    answer = nekbrod_hand_in_tree(NOTHING, tree, sizeof TREE, tree_store, sizeof TREE);
    EXPECT(refused(answer.refusal, 0, 0) && memcmp(tree_store, TREE, sizeof TREE) == 0);
    answer = nekbrod_hand_in_sheet(answer.state, sheet, sizeof SHEET, sheet_store, sizeof SHEET);
    EXPECT(refused(answer.refusal, 0, 0) && same(answer.state, BOTH) && memcmp(sheet_store, SHEET, sizeof SHEET) == 0);
}

static void judge_short(void)
{
    uint8_t *tree = copy_at_the_edge(TREE, sizeof TREE), *sheet = copy_at_the_edge(SHEET, sizeof SHEET);
    nekbrod_state tree_alone = {sizeof TREE, 0};
    EXPECT(refused(nekbrod_judge(NOTHING, NULL, 0, NULL, 0, 1, 0).refusal, NEKBROD_WRONG_LEVEL, 0));
    EXPECT(refused(nekbrod_judge(NOTHING, NULL, 0, NULL, 0, 1, 2).refusal, NEKBROD_NO_TREE, 0));
    EXPECT(refused(nekbrod_judge(tree_alone, NULL, 0, NULL, 0, 1, 2).refusal, NEKBROD_NO_SHEET, 0));
    EXPECT(refused(nekbrod_judge(BOTH, NULL, 0, NULL, 0, 1, 2).refusal, NEKBROD_CHANGED, 0));
    EXPECT(refused(nekbrod_judge(BOTH, tree, sizeof TREE - 1, sheet, sizeof SHEET, 1, 2).refusal, NEKBROD_CHANGED, 0));
    EXPECT(refused(nekbrod_judge(BOTH, tree, sizeof TREE, NULL, 0, 1, 2).refusal, NEKBROD_CHANGED, 1));
    nekbrod_standing standing = nekbrod_judge(BOTH, tree, sizeof TREE, sheet, sizeof SHEET, 1, 2);
    EXPECT(refused(standing.refusal, 0, 0) && standing.nodes == 1 && standing.events == 1);
    EXPECT(same(nekbrod_drop_both(BOTH), NOTHING));
}

/* A question of the held pair with work slices of these places; each is there, or null where it has none. */
static nekbrod_reply question(uint32_t *lower, size_t lowers, uint32_t *upper, size_t uppers, uint8_t *marks,
                              size_t bytes)
{
    uint8_t *tree = copy_at_the_edge(TREE, sizeof TREE), *sheet = copy_at_the_edge(SHEET, sizeof SHEET);
    return nekbrod_question(BOTH, tree, sizeof TREE, sheet, sizeof SHEET, 1, 2, lowers == 0 ? NULL : lower, lowers,
                            uppers == 0 ? NULL : upper, uppers, bytes == 0 ? NULL : marks, bytes);
}

static void question_short(void)
{
    uint32_t *lower = (uint32_t *)(void *)at_the_edge(4), *upper = (uint32_t *)(void *)at_the_edge(4);
    uint8_t *marks = at_the_edge(1);
    nekbrod_reply reply = nekbrod_question(NOTHING, NULL, 0, NULL, 0, 1, 2, NULL, 0, NULL, 0, NULL, 0);
    EXPECT(refused(reply.refusal, NEKBROD_NO_TREE, 0) && same(reply.state, NOTHING));
    for (int kept = 0; kept < 7; kept++) {
        reply = question(lower, kept & 1, upper, kept >> 1 & 1, marks, kept >> 2 & 1);
        EXPECT(refused(reply.refusal, NEKBROD_SHORT_SLICE, 0) && same(reply.state, BOTH));
        EXPECT(reply.lower == 0 && reply.upper == NEKBROD_ONE && !reply.lower_exact && !reply.upper_exact);
        EXPECT(reply.events == 0 && filled(lower, 4) && filled(upper, 4) && filled(marks, 1));
    }
    reply = question(lower, 1, upper, 1, marks, 1);
    EXPECT(refused(reply.refusal, 0, 0) && same(reply.state, BOTH) && reply.events == 1);
    EXPECT(reply.lower == 0 && reply.upper == 2 && !reply.lower_exact && !reply.upper_exact);
    EXPECT(*lower == 0 && *upper == 2 && *marks == 0);
}

/* What an hour's question is lent beside the held pair: a book, a buffer and the work slices of one node. */
struct lent {
    const uint8_t *book;
    size_t book_len;
    uint8_t *buffer;
    size_t buffer_len;
    uint32_t *lower;
    uint32_t *upper;
    uint8_t *marks;
};

/* All of it at the edge; a book or a buffer of no bytes is null. */
static struct lent lend(const uint8_t *book, size_t book_len, size_t buffer_len)
{
    struct lent lent = {book_len == 0 ? NULL : copy_at_the_edge(book, book_len),
                        book_len,
                        buffer_len == 0 ? NULL : at_the_edge(buffer_len),
                        buffer_len,
                        (uint32_t *)(void *)at_the_edge(4),
                        (uint32_t *)(void *)at_the_edge(4),
                        at_the_edge(1)};
    return lent;
}

static bool untouched(struct lent lent)
{
    return filled(lent.buffer, lent.buffer_len) && filled(lent.lower, 4) && filled(lent.upper, 4) &&
           filled(lent.marks, 1);
}

/* Level 1 of 2 of the held pair at an hour; of the work slices those are lent whose bit is set, the others are null. */
static nekbrod_reply question_at(struct lent lent, uint32_t hour, int kept)
{
    uint8_t *tree = copy_at_the_edge(TREE, sizeof TREE), *sheet = copy_at_the_edge(SHEET, sizeof SHEET);
    return nekbrod_question_at_hour(BOTH, tree, sizeof TREE, sheet, sizeof SHEET, lent.book, lent.book_len, 1, 2, hour,
                                    lent.buffer, lent.buffer_len, kept & 1 ? lent.lower : NULL, kept & 1,
                                    kept & 2 ? lent.upper : NULL, kept >> 1 & 1, kept & 4 ? lent.marks : NULL,
                                    kept >> 2 & 1);
}

static void hours_refused(void)
{
    struct lent lent = lend(BOOK, sizeof BOOK, sizeof SHEET);
    nekbrod_reply reply =
        nekbrod_question_at_hour(NOTHING, NULL, 0, NULL, 0, NULL, 0, 1, 2, 0, NULL, 0, NULL, 0, NULL, 0, NULL, 0);
    EXPECT(refused(reply.refusal, NEKBROD_NO_TREE, 0) && same(reply.state, NOTHING));
    reply = nekbrod_question_at_hour(BOTH, NULL, 0, NULL, 0, lent.book, lent.book_len, 1, 2, 5, lent.buffer,
                                     lent.buffer_len, lent.lower, 1, lent.upper, 1, lent.marks, 1);
    EXPECT(refused(reply.refusal, NEKBROD_CHANGED, 0) && same(reply.state, BOTH) && untouched(lent));
    for (int kept = 0; kept < 7; kept++) {
        reply = question_at(lent, 5, kept);
        EXPECT(refused(reply.refusal, NEKBROD_SHORT_SLICE, 0) && same(reply.state, BOTH) && untouched(lent));
        EXPECT(reply.lower == 0 && reply.upper == NEKBROD_ONE && !reply.lower_exact && !reply.upper_exact);
        EXPECT(reply.events == 0);
    }
    /* A book that ends inside a window, or has a window too many; slices and buffers do not matter then. */
    static const uint8_t LONG[NEKBROD_LARGEST_BOOK + 10];
    const size_t lengths[] = {1, 9, 11, 19, NEKBROD_LARGEST_BOOK - 1, NEKBROD_LARGEST_BOOK + 10};
    for (size_t i = 0; i < sizeof lengths / sizeof lengths[0]; i++) {
        struct lent wrong = lend(lengths[i] < sizeof BOOK ? BOOK : LONG, lengths[i], i % 2 == 0 ? sizeof SHEET : 0);
        EXPECT(refused(question_at(wrong, 5, 7 * (i % 3 == 0)).refusal, NEKBROD_WRONG_BOOK, lengths[i]));
        EXPECT(untouched(wrong));
    }
    /* An event that is not below 1, and an end hour that is its first hour, in the second window. */
    for (int i = 0; i < 2; i++) {
        uint8_t book[sizeof BOOK];
        memcpy(book, BOOK, sizeof BOOK);
        book[10] = i == 0;
        memcpy(book + 16, book + 12, 4);
        struct lent wrong = lend(book, sizeof book, i == 0 ? 0 : sizeof SHEET);
        EXPECT(refused(question_at(wrong, 5, 0).refusal, NEKBROD_WRONG_BOOK, i == 0 ? 10 : 16) && untouched(wrong));
    }
    /* Buffers of no byte and of one byte too few, before 25. */
    for (int kept = 0; kept < 8; kept += 7) {
        struct lent none = lend(BOOK, sizeof BOOK, 0), one_less = lend(BOOK, sizeof BOOK, sizeof SHEET - 1);
        EXPECT(refused(question_at(none, 5, kept).refusal, NEKBROD_SHORT_BUFFER, 0) && untouched(none));
        EXPECT(refused(question_at(one_less, 5, kept).refusal, NEKBROD_SHORT_BUFFER, 0) && untouched(one_less));
    }
}

/* Each edge of the windows, with books of no, one and two windows and buffers of up to two bytes more than a sheet. */
static void hours_answered(void)
{
    const uint32_t hours[] = {0, 4, 5, 6, 7, 8, UINT32_MAX - 1, UINT32_MAX, 4};
    for (size_t windows = 0; windows < 3; windows++) {
        for (size_t i = 0; i < sizeof hours / sizeof hours[0]; i++) {
            uint32_t hour = hours[i];
            bool open = (windows > 0 && 5 <= hour && hour < 7) || (windows > 1 && 6 <= hour && hour < UINT32_MAX);
            struct lent lent = lend(BOOK, 10 * windows, sizeof SHEET + i % 3);
            nekbrod_reply reply = question_at(lent, hour, 7);
            uint32_t lower = open ? NEKBROD_ONE : 0, upper = open ? NEKBROD_ONE : 2;
            EXPECT(refused(reply.refusal, 0, 0) && same(reply.state, BOTH) && reply.events == 1);
            EXPECT(reply.lower == lower && reply.upper == upper);
            EXPECT(reply.lower_exact == open && reply.upper_exact == open);
            EXPECT(*lent.lower == lower && *lent.upper == upper && *lent.marks == (open ? 3 : 0));
            EXPECT(memcmp(lent.buffer, SHEET, 26) == 0 && filled(lent.buffer + sizeof SHEET, i % 3));
            EXPECT(memcmp(lent.buffer + 26, open ? CERTAIN : SHEET + 26, 17) == 0);
        }
    }
}

/* An OR of as many basic events, up to 65 of them, sixteen to a gate, in a file of its own. */
static uint8_t *events_at_the_edge(size_t events, size_t *len)
{
    static uint8_t file[9 + 7 * 71];
    size_t gates = (events + 15) / 16, nodes = events + gates + 1, at = 9;
    memcpy(file, TREE, 9);
    file[7] = (uint8_t)nodes;
    for (size_t node = 0; node < nodes; node++, at += 5) {
        size_t gate = node - events, inputs = gate == gates ? gates : gate == gates - 1 ? events - 16 * gate : 16;
        const uint8_t event[5] = {0, (uint8_t)node}, or_gate[5] = {2, (uint8_t)(16 * gate), 0, (uint8_t)inputs};
        memcpy(file + at, node < events ? event : or_gate, 5);
    }
    file[at - 4] = (uint8_t)events;
    for (size_t input = 0; input < nodes - 1; input++, at += 2) {
        file[at] = (uint8_t)input;
        file[at + 1] = 0;
    }
    *len = at;
    return copy_at_the_edge(file, at);
}

static void cut_sets_refused(void)
{
    uint8_t *tree = copy_at_the_edge(TREE, sizeof TREE);
    uint64_t *sets = (uint64_t *)(void *)at_the_edge(8);
    const nekbrod_state states[] = {NOTHING, {0, sizeof SHEET}, BOTH, {sizeof TREE, 0}};
    for (size_t i = 0; i < 4; i++) {
        size_t due = states[i].tree_len == 0 ? NEKBROD_NO_TREE : NEKBROD_CHANGED;
        for (size_t lent = 0; lent < 2; lent++) {
            uint8_t *store = lent == 0 ? NULL : tree;
            size_t store_len = lent == 0 ? 0 : sizeof TREE - 1;
            nekbrod_set_count counted = nekbrod_count_cut_sets(states[i], store, store_len);
            EXPECT(refused(counted.refusal, due, 0) && counted.count == 0);
            nekbrod_listing listing = nekbrod_list_cut_sets(states[i], store, store_len, NULL, 0);
            EXPECT(refused(listing.refusal, due, 0) && same(listing.state, states[i]) && listing.count == 0);
            listing = nekbrod_list_cut_sets(states[i], store, store_len, sets, 1);
            EXPECT(refused(listing.refusal, due, 0) && same(listing.state, states[i]) && filled(sets, 8));
        }
    }
    size_t len;
    uint8_t *many = events_at_the_edge(65, &len);
    nekbrod_state held = {len, 0};
    EXPECT(refused(nekbrod_count_cut_sets(held, many, len).refusal, NEKBROD_MANY_EVENTS, 0));
    EXPECT(refused(nekbrod_list_cut_sets(held, many, len, NULL, 0).refusal, NEKBROD_MANY_EVENTS, 0));
    EXPECT(refused(nekbrod_list_cut_sets(held, many, len, sets, 1).refusal, NEKBROD_MANY_EVENTS, 0));
    EXPECT(filled(sets, 8));
}

/* Slices of no place up to one more than there are sets; the sheet that is held or not does not matter. */
static void cut_sets_short(void)
{
    uint8_t *two = copy_at_the_edge(TWO, sizeof TWO);
    const nekbrod_state states[] = {{sizeof TWO, 0}, {sizeof TWO, sizeof SHEET}};
    for (size_t i = 0; i < 2; i++) {
        nekbrod_set_count counted = nekbrod_count_cut_sets(states[i], two, sizeof TWO);
        EXPECT(refused(counted.refusal, 0, 0) && counted.count == 2);
        for (size_t places = 0; places < 4; places++) {
            uint64_t *sets = (uint64_t *)(void *)at_the_edge(8 * places);
            nekbrod_listing listing =
                nekbrod_list_cut_sets(states[i], two, sizeof TWO, places == 0 ? NULL : sets, places);
            EXPECT(same(listing.state, states[i]));
            if (places < 2) {
                EXPECT(refused(listing.refusal, NEKBROD_SHORT_LIST, 0) && listing.count == 0);
                EXPECT(filled(sets, 8 * places));
            } else {
                EXPECT(refused(listing.refusal, 0, 0) && listing.count == 2);
                EXPECT((sets[0] == 1 && sets[1] == 2) || (sets[0] == 2 && sets[1] == 1));
                EXPECT(filled(sets + 2, 8 * (places - 2)));
            }
        }
    }
}

/* 64 basic events: each bit of a set is one of them. */
static void cut_sets_of_64(void)
{
    size_t len;
    uint8_t *tree = events_at_the_edge(64, &len);
    nekbrod_state held = {len, 0};
    uint64_t *sets = (uint64_t *)(void *)at_the_edge(8 * 64), all = 0;
    EXPECT(refused(nekbrod_list_cut_sets(held, tree, len, sets, 63).refusal, NEKBROD_SHORT_LIST, 0));
    EXPECT(filled(sets, 8 * 64));
    EXPECT(nekbrod_list_cut_sets(held, tree, len, sets, 64).count == 64);
    for (size_t i = 0; i < 64; i++) {
        EXPECT(sets[i] != 0 && (sets[i] & (sets[i] - 1)) == 0 && (all & sets[i]) == 0);
        all |= sets[i];
    }
}

static const nekbrod_state TWO_AND_SHEET = {sizeof TWO, sizeof TWO_SHEET};

/* Each refusal before 31, with no buffer and with buffers that stay. */
static void mirrors_refused(void)
{
    uint8_t *tree = copy_at_the_edge(TWO, sizeof TWO), *sheet = copy_at_the_edge(TWO_SHEET, sizeof TWO_SHEET);
    uint8_t *one = copy_at_the_edge(SHEET, sizeof SHEET);
    const struct {
        nekbrod_state state;
        const uint8_t *tree, *sheet;
        size_t tree_len, sheet_len, number, place;
    } cases[] = {{NOTHING, NULL, NULL, 0, 0, NEKBROD_NO_TREE, 0},
                 {{0, sizeof TWO_SHEET}, tree, sheet, sizeof TWO, sizeof TWO_SHEET, NEKBROD_NO_TREE, 0},
                 {{sizeof TWO, 0}, NULL, NULL, 0, 0, NEKBROD_NO_SHEET, 0},
                 {TWO_AND_SHEET, NULL, NULL, 0, 0, NEKBROD_CHANGED, 0},
                 {TWO_AND_SHEET, tree, sheet, sizeof TWO - 1, sizeof TWO_SHEET, NEKBROD_CHANGED, 0},
                 {TWO_AND_SHEET, tree, NULL, sizeof TWO, 0, NEKBROD_CHANGED, 1},
                 {TWO_AND_SHEET, tree, sheet, sizeof TWO, sizeof TWO_SHEET - 1, NEKBROD_CHANGED, 1},
                 {{sizeof TWO, sizeof SHEET}, tree, one, sizeof TWO, sizeof SHEET, NEKBROD_OTHER_TREE, 0}};
    for (size_t i = 0; i < sizeof cases / sizeof cases[0]; i++) {
        uint8_t *tree_buffer = at_the_edge(sizeof TWO), *sheet_buffer = at_the_edge(sizeof TWO_SHEET);
        for (size_t lent = 0; lent < 2; lent++) {
            nekbrod_answer answer = nekbrod_mirror(cases[i].state, cases[i].tree, cases[i].tree_len, cases[i].sheet,
                                                   cases[i].sheet_len, lent ? tree_buffer : NULL, lent * sizeof TWO,
                                                   lent ? sheet_buffer : NULL, lent * sizeof TWO_SHEET);
            EXPECT(refused(answer.refusal, cases[i].number, cases[i].place) && same(answer.state, cases[i].state));
        }
        EXPECT(filled(tree_buffer, sizeof TWO) && filled(sheet_buffer, sizeof TWO_SHEET));
    }
}

/* Buffers of no byte, of one, of one too few, of the exact length and of two more, each with each. */
static void mirrors_short(void)
{
    uint8_t *tree = copy_at_the_edge(TWO, sizeof TWO), *sheet = copy_at_the_edge(TWO_SHEET, sizeof TWO_SHEET);
    const size_t trees[] = {0, 1, sizeof TWO - 1, sizeof TWO, sizeof TWO + 2};
    const size_t sheets[] = {0, 1, sizeof TWO_SHEET - 1, sizeof TWO_SHEET, sizeof TWO_SHEET + 2};
    for (size_t i = 0; i < 25; i++) {
        size_t tree_len = trees[i / 5], sheet_len = sheets[i % 5];
        uint8_t *tree_buffer = at_the_edge(tree_len), *sheet_buffer = at_the_edge(sheet_len);
        nekbrod_answer answer = nekbrod_mirror(TWO_AND_SHEET, tree, sizeof TWO, sheet, sizeof TWO_SHEET,
                                               tree_len == 0 ? NULL : tree_buffer, tree_len,
                                               sheet_len == 0 ? NULL : sheet_buffer, sheet_len);
        EXPECT(same(answer.state, TWO_AND_SHEET));
        if (tree_len < sizeof TWO || sheet_len < sizeof TWO_SHEET) {
            EXPECT(refused(answer.refusal, NEKBROD_SHORT_MIRROR, 0));
            EXPECT(filled(tree_buffer, tree_len) && filled(sheet_buffer, sheet_len));
        } else {
            EXPECT(refused(answer.refusal, 0, 0));
            EXPECT(memcmp(tree_buffer, AND_OF_TWO, sizeof TWO) == 0);
            EXPECT(memcmp(sheet_buffer, MIRRORED_SHEET, sizeof TWO_SHEET) == 0);
            EXPECT(filled(tree_buffer + sizeof TWO, tree_len - sizeof TWO));
            EXPECT(filled(sheet_buffer + sizeof TWO_SHEET, sheet_len - sizeof TWO_SHEET));
        }
    }
}

/* The filled bytes of each page before and after its slice. */
static void look_beside(void)
{
    for (size_t i = 0; i < slice_count; i++) {
        size_t before = (size_t)(slices[i].bytes - slices[i].page);
        EXPECT(filled(slices[i].page, before));
        EXPECT(filled(slices[i].bytes + slices[i].len, page_size() - before - slices[i].len));
    }
}

int main(void)
{
    EXPECT(nekbrod_version() == NEKBROD_VERSION);
    for (int turn = 0; turn < 2; turn++) {
        at_the_end = turn == 0;
        hand_in_short();
        judge_short();
        question_short();
        hours_refused();
        hours_answered();
        cut_sets_refused();
        cut_sets_short();
        cut_sets_of_64();
        mirrors_refused();
        mirrors_short();
    }
    look_beside();
    if (failures == 0) {
        printf("ok\n");
    }
    return failures == 0 ? 0 : 1;
}
