/*
 * The peer: document 01 with the fraction entries and the silent experts of document 02, in plain C, written for speed
 * and without a proof. The proved C library is timed beside it. Its calls are those of include/nekbrod.h with peer_ for
 * nekbrod_, and answer as it says.
 */
#include <nekbrod.h>
#include <string.h>

#define UNIT UINT64_C(1000000000)
#define MOST_LEVELS 1000

/* Fields of both headers. */
#define VERSION 3
#define TREE_NUMBER 5

/* The tree file: a header, N records of a kind byte and the fields a and b, N - 1 links. */
#define TREE_HEADER 9
#define NODES 7
#define RECORD 5
#define LINK 2
#define MOST_INPUTS 16
enum { EVENT, AND, OR };

/*
 * The opinion sheet: a header that ends with the scores, and entries of a kind byte and four numbers, terms, or a
 * denominator with four numerators and a byte of 0.
 */
#define SHEET_HEADER 26
#define EVENTS 7
#define EXPERTS 9
#define SCORES 10
#define MOST_EXPERTS 16
#define BEST_SCORE 100
#define ENTRY 17
#define MOST_EVENTS 1024
#define LARGEST_DENOMINATOR 1000000
enum { NUMBERS, OPINIONS, FRACTIONS };

/* a, b, c and d of each term in hundredths; term 0, the silence of a listed expert, counts as all of 0 to 1. */
static const uint8_t TERMS[8][4] = {{0, 0, 100, 100}, {0, 4, 4, 8},     {7, 13, 13, 19},  {17, 27, 27, 37},
                                    {35, 50, 50, 65}, {62, 73, 73, 82}, {81, 87, 87, 93}, {92, 96, 96, 100}};
#define NO_TERM 0
#define LAST_TERM 7
#define HUNDREDTH (UNIT / 100)

static uint32_t field16(const uint8_t *at)
{
    return at[0] | (uint32_t)at[1] << 8;
}

static uint32_t field32(const uint8_t *at)
{
    return field16(at) | field16(at + 2) << 16;
}

/* Three bytes; the one behind them is read too. */
static uint32_t field24(const uint8_t *at)
{
    return field32(at) & 0xffffff;
}

static nekbrod_refusal refused(size_t number, size_t place)
{
    return (nekbrod_refusal){number, place};
}

static nekbrod_refusal not_refused(void)
{
    return refused(0, 0);
}

/* Refusals 1 to 5 of a tree file. */
static nekbrod_refusal judge_tree_header(const uint8_t *file, size_t len)
{
    if (len < TREE_HEADER) {
        return refused(1, len);
    }
    if (memcmp(file, "FTF", 3) != 0) {
        return refused(2, 0);
    }
    if (field16(file + VERSION) != 1) {
        return refused(3, VERSION);
    }
    size_t nodes = field16(file + NODES);
    if (nodes < 1 || nodes > NEKBROD_MOST_NODES) {
        return refused(4, NODES);
    }
    if (len != TREE_HEADER + RECORD * nodes + LINK * (nodes - 1)) {
        return refused(5, len);
    }
    return not_refused();
}

/* Refusals 6 and 7 of a tree file; counts its events. */
static nekbrod_refusal judge_records(const uint8_t *file, size_t nodes, size_t *events)
{
    size_t seen = 0, linked = 0, links = nodes - 1;
    for (size_t node = 0; node < nodes; node++) {
        const uint8_t *record = file + TREE_HEADER + RECORD * node;
        size_t a = field16(record + 1), b = field16(record + 3);
        if (record[0] > OR) {
            return refused(6, record - file);
        }
        if (record[0] == EVENT ? a != seen || b != 0 : a != linked || b < 1 || b > MOST_INPUTS || a + b > links) {
            return refused(7, record - file);
        }
        seen += record[0] == EVENT;
        linked += b;
    }
    *events = seen;
    return linked < links ? refused(7, TREE_HEADER + RECORD * nodes) : not_refused();
}

/* Refusals 8 and 9. The records are judged, so the gates' links follow one another. */
static nekbrod_refusal judge_links(const uint8_t *file, size_t nodes)
{
    bool linked[NEKBROD_MOST_NODES];
    memset(linked, 0, nodes);
    const uint8_t *link = file + TREE_HEADER + RECORD * nodes;
    for (size_t gate = 0; gate < nodes; gate++) {
        const uint8_t *end = link + LINK * field16(file + TREE_HEADER + RECORD * gate + 3);
        for (; link < end; link += LINK) {
            size_t input = field16(link);
            if (input >= gate) {
                return refused(8, link - file);
            }
            if (linked[input]) {
                return refused(9, link - file);
            }
            linked[input] = true;
        }
    }
    return not_refused();
}

static nekbrod_refusal judge_tree(const uint8_t *file, size_t len, size_t *nodes, size_t *events)
{
    nekbrod_refusal refusal = judge_tree_header(file, len);
    if (refusal.number == 0) {
        *nodes = field16(file + NODES);
        refusal = judge_records(file, *nodes, events);
    }
    return refusal.number == 0 ? judge_links(file, *nodes) : refusal;
}

/* Refusals 1 to 5 of an opinion sheet. */
static nekbrod_refusal judge_sheet_header(const uint8_t *sheet, size_t len)
{
    if (len < SHEET_HEADER) {
        return refused(1, len);
    }
    if (memcmp(sheet, "FTS", 3) != 0) {
        return refused(2, 0);
    }
    if (field16(sheet + VERSION) != 1) {
        return refused(3, VERSION);
    }
    size_t events = field16(sheet + EVENTS);
    if (events < 1 || events > MOST_EVENTS) {
        return refused(4, EVENTS);
    }
    if (sheet[EXPERTS] > MOST_EXPERTS) {
        return refused(4, EXPERTS);
    }
    return len != SHEET_HEADER + ENTRY * events ? refused(5, len) : not_refused();
}

/* Refusal 7 of an opinion sheet. */
static nekbrod_refusal judge_scores(const uint8_t *sheet)
{
    for (size_t expert = 0; expert < MOST_EXPERTS; expert++) {
        uint8_t score = sheet[SCORES + expert];
        if (expert < sheet[EXPERTS] ? score < 1 || score > BEST_SCORE : score != 0) {
            return refused(7, SCORES + expert);
        }
    }
    return not_refused();
}

/* Refusal 28. The last byte is read as the highest of d: if it is not 0, d is above every denominator. */
static nekbrod_refusal judge_fractions(const uint8_t *sheet, const uint8_t *entry)
{
    uint32_t denominator = field24(entry + 1);
    uint32_t a = field24(entry + 4), b = field24(entry + 7), c = field24(entry + 10), d = field32(entry + 13);
    bool bad_denominator = denominator < 1 || denominator > LARGEST_DENOMINATOR;
    return a > b || b > c || c > d || d > denominator || bad_denominator ? refused(28, entry - sheet) : not_refused();
}

/* Refusals 6, 10 to 12 and 28. */
static nekbrod_refusal judge_entry(const uint8_t *sheet, const uint8_t *entry)
{
    if (entry[0] > FRACTIONS) {
        return refused(6, entry - sheet);
    }
    if (entry[0] == NUMBERS) {
        uint32_t a = field32(entry + 1), b = field32(entry + 5), c = field32(entry + 9), d = field32(entry + 13);
        return a > b || b > c || c > d || d > UNIT ? refused(10, entry - sheet) : not_refused();
    }
    if (entry[0] == FRACTIONS) {
        return judge_fractions(sheet, entry);
    }
    uint8_t spoke = 0;
    for (size_t expert = 0; expert < MOST_EXPERTS; expert++) {
        uint8_t term = entry[1 + expert];
        if (term > (expert < sheet[EXPERTS] ? LAST_TERM : NO_TERM)) {
            return refused(11, entry + 1 + expert - sheet);
        }
        spoke |= term;
    }
    return spoke == 0 ? refused(12, entry - sheet) : not_refused();
}

static nekbrod_refusal judge_sheet(const uint8_t *sheet, size_t len)
{
    nekbrod_refusal refusal = judge_sheet_header(sheet, len);
    if (refusal.number == 0) {
        refusal = judge_scores(sheet);
    }
    for (size_t at = SHEET_HEADER; refusal.number == 0 && at < len; at += ENTRY) {
        refusal = judge_entry(sheet, sheet + at);
    }
    return refusal;
}

/* An event's exact cut: its ends in units, over one denominator. */
typedef struct cut {
    uint64_t lower, upper, denominator;
} cut;

static cut numbers_cut(const uint8_t *entry, uint64_t k, uint64_t n)
{
    uint64_t a = field32(entry + 1), b = field32(entry + 5), c = field32(entry + 9), d = field32(entry + 13);
    return (cut){a * (n - k) + b * k, d * (n - k) + c * k, n};
}

/*
 * The mean over all listed experts, weighted by score, and the cut of it: at most 100 * 1600 * 1000 * HUNDREDTH, below
 * 2 to the 64th.
 */
static cut opinions_cut(const uint8_t *sheet, const uint8_t *entry, uint64_t k, uint64_t n)
{
    uint32_t a = 0, b = 0, c = 0, d = 0, weight = 0;
    for (size_t expert = 0; expert < sheet[EXPERTS]; expert++) {
        uint32_t score = sheet[SCORES + expert];
        const uint8_t *term = TERMS[entry[1 + expert]];
        a += score * term[0];
        b += score * term[1];
        c += score * term[2];
        d += score * term[3];
        weight += score;
    }
    return (cut){(a * (n - k) + b * k) * HUNDREDTH, (d * (n - k) + c * k) * HUNDREDTH, weight * n};
}

/* The cut of an accepted fraction entry: at most 1000000 * 1000 * UNIT, below 2 to the 64th. */
static cut fractions_cut(const uint8_t *entry, uint64_t k, uint64_t n)
{
    uint64_t denominator = field24(entry + 1);
    uint64_t a = field24(entry + 4), b = field24(entry + 7), c = field24(entry + 10), d = field24(entry + 13);
    return (cut){(a * (n - k) + b * k) * UNIT, (d * (n - k) + c * k) * UNIT, denominator * n};
}

static cut entry_cut(const uint8_t *sheet, const uint8_t *entry, uint64_t k, uint64_t n)
{
    if (entry[0] == NUMBERS) {
        return numbers_cut(entry, k, n);
    }
    return entry[0] == OPINIONS ? opinions_cut(sheet, entry, k, n) : fractions_cut(entry, k, n);
}

/* An end of a node in units, and whether it is exact. */
typedef struct end {
    uint64_t units;
    uint8_t exact;
} end;

/* A gate's step: the running number times a factor, rounded up or down. */
static inline end step(end running, end factor, bool up)
{
    uint64_t product = running.units * factor.units;
    uint64_t quotient = (product + (up ? UNIT - 1 : 0)) / UNIT;
    uint8_t nothing_lost = running.exact & factor.exact & (quotient * UNIT == product);
    uint8_t true_zero = (running.exact & (running.units == 0)) | (factor.exact & (factor.units == 0));
    return (end){quotient, nothing_lost | true_zero};
}

static inline end complement(end of)
{
    return (end){UNIT - of.units, of.exact};
}

/* The ends of an AND, or of an OR by complements, whose rounding is turned round. */
static inline void write_gate(size_t node, bool is_or, const uint8_t *links, const uint8_t *links_end,
                              uint32_t *restrict lower, uint32_t *restrict upper, uint8_t *restrict marks)
{
    end low = {UNIT, 1}, high = {UNIT, 1};
    for (; links < links_end; links += LINK) {
        size_t input = field16(links);
        end input_low = {lower[input], marks[input] & 1}, input_high = {upper[input], marks[input] >> 1};
        low = step(low, is_or ? complement(input_low) : input_low, is_or);
        high = step(high, is_or ? complement(input_high) : input_high, !is_or);
    }
    lower[node] = is_or ? UNIT - low.units : low.units;
    upper[node] = is_or ? UNIT - high.units : high.units;
    marks[node] = low.exact | high.exact << 1;
}

/* All nodes of an accepted pair, from the first to the root. */
static void evaluate(const uint8_t *tree, size_t nodes, const uint8_t *sheet, uint32_t k, uint32_t n,
                     uint32_t *restrict lower, uint32_t *restrict upper, uint8_t *restrict marks)
{
    const uint8_t *link = tree + TREE_HEADER + RECORD * nodes, *entry = sheet + SHEET_HEADER;
    for (size_t node = 0; node < nodes; node++) {
        const uint8_t *record = tree + TREE_HEADER + RECORD * node;
        if (record[0] == EVENT) {
            cut exact = entry_cut(sheet, entry, k, n);
            uint64_t low_rest = exact.lower % exact.denominator, high_rest = exact.upper % exact.denominator;
            lower[node] = exact.lower / exact.denominator;
            upper[node] = exact.upper / exact.denominator + (high_rest != 0);
            marks[node] = (low_rest == 0) | (high_rest == 0) << 1;
            entry += ENTRY;
        } else {
            const uint8_t *links_end = link + LINK * field16(record + 3);
            if (record[0] == AND) {
                write_gate(node, false, link, links_end, lower, upper, marks);
            } else {
                write_gate(node, true, link, links_end, lower, upper, marks);
            }
            link = links_end;
        }
    }
}

/* Copies an accepted file to the front of its store, or refuses by 20. */
static nekbrod_refusal keep(const uint8_t *file, size_t len, uint8_t *store, size_t store_len)
{
    if (store_len < len) {
        return refused(20, 0);
    }
    memcpy(store, file, len);
    return not_refused();
}

nekbrod_answer peer_hand_in_tree(nekbrod_state state, const uint8_t *file, size_t file_len, uint8_t *tree_store,
                                 size_t tree_store_len)
{
    size_t nodes, events;
    nekbrod_refusal refusal = judge_tree(file, file_len, &nodes, &events);
    if (refusal.number == 0) {
        refusal = keep(file, file_len, tree_store, tree_store_len);
    }
    return (nekbrod_answer){{refusal.number == 0 ? file_len : state.tree_len, state.sheet_len}, refusal};
}

nekbrod_answer peer_hand_in_sheet(nekbrod_state state, const uint8_t *sheet, size_t sheet_len, uint8_t *sheet_store,
                                  size_t sheet_store_len)
{
    nekbrod_refusal refusal = judge_sheet(sheet, sheet_len);
    if (refusal.number == 0) {
        refusal = keep(sheet, sheet_len, sheet_store, sheet_store_len);
    }
    return (nekbrod_answer){{state.tree_len, refusal.number == 0 ? sheet_len : state.sheet_len}, refusal};
}

nekbrod_state peer_drop_both(nekbrod_state state)
{
    (void)state;
    return (nekbrod_state){0, 0};
}

/* Refusals 13 and 21 to 24; counts the nodes and events of the held tree. */
static nekbrod_refusal judge_held(nekbrod_state state, const uint8_t *tree, size_t tree_store_len, const uint8_t *sheet,
                                  size_t sheet_store_len, uint32_t k, uint32_t n, size_t *nodes, size_t *events)
{
    if (n < 1 || n > MOST_LEVELS || k > n) {
        return refused(13, 0);
    }
    if (state.tree_len == 0) {
        return refused(21, 0);
    }
    if (state.sheet_len == 0) {
        return refused(22, 0);
    }
    if (state.tree_len > tree_store_len || judge_tree(tree, state.tree_len, nodes, events).number != 0) {
        return refused(23, 0);
    }
    if (state.sheet_len > sheet_store_len || judge_sheet(sheet, state.sheet_len).number != 0) {
        return refused(23, 1);
    }
    if (field16(tree + TREE_NUMBER) != field16(sheet + TREE_NUMBER) || *events != field16(sheet + EVENTS)) {
        return refused(24, 0);
    }
    return not_refused();
}

nekbrod_standing peer_judge(nekbrod_state state, const uint8_t *tree_store, size_t tree_store_len,
                            const uint8_t *sheet_store, size_t sheet_store_len, uint32_t k, uint32_t n)
{
    size_t nodes, events;
    nekbrod_refusal refusal =
        judge_held(state, tree_store, tree_store_len, sheet_store, sheet_store_len, k, n, &nodes, &events);
    return refusal.number == 0 ? (nekbrod_standing){refusal, nodes, events} : (nekbrod_standing){refusal, 0, 0};
}

nekbrod_reply peer_question(nekbrod_state state, const uint8_t *tree_store, size_t tree_store_len,
                            const uint8_t *sheet_store, size_t sheet_store_len, uint32_t k, uint32_t n, uint32_t *lower,
                            size_t lower_len, uint32_t *upper, size_t upper_len, uint8_t *marks, size_t marks_len)
{
    size_t nodes, events;
    nekbrod_refusal refusal =
        judge_held(state, tree_store, tree_store_len, sheet_store, sheet_store_len, k, n, &nodes, &events);
    if (refusal.number == 0 && (lower_len < nodes || upper_len < nodes || marks_len < nodes)) {
        refusal = refused(25, 0);
    }
    if (refusal.number != 0) {
        return (nekbrod_reply){state, refusal, 0, NEKBROD_ONE, false, false, 0};
    }
    evaluate(tree_store, nodes, sheet_store, k, n, lower, upper, marks);
    size_t root = nodes - 1;
    return (nekbrod_reply){state, refusal, lower[root], upper[root], marks[root] & 1, marks[root] >> 1, events};
}
