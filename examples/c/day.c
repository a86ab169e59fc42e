/*
 * Prints a level of a tree file and an opinion sheet for each hour of a day, by a book of work windows:
 * day TREE SHEET BOOK K N FIRST
 *
 * There is a line for each of the 24 hours from FIRST on, counted since commissioning: the hour, the lower end in
 * billionths and its mark, the upper end and its mark, where = is exact and ~ is not. A refusal is printed with its
 * number and place. Exit status: 0 answered, 1 refused, 2 the arguments are wrong, a file can't be read, or the library
 * is not that of the header, 3 the answer can't be written.
 *
 * Build at the repository's root, after tools/staticlib.sh:
 *     cc -Iinclude examples/c/day.c target/staticlib/libcapi.a -o day
 */
#include "answer.h"
#include "read_file.h"
#include "read_number.h"
#include <nekbrod.h>
#include <stdio.h>
#include <stdlib.h>

#define HOURS 24u

/* Everything that the monitor is lent: two stores, the buffer for an hour's sheet, and three work slices. */
static uint8_t tree_store[NEKBROD_LARGEST_TREE];
static uint8_t sheet_store[NEKBROD_LARGEST_SHEET];
static uint8_t buffer[NEKBROD_LARGEST_SHEET];
static uint32_t lower[NEKBROD_MOST_NODES];
static uint32_t upper[NEKBROD_MOST_NODES];
static uint8_t marks[NEKBROD_MOST_NODES];

/* Holds both files and questions the level hour by hour; nothing of an hour is left to the next. */
static int print_day(struct file tree, struct file sheet, struct file book, uint32_t k, uint32_t n, uint32_t first)
{
    nekbrod_state state = {0, 0};
    nekbrod_answer answer = nekbrod_hand_in_tree(state, tree.bytes, tree.len, tree_store, sizeof tree_store);
    if (answer.refusal.number != 0) {
        return print_refusal("tree", answer.refusal);
    }
    answer = nekbrod_hand_in_sheet(answer.state, sheet.bytes, sheet.len, sheet_store, sizeof sheet_store);
    if (answer.refusal.number != 0) {
        return print_refusal("sheet", answer.refusal);
    }
    for (uint32_t i = 0; i < HOURS; i++) {
        nekbrod_reply reply =
            nekbrod_question_at_hour(answer.state, tree_store, sizeof tree_store, sheet_store, sizeof sheet_store,
                                     book.bytes, book.len, k, n, first + i, buffer, sizeof buffer, lower,
                                     NEKBROD_MOST_NODES, upper, NEKBROD_MOST_NODES, marks, NEKBROD_MOST_NODES);
        if (reply.refusal.number != 0) {
            return print_refusal("hour", reply.refusal);
        }
        printf("%u ", (unsigned)(first + i));
        print_ends(reply);
    }
    return written("day");
}

int main(int argc, char **argv)
{
    struct file files[3] = {{NULL, 0}, {NULL, 0}, {NULL, 0}};
    uint32_t k, n, first;
    if (nekbrod_version() != NEKBROD_VERSION) {
        fprintf(stderr, "day: the library is of another version than nekbrod.h\n");
        return UNUSABLE;
    }
    if (argc != 7 || !read_number(argv[4], &k) || !read_number(argv[5], &n) || !read_number(argv[6], &first) ||
        UINT32_MAX - (HOURS - 1) < first) {
        fprintf(stderr, "usage: day TREE SHEET BOOK K N FIRST, where TREE, SHEET and BOOK are files, level K of N is "
                        "asked, and FIRST is the first of 24 hours\n");
        return UNUSABLE;
    }
    int status = ANSWERED;
    for (int i = 0; i < 3 && status == ANSWERED; i++) {
        if (!read_file(argv[i + 1], &files[i])) {
            fprintf(stderr, "day: can't read %s\n", argv[i + 1]);
            status = UNUSABLE;
        }
    }
    if (status == ANSWERED) {
        status = print_day(files[0], files[1], files[2], k, n, first);
    }
    for (int i = 0; i < 3; i++) {
        free(files[i].bytes);
    }
    return status;
}
