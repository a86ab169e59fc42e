/*
 * Prints one level of a tree file and an opinion sheet: level TREE SHEET K N
 *
 * The line is that of the level printer: k, the lower end in billionths and its mark, the upper end and its mark, where
 * = is exact and ~ is not. A refusal is printed with its number and place. Exit status: 0 answered, 1 refused, 2 the
 * arguments are wrong, a file can't be read, or the library is not that of the header, 3 the answer can't be written.
 *
 * Build at the repository's root, after tools/staticlib.sh:
 *     cc -Iinclude examples/c/level.c target/staticlib/libcapi.a -o level
 */
#include "answer.h"
#include "read_file.h"
#include "read_number.h"
#include <nekbrod.h>
#include <stdio.h>
#include <stdlib.h>

/* Everything that the monitor is lent: two stores and three work slices. */
static uint8_t tree_store[NEKBROD_LARGEST_TREE];
static uint8_t sheet_store[NEKBROD_LARGEST_SHEET];
static uint32_t lower[NEKBROD_MOST_NODES];
static uint32_t upper[NEKBROD_MOST_NODES];
static uint8_t marks[NEKBROD_MOST_NODES];

/* Holds both files and questions one level. */
static int print_level(struct file tree, struct file sheet, uint32_t k, uint32_t n)
{
    nekbrod_state state = {0, 0};
    nekbrod_answer answer = nekbrod_hand_in_tree(state, tree.bytes, tree.len, tree_store, sizeof tree_store);
    if (answer.refusal.number != 0) {
        return print_refusal("tree", answer.refusal);
    }
    answer = nekbrod_hand_in_sheet(answer.state, sheet.bytes, sheet.len, sheet_store, sizeof sheet_store);
    if (answer.refusal.number != 0) {
        return print_refusal("sheet", answer.refusal);
    }
    nekbrod_reply reply =
        nekbrod_question(answer.state, tree_store, sizeof tree_store, sheet_store, sizeof sheet_store, k, n, lower,
                         NEKBROD_MOST_NODES, upper, NEKBROD_MOST_NODES, marks, NEKBROD_MOST_NODES);
    if (reply.refusal.number != 0) {
        return print_refusal("level", reply.refusal);
    }
    printf("%u ", (unsigned)k);
    print_ends(reply);
    return written("level");
}

int main(int argc, char **argv)
{
    struct file tree, sheet;
    uint32_t k, n;
    if (nekbrod_version() != NEKBROD_VERSION) {
        fprintf(stderr, "level: the library is of another version than nekbrod.h\n");
        return UNUSABLE;
    }
    if (argc != 5 || !read_number(argv[3], &k) || !read_number(argv[4], &n)) {
        fprintf(stderr, "usage: level TREE SHEET K N, where TREE and SHEET are files and level K of N is asked\n");
        return UNUSABLE;
    }
    if (!read_file(argv[1], &tree)) {
        fprintf(stderr, "level: can't read %s\n", argv[1]);
        return UNUSABLE;
    }
    if (!read_file(argv[2], &sheet)) {
        fprintf(stderr, "level: can't read %s\n", argv[2]);
        free(tree.bytes);
        return UNUSABLE;
    }
    int status = print_level(tree, sheet, k, n);
    free(tree.bytes);
    free(sheet.bytes);
    return status;
}
