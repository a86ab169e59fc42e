/*
 * Mirrors a tree file and an opinion sheet, and prints one level of both sides: mirror TREE SHEET K N
 *
 * The first line is "fails", k, the lower end in billionths and its mark, the upper end and its mark, where = is exact
 * and ~ is not: the probability of the top event. The second line is "works" and the same of the mirrored pair: the
 * probability that the top event does not happen. Each of its ends is 1000000000 minus the other end of the first line,
 * with that end's mark. A refusal is printed with its number and place. Exit status: 0 answered, 1 refused, 2 the
 * arguments are wrong, a file can't be read, or the library is not that of the header, 3 the answer can't be written.
 *
 * Build at the repository's root, after tools/staticlib.sh:
 *     cc -Iinclude examples/c/mirror.c target/staticlib/libcapi.a -o mirror
 */
#include "answer.h"
#include "read_file.h"
#include "read_number.h"
#include <nekbrod.h>
#include <stdio.h>
#include <stdlib.h>

/* Everything that the monitor is lent: two stores, two buffers for the mirrored files, and three work slices. */
static uint8_t tree_store[NEKBROD_LARGEST_TREE];
static uint8_t sheet_store[NEKBROD_LARGEST_SHEET];
static uint8_t tree_buffer[NEKBROD_LARGEST_TREE];
static uint8_t sheet_buffer[NEKBROD_LARGEST_SHEET];
static uint32_t lower[NEKBROD_MOST_NODES];
static uint32_t upper[NEKBROD_MOST_NODES];
static uint8_t marks[NEKBROD_MOST_NODES];

/* A level of the pair that lies in these stores; the status after it. */
static int print_side(const char *side, nekbrod_state state, const uint8_t *tree, const uint8_t *sheet, uint32_t k,
                      uint32_t n)
{
    nekbrod_reply reply =
        nekbrod_question(state, tree, NEKBROD_LARGEST_TREE, sheet, NEKBROD_LARGEST_SHEET, k, n, lower,
                         NEKBROD_MOST_NODES, upper, NEKBROD_MOST_NODES, marks, NEKBROD_MOST_NODES);
    if (reply.refusal.number != 0) {
        return print_refusal("level", reply.refusal);
    }
    printf("%s %u ", side, (unsigned)k);
    print_ends(reply);
    return ANSWERED;
}

/* Holds both files, mirrors them, and questions a level of the held pair and of the mirrored one. */
static int print_both(struct file tree, struct file sheet, uint32_t k, uint32_t n)
{
    nekbrod_state state = {0, 0};
    nekbrod_answer answer = nekbrod_hand_in_tree(state, tree.bytes, tree.len, tree_store, sizeof tree_store);
    if (answer.refusal.number != 0) {
        return print_refusal("tree", answer.refusal);
    }
    answer = nekbrod_hand_in_sheet(answer.state, sheet.bytes, sheet.len, sheet_store, sizeof sheet_store);
    if (answer.refusal.number != 0) {
        return print_refusal("sheet", answer.refusal);
    }
    answer = nekbrod_mirror(answer.state, tree_store, sizeof tree_store, sheet_store, sizeof sheet_store, tree_buffer,
                            sizeof tree_buffer, sheet_buffer, sizeof sheet_buffer);
    if (answer.refusal.number != 0) {
        return print_refusal("mirror", answer.refusal);
    }
    int status = print_side("fails", answer.state, tree_store, sheet_store, k, n);
    if (status == ANSWERED) {
        status = print_side("works", answer.state, tree_buffer, sheet_buffer, k, n);
    }
    return status == ANSWERED ? written("mirror") : status;
}

int main(int argc, char **argv)
{
    struct file files[2] = {{NULL, 0}, {NULL, 0}};
    uint32_t k, n;
    if (nekbrod_version() != NEKBROD_VERSION) {
        fprintf(stderr, "mirror: the library is of another version than nekbrod.h\n");
        return UNUSABLE;
    }
    if (argc != 5 || !read_number(argv[3], &k) || !read_number(argv[4], &n)) {
        fprintf(stderr, "usage: mirror TREE SHEET K N, where TREE and SHEET are files and level K of N is asked\n");
        return UNUSABLE;
    }
    int status = ANSWERED;
    for (int i = 0; i < 2 && status == ANSWERED; i++) {
        if (!read_file(argv[i + 1], &files[i])) {
            fprintf(stderr, "mirror: can't read %s\n", argv[i + 1]);
            status = UNUSABLE;
        }
    }
    if (status == ANSWERED) {
        status = print_both(files[0], files[1], k, n);
    }
    for (int i = 0; i < 2; i++) {
        free(files[i].bytes);
    }
    return status;
}
