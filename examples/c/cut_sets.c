/*
 * Prints the minimal cut sets of a tree file: cut_sets TREE
 *
 * The first line is "cut sets COUNT"; then a line for each set: the numbers of its basic events, rising, parted by one
 * space. The lines are in the order of the library, which is left open. A refusal is printed with its number and place.
 * Exit status: 0 answered, 1 refused, 2 the arguments are wrong, the file can't be read, there is no room for so many
 * sets, or the library is not that of the header, 3 the answer can't be written.
 *
 * Build at the repository's root, after tools/staticlib.sh:
 *     cc -Iinclude examples/c/cut_sets.c target/staticlib/libcapi.a -o cut_sets
 */
#include "answer.h"
#include "read_file.h"
#include <nekbrod.h>
#include <stdio.h>
#include <stdlib.h>

/* More sets than these are counted and not listed. */
#define MOST_SETS 1000000u

/* What the monitor is lent beside the slice for the sets. */
static uint8_t tree_store[NEKBROD_LARGEST_TREE];

/* The events of a set, bit i for event i; a minimal cut set is never empty. */
static void print_set(uint64_t set)
{
    const char *before = "";
    for (unsigned event = 0; event < 64; event++) {
        if (set >> event & 1) {
            printf("%s%u", before, event);
            before = " ";
        }
    }
    printf("\n");
}

/* Asks how many sets there are, lends a slice of exactly that many places, and prints what is listed there. */
static int print_sets(nekbrod_state state)
{
    nekbrod_set_count counted = nekbrod_count_cut_sets(state, tree_store, sizeof tree_store);
    if (counted.refusal.number != 0) {
        return print_refusal("cut sets", counted.refusal);
    }
    uint64_t *sets = counted.count <= MOST_SETS ? malloc(counted.count * sizeof *sets) : NULL;
    if (sets == NULL) {
        fprintf(stderr, "cut_sets: no room for %llu sets\n", (unsigned long long)counted.count);
        return UNUSABLE;
    }
    nekbrod_listing listing = nekbrod_list_cut_sets(state, tree_store, sizeof tree_store, sets, counted.count);
    if (listing.refusal.number != 0) {
        free(sets);
        return print_refusal("cut sets", listing.refusal);
    }
    printf("cut sets %llu\n", (unsigned long long)listing.count);
    for (uint64_t i = 0; i < listing.count && !ferror(stdout); i++) {
        print_set(sets[i]);
    }
    free(sets);
    return written("cut_sets");
}

int main(int argc, char **argv)
{
    struct file tree;
    if (nekbrod_version() != NEKBROD_VERSION) {
        fprintf(stderr, "cut_sets: the library is of another version than nekbrod.h\n");
        return UNUSABLE;
    }
    if (argc != 2) {
        fprintf(stderr, "usage: cut_sets TREE, where TREE is a tree file\n");
        return UNUSABLE;
    }
    if (!read_file(argv[1], &tree)) {
        fprintf(stderr, "cut_sets: can't read %s\n", argv[1]);
        free(tree.bytes);
        return UNUSABLE;
    }
    nekbrod_state nothing = {0, 0};
    nekbrod_answer answer = nekbrod_hand_in_tree(nothing, tree.bytes, tree.len, tree_store, sizeof tree_store);
    free(tree.bytes);
    return answer.refusal.number != 0 ? print_refusal("tree", answer.refusal) : print_sets(answer.state);
}
