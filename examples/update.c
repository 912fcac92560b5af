/*
 * Reads the text m [ m m ] on the house table, puts an m into the group, and prints both trees, each node behind its number, with a star
 * where the number is new; and the numbers that are gone.
 *
 *     rt staticlib boundary
 *     gcc -I include examples/update.c target/staticlib/libboundary.a -o update
 *     ./update tables/house.lrt
 *
 * examples/update.txt is what it prints.
 */
#include <stdio.h>

#include "blenkysnow.h"

#define M 1
#define OPENS 2
#define CLOSES 3

static uint8_t table[BLENKYSNOW_SHEET_BYTES];
static uint32_t before[BLENKYSNOW_TREE_WORDS], after[BLENKYSNOW_TREE_WORDS], room[BLENKYSNOW_ROOM_WORDS];

/* What a node of the house grammar is called. */
static const char *name_of(uint32_t kind)
{
    switch (kind) {
    case M: return "m";
    case OPENS: return "[";
    case CLOSES: return "]";
    case 257: return "List: nothing";
    case 258: return "List: List Entry";
    case 259: return "Entry: m";
    case 260: return "Entry: [ List ]";
    default: return "?";
    }
}

/* The tokens of a tree, which stand in it from left to right. */
static void print_text(const uint32_t *tree)
{
    printf("text:");
    for (uint32_t i = 0; i < tree[0]; i++)
        if (tree[2 + 3 * i] < 256)
            printf(" %s", name_of(tree[2 + 3 * i]));
    printf("\naccepted: %u nodes, next number %u\n", tree[0], tree[1]);
}

/* Node i and all below it, parents first; a star marks a number of `from` or above. */
static void print_piece(const uint32_t *tree, uint32_t i, uint32_t from, int depth)
{
    const uint32_t *node = tree + 2 + 3 * i;
    uint32_t children[8], count = 0;

    printf("%5u%c %*s%s\n", node[1], node[1] >= from ? '*' : ' ', 2 * depth, "", name_of(node[0]));
    for (uint32_t left = node[2] - 1, child = i - 1; left > 0; child -= tree[4 + 3 * child]) {
        children[count++] = child;
        left -= tree[4 + 3 * child];
    }
    while (count > 0)
        print_piece(tree, children[--count], from, depth + 1);
}

/* The numbers of the old tree that the new one has no more: what hung on them is loose. */
static void print_gone(const uint32_t *old, const uint32_t *new)
{
    printf("gone:");
    for (uint32_t i = 0; i < old[0]; i++) {
        uint32_t j = 0;
        while (j < new[0] && new[3 + 3 * j] != old[3 + 3 * i])
            j++;
        if (j == new[0])
            printf(" %u", old[3 + 3 * i]);
    }
    printf("\n");
}

int main(int argc, char **argv)
{
    const uint32_t text[] = {M, OPENS, M, M, CLOSES}, put[] = {M};
    const struct blenkysnow_edit edits[] = {{3, 0, 1}};
    struct blenkysnow_broken broken;
    struct blenkysnow_told told;
    uint32_t number;

    FILE *sheet = argc == 2 ? fopen(argv[1], "rb") : NULL;
    if (sheet == NULL) {
        fprintf(stderr, "usage: update TABLE\n");
        return 2;
    }
    size_t bytes = fread(table, 1, sizeof table, sheet);
    fclose(sheet);

    number = blenkysnow_check(table, bytes, &broken);
    if (number != BLENKYSNOW_ACCEPTED) {
        fprintf(stderr, "table refused: %u (condition %u at state %u)\n", number, broken.condition, broken.state);
        return 1;
    }
    number = blenkysnow_read_afresh(table, bytes, text, 5, 1, before, BLENKYSNOW_TREE_WORDS, room, BLENKYSNOW_ROOM_WORDS, &told);
    if (number != BLENKYSNOW_ACCEPTED) {
        fprintf(stderr, "text refused: %u at %u\n", number, told.place);
        return 1;
    }
    print_text(before);
    print_piece(before, before[0] - 1, UINT32_MAX, 0);

    number = blenkysnow_update_edits(table, bytes, before, BLENKYSNOW_TREE_WORDS, edits, 1, put, 1, after, BLENKYSNOW_TREE_WORDS, room,
                                     BLENKYSNOW_ROOM_WORDS, &told);
    if (number != BLENKYSNOW_ACCEPTED) {
        fprintf(stderr, "update refused: %u at %u\n", number, told.place);
        return 1;
    }
    printf("\nedit: at 3, 0 removed, put in: m\n");
    print_text(after);
    print_piece(after, after[0] - 1, before[1], 0);
    print_gone(before, after);
    return 0;
}
