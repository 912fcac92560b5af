/*
 * Blenkysnow from C: check an LR table, read a text of tokens into a tree, update the tree after edits. Sectioned as document 01, whose
 * rules these calls follow; docs/USERS.md explains them.
 *
 * Link target/staticlib/libboundary.a, which `sh tools/build boundary` writes for x86-64 Linux:
 *
 *     gcc -I include program.c target/staticlib/libboundary.a
 *
 * The library holds nothing between two calls and takes no memory: all is lent by the caller, and threads may call it at once over rows of
 * their own. Every call ends. What a call answers, and each word of the rows it is lent, is proved for every content of the rows; C has to
 * see to the pointers:
 * - each points at as many elements as the length behind it says, or at the one struct or array that it is declared for;
 * - none is NULL, also where the length is 0;
 * - what a call writes (a pointer without const) overlaps nothing else that the same call is lent. So the tree to write is another row than
 *   the old tree.
 *
 * Every example is a whole program. tests/boundary.py compiles each and compares what it prints.
 */
#ifndef BLENKYSNOW_H
#define BLENKYSNOW_H

#include <stddef.h>
#include <stdint.h>

#ifdef __cplusplus
extern "C" {
#endif

/* ---- The table sheet ---- */

/* The bytes of the house table, and of the largest sheet that document 01 allows. */
#define BLENKYSNOW_HOUSE_BYTES 320
#define BLENKYSNOW_SHEET_BYTES 64809

/* What the table check names with refusal 4; two zeros with any other answer. */
struct blenkysnow_broken {
    uint32_t condition; /* 1 to 7, a state condition of document 01 */
    uint32_t state;     /* a state where it is broken */
};

/*
 * The table check. Answers 0 where the table is taken; else 2, 3 or 4, and with 4 one broken condition with a state where it is broken
 * (of several it may name any).
 *
 * table, table_bytes: the sheet; of any length, also 0.
 * broken: written in every case.
 *
 * Example:
 *
 *     #include <stdio.h>
 *     #include "blenkysnow.h"
 *
 *     int main(void)
 *     {
 *         uint8_t table[BLENKYSNOW_HOUSE_BYTES];
 *         struct blenkysnow_broken broken;
 *
 *         blenkysnow_house(table);
 *         printf("%u\n", blenkysnow_check(table, sizeof table, &broken));
 *         table[61] = table[62] = 0; // state 0 has no action on m any more
 *         uint32_t number = blenkysnow_check(table, sizeof table, &broken);
 *         printf("%u: condition %u at state %u\n", number, broken.condition, broken.state);
 *         printf("%u\n", blenkysnow_check(table, sizeof table - 1, &broken));
 *         return 0;
 *     }
 *
 * It prints:
 *
 *     0
 *     4: condition 4 at state 0
 *     2
 */
uint32_t blenkysnow_check(const uint8_t *table, size_t table_bytes, struct blenkysnow_broken *broken);

/* ---- The tree ---- */

/*
 * A tree is a row of words. Word 0: the count n of nodes. Word 1: the sheet's next number. Then three words a node, children before their
 * parent, left to right: kind (a token's terminal, or 256 + its production), number, size (nodes in the piece, itself included). Node i is
 * at words 2 + 3i to 4 + 3i; the root is the last. The last child of node i is node i - 1; the child before child j is node j - size of j;
 * and so on, while within the size of i.
 */
#define BLENKYSNOW_MOST_NODES 2048
#define BLENKYSNOW_MOST_TOKENS 2048

/* The words of a tree of n nodes. */
#define BLENKYSNOW_WORDS_OF(n) (2 + 3 * (size_t)(n))

/* What a row to be written needs, whatever the text; what the working room needs. */
#define BLENKYSNOW_TREE_WORDS 6146
#define BLENKYSNOW_ROOM_WORDS 16384

/* What an accepted call counts, and the place of refusal 7. A refusal has five zero counts, any answer but 7 the place 0. */
struct blenkysnow_told {
    uint32_t place; /* tokens shifted before the error */
    uint32_t left_breaks;
    uint32_t right_breaks;
    uint32_t whole_shifts;
    uint32_t token_shifts;
    uint32_t reductions;
};

/* ---- Reading afresh ---- */

/*
 * A text read afresh into a tree. Answers 0, and the tree is written: its 2 + 3n words and no more; or a refusal, and the tree to write is
 * as it was lent. Refusals: 1, 2, 3, 4, 6, 7, 8, 9, judged in that order (7 and 8 as the reading meets them).
 *
 * table, table_bytes: as for the check.
 * codes, code_count: the text, a terminal a token, 1 to T - 1; at most 2,048.
 * first: the first number, at least 1. Nodes are numbered upward from it in their written order.
 * tree, tree_words: the row to write, BLENKYSNOW_TREE_WORDS or more.
 * room, room_words: BLENKYSNOW_ROOM_WORDS or more, of any contents. After refusal 1 as lent, else its first 16,384 words are 0.
 * told: written in every case.
 *
 * Example:
 *
 *     #include <stdio.h>
 *     #include "blenkysnow.h"
 *
 *     static uint32_t tree[BLENKYSNOW_TREE_WORDS], room[BLENKYSNOW_ROOM_WORDS];
 *
 *     int main(void)
 *     {
 *         uint8_t table[BLENKYSNOW_HOUSE_BYTES];
 *         uint32_t codes[] = {1, 3}; // m ]
 *         struct blenkysnow_told told;
 *
 *         blenkysnow_house(table);
 *         uint32_t number = blenkysnow_read_afresh(table, sizeof table, codes, 1, 1, tree, BLENKYSNOW_TREE_WORDS,
 *                                                  room, BLENKYSNOW_ROOM_WORDS, &told);
 *         printf("%u: %u nodes, next number %u, %u reductions\n", number, tree[0], tree[1], told.reductions);
 *         for (uint32_t i = 0; i < tree[0]; i++)
 *             printf("%u %u %u\n", tree[2 + 3 * i], tree[3 + 3 * i], tree[4 + 3 * i]);
 *         number = blenkysnow_read_afresh(table, sizeof table, codes, 2, 1, tree, BLENKYSNOW_TREE_WORDS,
 *                                         room, BLENKYSNOW_ROOM_WORDS, &told);
 *         printf("%u at %u\n", number, told.place);
 *         return 0;
 *     }
 *
 * It prints:
 *
 *     0: 4 nodes, next number 5, 3 reductions
 *     257 1 1
 *     1 2 1
 *     259 3 2
 *     258 4 4
 *     7 at 1
 */
uint32_t blenkysnow_read_afresh(const uint8_t *table, size_t table_bytes, const uint32_t *codes, size_t code_count, uint32_t first,
                                uint32_t *tree, size_t tree_words, uint32_t *room, size_t room_words, struct blenkysnow_told *told);

/* ---- Updating ---- */

/* One edit: at a place of the old text, counted in tokens from 0, so many are removed and so many put in. */
struct blenkysnow_edit {
    uint32_t place;
    uint32_t removed;
    uint32_t put_in;
};

/*
 * A tree updated after edits. Answers 0, and the new tree is written to `tree`; or a refusal, and `tree` is as it was lent. Refusals: 1 to 9
 * in that order (7 and 8 as the reading meets them; 9 last). A piece that has tokens and stood whole in the old tree, down to the same
 * tokens, keeps all its numbers; every other node gets a number not handed out before.
 *
 * table, table_bytes: as for the check; the table with which the old tree was read.
 * old, old_words: the old tree as a call wrote it. Words behind its 2 + 3n are not looked at.
 * edits, edit_words: three words an edit, as in struct blenkysnow_edit; a part of an edit at the end is refusal 6. Places rise: none lies
 *     below the place before it plus that edit's removals.
 * put, put_count: the codes put in, in the order of the edits, together as many as they say.
 * tree, tree_words: the row to write, BLENKYSNOW_TREE_WORDS or more; another row than `old`.
 * room, room_words, told: as for reading afresh.
 *
 * Example:
 *
 *     #include <stdio.h>
 *     #include "blenkysnow.h"
 *
 *     static uint32_t old[BLENKYSNOW_TREE_WORDS], new[BLENKYSNOW_TREE_WORDS], room[BLENKYSNOW_ROOM_WORDS];
 *
 *     int main(void)
 *     {
 *         uint8_t table[BLENKYSNOW_HOUSE_BYTES];
 *         uint32_t codes[] = {1, 1}; // m m
 *         uint32_t edits[] = {1, 1, 0}; // at 1, 1 token removed, 0 put in
 *         struct blenkysnow_told told;
 *
 *         blenkysnow_house(table);
 *         uint32_t number = blenkysnow_read_afresh(table, sizeof table, codes, 2, 1, old, BLENKYSNOW_TREE_WORDS,
 *                                                  room, BLENKYSNOW_ROOM_WORDS, &told);
 *         printf("%u: %u nodes, next number %u\n", number, old[0], old[1]);
 *         number = blenkysnow_update(table, sizeof table, old, BLENKYSNOW_TREE_WORDS, edits, 3, codes, 0,
 *                                    new, BLENKYSNOW_TREE_WORDS, room, BLENKYSNOW_ROOM_WORDS, &told);
 *         printf("%u: %u nodes, next number %u\n", number, new[0], new[1]);
 *         for (uint32_t i = 0; i < new[0]; i++)
 *             printf("%u %u %u\n", new[2 + 3 * i], new[3 + 3 * i], new[4 + 3 * i]);
 *         return 0;
 *     }
 *
 * It prints:
 *
 *     0: 7 nodes, next number 8
 *     0: 4 nodes, next number 8
 *     257 1 1
 *     1 2 1
 *     259 3 2
 *     258 4 4
 */
uint32_t blenkysnow_update(const uint8_t *table, size_t table_bytes, const uint32_t *old, size_t old_words, const uint32_t *edits,
                           size_t edit_words, const uint32_t *put, size_t put_count, uint32_t *tree, size_t tree_words, uint32_t *room,
                           size_t room_words, struct blenkysnow_told *told);

/*
 * The same call over an array of edits. Refusals, rows and answer are those of blenkysnow_update; edit_count is in edits, so no part of an
 * edit can stand at the end.
 *
 * Example:
 *
 *     #include <stdio.h>
 *     #include "blenkysnow.h"
 *
 *     static uint32_t old[BLENKYSNOW_TREE_WORDS], new[BLENKYSNOW_TREE_WORDS], room[BLENKYSNOW_ROOM_WORDS];
 *
 *     int main(void)
 *     {
 *         uint8_t table[BLENKYSNOW_HOUSE_BYTES];
 *         uint32_t codes[] = {1, 2, 3}; // m [ ]
 *         uint32_t put[] = {1, 1};
 *         struct blenkysnow_edit edits[] = {{0, 1, 1}, {2, 0, 1}}; // the m replaced, an m put into the group
 *         struct blenkysnow_told told;
 *
 *         blenkysnow_house(table);
 *         blenkysnow_read_afresh(table, sizeof table, codes, 3, 1, old, BLENKYSNOW_TREE_WORDS,
 *                                room, BLENKYSNOW_ROOM_WORDS, &told);
 *         uint32_t number = blenkysnow_update_edits(table, sizeof table, old, BLENKYSNOW_TREE_WORDS, edits, 2, put, 2,
 *                                                   new, BLENKYSNOW_TREE_WORDS, room, BLENKYSNOW_ROOM_WORDS, &told);
 *         printf("%u: %u nodes, next number %u, was %u\n", number, new[0], new[1], old[1]);
 *         printf("%u token shifts, %u reductions\n", told.token_shifts, told.reductions);
 *         return 0;
 *     }
 *
 * It prints:
 *
 *     0: 12 nodes, next number 20, was 10
 *     4 token shifts, 8 reductions
 */
uint32_t blenkysnow_update_edits(const uint8_t *table, size_t table_bytes, const uint32_t *old, size_t old_words,
                                 const struct blenkysnow_edit *edits, size_t edit_count, const uint32_t *put, size_t put_count,
                                 uint32_t *tree, size_t tree_words, uint32_t *room, size_t room_words, struct blenkysnow_told *told);

/* ---- Numbers of refusal ---- */

/* In the order in which they are judged, but that 9 comes last. docs/USERS.md says what to do about each. */
enum {
    BLENKYSNOW_ACCEPTED = 0,
    BLENKYSNOW_SMALL = 1,     /* tree to write below 6,146 words or room below 16,384 */
    BLENKYSNOW_LAYOUT = 2,    /* table layout or range wrong */
    BLENKYSNOW_GRAMMAR = 3,   /* a grammar rule broken */
    BLENKYSNOW_STATES = 4,    /* a state condition broken */
    BLENKYSNOW_OLD_TREE = 5,  /* old tree not in order */
    BLENKYSNOW_TEXT = 6,      /* codes, first number or edits break their rules */
    BLENKYSNOW_NO_ACTION = 7, /* the text is none of the grammar's; `place` tokens of it were shifted */
    BLENKYSNOW_NO_ROOM = 8,   /* the tree would have more than 2,048 nodes */
    BLENKYSNOW_NO_NUMBER = 9, /* the numbers run out at 4,294,967,295 */
    BLENKYSNOW_NO_GOTO = 10   /* never answered: a table that is taken gives no cause for it */
};

/* ---- The house grammar ---- */

/*
 * Writes the house table: terminals end, m (1), [ (2), ] (3); productions 1 List: nothing, 2 List: List Entry, 3 Entry: m,
 * 4 Entry: [ List ]. No refusals.
 *
 * table: BLENKYSNOW_HOUSE_BYTES bytes, all of them written.
 *
 * Example:
 *
 *     #include <stdio.h>
 *     #include "blenkysnow.h"
 *
 *     int main(void)
 *     {
 *         uint8_t table[BLENKYSNOW_HOUSE_BYTES];
 *
 *         blenkysnow_house(table);
 *         printf("%c%c%c: %u terminals, %u states\n", table[0], table[1], table[2], table[5], table[8]);
 *         return 0;
 *     }
 *
 * It prints:
 *
 *     LRT: 4 terminals, 7 states
 */
void blenkysnow_house(uint8_t table[BLENKYSNOW_HOUSE_BYTES]);

#ifdef __cplusplus
}
#endif

#endif
