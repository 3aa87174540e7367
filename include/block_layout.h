/*
 * The entries of the MDF4 block layout, for C and C++: link libblock_layout_c.a (x86-64).
 *
 * A lent table or the recording is passed as a pointer and the number of its words or bytes. No pointer may be null, not even one
 * with the number 0, each must be aligned for its words, and nothing lent may overlap anything else that is passed.
 * An entry reads the recording and writes the tables, the output, path or counts, and the answer only, whatever the recording holds. The
 * blanker alone writes the recording too, and only where it accepts.
 *
 * Rows: a word of the visited table; 14 words of the block table (offset, end, size, mark, kind, index, first link, link count,
 * record size, invalidation bytes, record id length, tree mark; then which link the walk followed when it listed the row: the offset of
 * the block that has it, and its position from 0 among those shown; 0 and 0 for the ID and the header); 2 words of the link table
 * (target, then 0 or 1 + the mark found there); 2 words of the gap table (start, end); a word of a path or of the preview's counts. Words
 * and bytes not in use are 0, and a refusal leaves every table, the output, the path and the counts 0.
 */
#ifndef BLOCK_LAYOUT_H
#define BLOCK_LAYOUT_H

#include <stddef.h>
#include <stdint.h>

#ifdef __cplusplus
extern "C" {
#endif

/*
 * The words of an answer. An `answer` with fewer words takes those that fit; words behind the tenth are left as they were.
 * A refusal has its number (1 to 7 or 9 to 16), place, a and b, then six zeros. Only clear list, blanker and preview answer 16.
 */
enum {
    BLOCK_LAYOUT_NUMBER = 0, /* 0: accepted */
    BLOCK_LAYOUT_PLACE = 1,
    BLOCK_LAYOUT_A = 2,
    BLOCK_LAYOUT_B = 3,
    BLOCK_LAYOUT_VISITED = 4, /* rows in use of each table */
    BLOCK_LAYOUT_BLOCKS = 5,
    BLOCK_LAYOUT_LINKS = 6,
    BLOCK_LAYOUT_GAPS = 7,
    BLOCK_LAYOUT_BYTES = 8, /* bytes in use of the output; words of the path; the number of the preview's counts */
    BLOCK_LAYOUT_TOTAL = 9, /* of the preview, the sum of its counts; else 0 */
    BLOCK_LAYOUT_ANSWER_WORDS = 10
};

/* The layout: blocks by offset, links in the order of the walk, gaps. No output: its bytes are 0. */
void block_layout_c_layout(const uint8_t *data, size_t data_len,
                           uint64_t *visited, size_t visited_len,
                           uint64_t *blocks, size_t blocks_len,
                           uint64_t *links, size_t links_len,
                           uint64_t *gaps, size_t gaps_len,
                           uint64_t *answer, size_t answer_len);

/* The listing: its text in `out`. */
void block_layout_c_text(const uint8_t *data, size_t data_len,
                         uint64_t *visited, size_t visited_len,
                         uint64_t *blocks, size_t blocks_len,
                         uint64_t *links, size_t links_len,
                         uint64_t *gaps, size_t gaps_len,
                         uint8_t *out, size_t out_len,
                         uint64_t *answer, size_t answer_len);

/* The tree: its text in `out`, and the tree mark 1 in each block row that was printed. */
void block_layout_c_tree(const uint8_t *data, size_t data_len,
                         uint64_t *visited, size_t visited_len,
                         uint64_t *blocks, size_t blocks_len,
                         uint64_t *links, size_t links_len,
                         uint64_t *gaps, size_t gaps_len,
                         uint8_t *out, size_t out_len,
                         uint64_t *answer, size_t answer_len);

/*
 * The path to the listed block at `offset`: the offsets from the header (64) to it, both included, a word each in `path`, along the
 * links that the walk followed. None for the ID (0) and for an offset that no row has. A path table too short is refusal 13, after the
 * gap table's: a the words lent, b the words needed. As many words as there are block rows suffice for any path.
 */
void block_layout_c_path(const uint8_t *data, size_t data_len,
                         uint64_t *visited, size_t visited_len,
                         uint64_t *blocks, size_t blocks_len,
                         uint64_t *links, size_t links_len,
                         uint64_t *gaps, size_t gaps_len,
                         uint64_t *path, size_t path_len,
                         uint64_t offset,
                         uint64_t *answer, size_t answer_len);

/*
 * The clear list, in `out`. A recording that is not finalised, whose u16 at byte 60 or u16 at byte 62 is not 0, is refused: 16, place
 * 60, a and b the two words; after the walk, before the gap table's 13. `scratch` takes rows of 2 words: one for each listed block and
 * for each channel name that is read, two for each link whose target is not 0, has a mark that starts with ## and 24 bytes inside the
 * recording, and one for each other nonzero link with four bytes inside. Twice as many as block and link rows together suffice. It ends
 * 0 always.
 */
void block_layout_c_clear(const uint8_t *data, size_t data_len,
                          uint64_t *visited, size_t visited_len,
                          uint64_t *blocks, size_t blocks_len,
                          uint64_t *links, size_t links_len,
                          uint64_t *gaps, size_t gaps_len,
                          uint64_t *scratch, size_t scratch_len,
                          uint8_t *out, size_t out_len,
                          uint64_t *answer, size_t answer_len);

/*
 * The blanker: the bytes in the ranges of the clear list become 0 in the recording, and no other byte is changed; a refused call leaves
 * the recording as it was. It refuses as the clear list does, but for 14, and `scratch` is as there: it ends 0. No output: its bytes
 * are 0. Afterwards every entry but the preview answers as it did before.
 */
void block_layout_c_blank(uint8_t *data, size_t data_len,
                          uint64_t *visited, size_t visited_len,
                          uint64_t *blocks, size_t blocks_len,
                          uint64_t *links, size_t links_len,
                          uint64_t *gaps, size_t gaps_len,
                          uint64_t *scratch, size_t scratch_len,
                          uint64_t *answer, size_t answer_len);

/*
 * The preview: for each range of the clear list, in order, how many of its bytes are not 0, so how many the blanker would change; a word
 * of `counts` each, and their sum in the answer. It refuses as the blanker does; too few counts are 13 too, behind the scratch table's:
 * a words lent, b ranges. `scratch` is as for the clear list: it ends 0.
 */
void block_layout_c_preview(const uint8_t *data, size_t data_len,
                            uint64_t *visited, size_t visited_len,
                            uint64_t *blocks, size_t blocks_len,
                            uint64_t *links, size_t links_len,
                            uint64_t *gaps, size_t gaps_len,
                            uint64_t *scratch, size_t scratch_len,
                            uint64_t *counts, size_t counts_len,
                            uint64_t *answer, size_t answer_len);

#ifdef __cplusplus
}
#endif

#endif
