/* Nukasobe: dlmalloc over one arena of 16 to 8,192 words of 8 bytes (an even number).
 *
 * The caller keeps two things: the record, 72 words, and the arena. Places are byte offsets from the arena's start; none is
 * 2^64 - 1. No call keeps an address, so both may be moved between calls. The record, the arena and `out` must not overlap,
 * and each must have as many words as is said. Their contents may be anything at all: each call checks them first.
 *
 * Every call returns the number of its refusal, 0 for a grant or a "done", and writes two words to `out`: that number, and
 * the value told below (0 where none is told; for refusal 5 the offset that was asked about). A refused call changes
 * neither the record nor the arena. A record of another length than 72 words or an `out` below 2 is answered with 2, and
 * then nothing at all is written. */
#ifndef NUKASOBE_H
#define NUKASOBE_H

#include <stddef.h>
#include <stdint.h>

#ifdef __cplusplus
extern "C" {
#endif

/* The words of the record: smallmap, treemap, dv, dvsize, top, topsize, length, a word that is 0, 32 small bins' newest
 * chunks, 32 tree bins' roots. */
#define NUKA_RECORD_WORDS 72
#define NUKA_OUT_WORDS 2
#define NUKA_NONE UINT64_MAX

/* When the library says no, in the order in which it asks. */
enum nuka_refusal {
    NUKA_OK = 0,
    NUKA_WORD_COUNT = 1, /* the arena's word count is odd, below 16 or above 8,192; rebuild: or the start is not 0 */
    NUKA_NOT_SOUND = 2,  /* record and arena are not sound, or not a pair; rebuild: the words are no sound arena's */
    NUKA_ALIGNMENT = 3,  /* memalign: the alignment is none of 32, 64, .. 4,096 */
    NUKA_TOO_MANY = 4,   /* more bytes than the arena has */
    NUKA_NOT_LIVE = 5,   /* no live block starts at the offset */
    NUKA_NO_ROOM = 6,    /* nothing that is free is large enough */
    NUKA_LISTS = 8,      /* batch: the calls are no multiple of three words, or the answers have too few */
    NUKA_UNKNOWN = 9     /* in a batch's answers: a call of an unknown kind */
};

/* Makes a fresh heap of the whole arena: writes the record and two words of the arena. Knows only refusal 1, and then
 * writes the empty record (every place none, every other number 0), with which every call is refused. */
uint64_t nuka_setup(uint64_t *rec, size_t rec_words, uint64_t *arena, size_t words, uint64_t *out, size_t out_words);

/* The record is lost: makes a new one from the arena's words and `start`, its address modulo 4,096 (0 is the one start that
 * set-up knows). The lent record is written, not read. Granted exactly when heads, flags, the sizes behind free chunks and
 * the foot word are those of a sound arena: free chunks go into their bins from the lowest up, no spare chunk is kept, live
 * blocks keep their place and words. Refused with 2, or with 1 for a word count or a start that set-up refuses, it writes the
 * empty record, as set-up does, and no word of the arena. */
uint64_t nuka_rebuild(uint64_t *rec, size_t rec_words, uint64_t *arena, size_t words, uint64_t *out, size_t out_words,
                      uint64_t start);

/* A block of at least so many bytes, aligned to 16; the value is its offset. Refusals 1, 2, 4, 6. */
uint64_t nuka_malloc(uint64_t *rec, size_t rec_words, uint64_t *arena, size_t words, uint64_t *out, size_t out_words,
                     uint64_t bytes);

/* Takes the block at the offset back. Refusals 1, 2, 5. */
uint64_t nuka_free(uint64_t *rec, size_t rec_words, uint64_t *arena, size_t words, uint64_t *out, size_t out_words,
                   uint64_t offset);

/* Makes the block at the offset so many bytes long, in its place where that can be, else elsewhere; its words go with it.
 * The value is its offset now. Refused, the block stays as it was. Refusals 1, 2, 4, 5, 6. */
uint64_t nuka_realloc(uint64_t *rec, size_t rec_words, uint64_t *arena, size_t words, uint64_t *out, size_t out_words,
                      uint64_t offset, uint64_t bytes);

/* A block whose offset is a multiple of the alignment, one of 32, 64, .. 4,096; the value is its offset.
 * Refusals 1, 2, 3, 4, 6. */
uint64_t nuka_memalign(uint64_t *rec, size_t rec_words, uint64_t *arena, size_t words, uint64_t *out, size_t out_words,
                       uint64_t alignment, uint64_t bytes);

/* The value is how many bytes the owner of the block at the offset has, from the offset on; always whole words.
 * Changes nothing. Refusals 1, 2, 5. */
uint64_t nuka_usable(const uint64_t *rec, size_t rec_words, const uint64_t *arena, size_t words, uint64_t *out,
                     size_t out_words, uint64_t offset);

/* The kinds of a batch's calls. */
enum nuka_kind { NUKA_MALLOC = 0, NUKA_FREE = 1, NUKA_REALLOC = 2, NUKA_MEMALIGN = 3 };

/* One check for a whole list of calls, which are then made one after the other: answers, record and arena are those of
 * the same calls made one at a time. A call is three words: its kind, then the numbers of the call of that name, a lone one
 * first; a number that a kind doesn't use is ignored. An answer is two words: the refusal's number, and the offset of a
 * granted block, else 0. An unknown kind is answered with 9 and the batch goes on. Words behind the last answer stay. The
 * value is the number of answers. The lists overlap nothing. Refusals of the whole: 1, 2, 8; then nothing is answered. */
uint64_t nuka_batch(uint64_t *rec, size_t rec_words, uint64_t *arena, size_t words, uint64_t *out, size_t out_words,
                    const uint64_t *calls, size_t call_words, uint64_t *answers, size_t answer_words);

/* 0 when record and arena are sound, else 1 or 2: the refusal that every call would give. Changes nothing. */
uint64_t nuka_sound(const uint64_t *rec, size_t rec_words, const uint64_t *arena, size_t words);

#ifdef __cplusplus
}
#endif

#endif
