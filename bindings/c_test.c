/* Document 01's morning, a few refusals, an owner's words and a rebuild, from C. Says how many of its checks fail. */
#include "nukasobe.h"
#include <stdio.h>
#include <string.h>

static uint64_t rec[NUKA_RECORD_WORDS], arena[128], out[NUKA_OUT_WORDS];
static int checks, failed;

#define LENT rec, NUKA_RECORD_WORDS, arena, 128, out, NUKA_OUT_WORDS

/* What a call returned and wrote. */
static void check(const char *what, uint64_t returned, uint64_t number, uint64_t value) {
    checks++;
    if (returned == number && out[0] == number && out[1] == value) return;
    failed++;
    printf("%s: %llu (%llu, %llu)\n", what, (unsigned long long)returned, (unsigned long long)out[0],
           (unsigned long long)out[1]);
}

static void check_number(const char *what, uint64_t got, uint64_t expected) {
    checks++;
    if (got == expected) return;
    failed++;
    printf("%s: %llu\n", what, (unsigned long long)got);
}

int main(void) {
    uint64_t fresh[NUKA_RECORD_WORDS], before[128];
    check("setup", nuka_setup(LENT), NUKA_OK, 0);
    memcpy(fresh, rec, sizeof rec);
    check("malloc 24", nuka_malloc(LENT, 24), NUKA_OK, 16);
    check("malloc 25", nuka_malloc(LENT, 25), NUKA_OK, 48);
    check("malloc 232", nuka_malloc(LENT, 232), NUKA_OK, 96);
    check("malloc 233", nuka_malloc(LENT, 233), NUKA_OK, 336);
    check("usable 16", nuka_usable(LENT, 16), NUKA_OK, 24);
    arena[2] = 7, arena[3] = 8, arena[4] = 9;
    check("realloc 16", nuka_realloc(LENT, 16, 100), NUKA_OK, 592);
    check_number("first word", arena[74], 7);
    check_number("third word", arena[76], 9);
    check("memalign", nuka_memalign(LENT, 64, 24), NUKA_OK, 704);
    check_number("sound", nuka_sound(rec, NUKA_RECORD_WORDS, arena, 128), NUKA_OK);

    memcpy(before, arena, sizeof arena);
    check("not live", nuka_free(LENT, 16), NUKA_NOT_LIVE, 16);
    check("too many", nuka_malloc(LENT, 1025), NUKA_TOO_MANY, 0);
    check("no room", nuka_malloc(LENT, 1024), NUKA_NO_ROOM, 0);
    check("alignment", nuka_memalign(LENT, 16, 24), NUKA_ALIGNMENT, 0);
    check("word count", nuka_malloc(rec, NUKA_RECORD_WORDS, arena, 127, out, NUKA_OUT_WORDS, 1), NUKA_WORD_COUNT, 0);
    check("not sound", nuka_malloc(rec, NUKA_RECORD_WORDS, arena, 126, out, NUKA_OUT_WORDS, 1), NUKA_NOT_SOUND, 0);
    check_number("short record", nuka_malloc(rec, 71, arena, 128, out, NUKA_OUT_WORDS, 1), NUKA_NOT_SOUND);
    check_number("short out", nuka_malloc(rec, NUKA_RECORD_WORDS, arena, 128, out, 1, 1), NUKA_NOT_SOUND);
    check_number("unchanged", memcmp(before, arena, sizeof arena) != 0, 0);

    uint64_t calls[] = {NUKA_MALLOC, 24, 77, NUKA_FREE, 16, 77, 4, 0, 0, NUKA_REALLOC, 704, 40, NUKA_FREE, 720, 0,
                        NUKA_MEMALIGN, 64, 1};
    uint64_t answers[13], one[NUKA_RECORD_WORDS];
    memset(answers, 255, sizeof answers);
    memcpy(one, rec, sizeof rec);
    check("batch, odd list", nuka_batch(LENT, calls, 17, answers, 13), NUKA_LISTS, 0);
    check("batch, few answers", nuka_batch(LENT, calls, 18, answers, 11), NUKA_LISTS, 0);
    check("batch, not sound", nuka_batch(rec, NUKA_RECORD_WORDS, arena, 126, out, NUKA_OUT_WORDS, calls, 17, answers, 13),
          NUKA_NOT_SOUND, 0);
    check("batch, word count", nuka_batch(rec, NUKA_RECORD_WORDS, arena, 127, out, NUKA_OUT_WORDS, calls, 17, answers, 13),
          NUKA_WORD_COUNT, 0);
    check_number("batch, unchanged", memcmp(before, arena, sizeof arena) || memcmp(one, rec, sizeof rec), 0);
    check_number("batch, unanswered", answers[0], NUKA_NONE);
    check("batch", nuka_batch(LENT, calls, 18, answers, 13), NUKA_OK, 6);
    uint64_t expected[13] = {0, 16, 0, 0, NUKA_UNKNOWN, 0, 0, 704, NUKA_NOT_LIVE, 0, 0, 832, NUKA_NONE};
    check_number("batch, answers", memcmp(answers, expected, sizeof answers) != 0, 0);
    check("free 832", nuka_free(LENT, 832), NUKA_OK, 0);

    memcpy(before, arena, sizeof arena);
    memset(rec, 0x5a, sizeof rec);
    check("rebuild refused", nuka_rebuild(LENT, 16), NUKA_WORD_COUNT, 0);
    check_number("the empty record", rec[4], NUKA_NONE);
    arena[1] ^= 4;
    check("not an arena", nuka_rebuild(LENT, 0), NUKA_NOT_SOUND, 0);
    arena[1] ^= 4;
    check_number("unchanged by them", memcmp(before, arena, sizeof arena) != 0, 0);
    memset(rec, 0x5a, sizeof rec);
    check("rebuild", nuka_rebuild(LENT, 0), NUKA_OK, 0);
    check_number("sound again", nuka_sound(rec, NUKA_RECORD_WORDS, arena, 128), NUKA_OK);
    check_number("no spare chunk", rec[2], NUKA_NONE);
    check("still live", nuka_usable(LENT, 592), NUKA_OK, 104);
    check_number("its first word", arena[74], 7);

    check("free 704", nuka_free(LENT, 704), NUKA_OK, 0);
    check("free 592", nuka_free(LENT, 592), NUKA_OK, 0);
    check("free 336", nuka_free(LENT, 336), NUKA_OK, 0);
    check("free 96", nuka_free(LENT, 96), NUKA_OK, 0);
    check("free 48", nuka_free(LENT, 48), NUKA_OK, 0);
    check_number("fresh again", memcmp(fresh, rec, sizeof rec) != 0, 0);

    check("setup refused", nuka_setup(rec, NUKA_RECORD_WORDS, arena, 14, out, NUKA_OUT_WORDS), NUKA_WORD_COUNT, 0);
    check_number("empty record's top", rec[4], NUKA_NONE);
    check("then", nuka_malloc(LENT, 1), NUKA_NOT_SOUND, 0);
    printf("%d checks, %d failed\n", checks, failed);
    return failed != 0;
}
