// The exported functions of an unproved build: inside a program a slice is passed as the address of a pointer and a length.
typedef unsigned long number;

struct slice {
    const number *at;
    number count;
};

number setup(struct slice *, struct slice *, struct slice *) __asm__("abi::nuka_setup");
number rebuild(struct slice *, struct slice *, struct slice *, number) __asm__("abi::nuka_rebuild");
number take(struct slice *, struct slice *, struct slice *, number) __asm__("abi::nuka_malloc");
number give(struct slice *, struct slice *, struct slice *, number) __asm__("abi::nuka_free");
number resize(struct slice *, struct slice *, struct slice *, number, number) __asm__("abi::nuka_realloc");
number align(struct slice *, struct slice *, struct slice *, number, number) __asm__("abi::nuka_memalign");
number usable(struct slice *, struct slice *, struct slice *, number) __asm__("abi::nuka_usable");
number batch(struct slice *, struct slice *, struct slice *, struct slice *, struct slice *) __asm__("abi::nuka_batch");
number sound(struct slice *, struct slice *) __asm__("abi::nuka_sound");

#define LENT number *rec, number rec_words, number *arena, number words, number *out, number out_words
#define SLICES struct slice r = {rec, rec_words}, a = {arena, words}, o = {out, out_words}

number nuka_setup(LENT) {
    SLICES;
    return setup(&r, &a, &o);
}

number nuka_rebuild(LENT, number start) {
    SLICES;
    return rebuild(&r, &a, &o, start);
}

number nuka_malloc(LENT, number bytes) {
    SLICES;
    return take(&r, &a, &o, bytes);
}

number nuka_free(LENT, number offset) {
    SLICES;
    return give(&r, &a, &o, offset);
}

number nuka_realloc(LENT, number offset, number bytes) {
    SLICES;
    return resize(&r, &a, &o, offset, bytes);
}

number nuka_memalign(LENT, number alignment, number bytes) {
    SLICES;
    return align(&r, &a, &o, alignment, bytes);
}

number nuka_usable(LENT, number offset) {
    SLICES;
    return usable(&r, &a, &o, offset);
}

number nuka_batch(LENT, const number *calls, number call_words, number *answers, number answer_words) {
    SLICES, c = {calls, call_words}, n = {answers, answer_words};
    return batch(&r, &a, &o, &c, &n);
}

number nuka_sound(const number *rec, number rec_words, const number *arena, number words) {
    struct slice r = {rec, rec_words}, a = {arena, words};
    return sound(&r, &a);
}
