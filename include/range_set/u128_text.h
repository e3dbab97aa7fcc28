/* Written by tools/c/narrow from include/range_set/u64_text.h. */
/* The text of a set of rsb_u128_value with single values. range_set.h includes this. */
#ifndef RANGE_SET_U128_TEXT_H
#define RANGE_SET_U128_TEXT_H

/* Puts the text of a run on a page. If `brief`, that of a single value is one number. */
RSB_INLINE void rsb_private_u128_put_run(rsb_private_page *page, rsb_u128_run run, bool brief) {
    if (page->length > 0) {
        rsb_private_put(page, ", ");
    }
    rsb_private_put_u128(page, run.first);
    if (!brief || !(rsb_u128_compare(run.last, run.first) == 0)) {
        rsb_private_put(page, "..=");
        rsb_private_put_u128(page, run.last);
    }
}

/* Puts the text of a set on an empty page. */
RSB_INLINE void rsb_private_u128_put_set(rsb_private_page *page, const rsb_u128 *set, bool brief) {
    enum { MOST = 16 };
    rsb_u128_run runs[MOST];
    size_t stored = rsb_u128_runs_in(set, RSB_U128(0, 0), RSB_U128_MAX, runs, MOST);
    while (stored > 0) {
        for (size_t i = 0; i < stored; i++) {
            rsb_private_u128_put_run(page, runs[i], brief);
        }
        rsb_u128_run run = runs[stored - 1];
        if (stored < MOST || rsb_u128_compare(run.last, RSB_U128_MAX) == 0) {
            return;
        }
        stored = rsb_u128_runs_in(set, rsb_u128_next(run.last), RSB_U128_MAX, runs, MOST);
    }
}

/* Writes the text of a set to a buffer, if it fits. */
RSB_NODISCARD RSB_INLINE uint32_t rsb_private_u128_write(
    const rsb_u128 *set, char *buffer, size_t capacity, size_t *length, bool brief) {
    rsb_private_page page = {buffer, 0, 0};
    rsb_private_u128_put_set(&page, set, brief);
    *length = page.length;
    if (page.length > capacity) {
        return RSB_NO_ROOM;
    }
    page.capacity = capacity;
    page.length = 0;
    rsb_private_u128_put_set(&page, set, brief);
    return RSB_CHANGED;
}

/* Writes the text of a set, such as 22, 80, 8000..=8100, as rsb_u128_to_text does, but a run of one
   value as one number. rsb_u128_from_text reads it as the same set. Does not allocate, so it returns
   RSB_CHANGED or RSB_NO_ROOM. Takes two walks over the runs. */
RSB_NODISCARD RSB_INLINE uint32_t rsb_u128_to_short_text(
    const rsb_u128 *set, char *buffer, size_t capacity, size_t *length) {
    return rsb_private_u128_write(set, buffer, capacity, length, true);
}

#endif
