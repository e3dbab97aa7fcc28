/* Written by tools/c/narrow from include/range_set.h. */
/* The text of a set of int32_t with single values. i32.h includes this. */
#ifndef RANGE_SET_I32_TEXT_H
#define RANGE_SET_I32_TEXT_H

/* Puts the text of a run on a page. If `brief`, that of a single value is one number. */
RSB_INLINE void rsb_private_i32_put_run(rsb_private_page *page, rsb_i32_run run, bool brief) {
    if (page->length > 0) {
        rsb_private_put(page, ", ");
    }
    rsb_private_put_i32(page, run.first);
    if (!brief || run.last != run.first) {
        rsb_private_put(page, "..=");
        rsb_private_put_i32(page, run.last);
    }
}

/* Puts the text of a set on an empty page. */
RSB_INLINE void rsb_private_i32_put_set(rsb_private_page *page, const rsb_i32 *set, bool brief) {
    enum { MOST = 16 };
    rsb_i32_run runs[MOST];
    size_t stored = rsb_i32_runs_in(set, INT32_MIN, INT32_MAX, runs, MOST);
    while (stored > 0) {
        for (size_t i = 0; i < stored; i++) {
            rsb_private_i32_put_run(page, runs[i], brief);
        }
        rsb_i32_run run = runs[stored - 1];
        if (stored < MOST || run.last == INT32_MAX) {
            return;
        }
        stored = rsb_i32_runs_in(set, run.last + 1, INT32_MAX, runs, MOST);
    }
}

/* Writes the text of a set to a buffer, if it fits. */
RSB_NODISCARD RSB_INLINE uint32_t rsb_private_i32_write(
    const rsb_i32 *set, char *buffer, size_t capacity, size_t *length, bool brief) {
    rsb_private_page page = {buffer, 0, 0};
    rsb_private_i32_put_set(&page, set, brief);
    *length = page.length;
    if (page.length > capacity) {
        return RSB_NO_ROOM;
    }
    page.capacity = capacity;
    page.length = 0;
    rsb_private_i32_put_set(&page, set, brief);
    return RSB_CHANGED;
}

/* Writes the text of a set, such as 22, 80, 8000..=8100, as rsb_i32_to_text does, but a run of one
   value as one number. rsb_i32_from_text reads it as the same set. Does not allocate, so it returns
   RSB_CHANGED or RSB_NO_ROOM. Takes two walks over the runs. */
RSB_NODISCARD RSB_INLINE uint32_t rsb_i32_to_short_text(
    const rsb_i32 *set, char *buffer, size_t capacity, size_t *length) {
    return rsb_private_i32_write(set, buffer, capacity, length, true);
}

#endif
