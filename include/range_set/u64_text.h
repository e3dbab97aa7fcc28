/* The text of a set of uint64_t with single values. range_set.h includes this. */
#ifndef RANGE_SET_U64_TEXT_H
#define RANGE_SET_U64_TEXT_H

/* Puts the text of a run on a page. If `brief`, that of a single value is one number. */
RSB_INLINE void rsb_private_u64_put_run(rsb_private_page *page, rsb_u64_run run, bool brief) {
    if (page->length > 0) {
        rsb_private_put(page, ", ");
    }
    rsb_private_put_u64(page, run.first);
    if (!brief || run.last != run.first) {
        rsb_private_put(page, "..=");
        rsb_private_put_u64(page, run.last);
    }
}

/* Puts the text of a set on an empty page. */
RSB_INLINE void rsb_private_u64_put_set(rsb_private_page *page, const rsb_u64 *set, bool brief) {
    enum { MOST = 16 };
    rsb_u64_run runs[MOST];
    size_t stored = rsb_u64_runs_in(set, 0, UINT64_MAX, runs, MOST);
    while (stored > 0) {
        for (size_t i = 0; i < stored; i++) {
            rsb_private_u64_put_run(page, runs[i], brief);
        }
        rsb_u64_run run = runs[stored - 1];
        if (stored < MOST || run.last == UINT64_MAX) {
            return;
        }
        stored = rsb_u64_runs_in(set, run.last + 1, UINT64_MAX, runs, MOST);
    }
}

/* Writes the text of a set to a buffer, if it fits. */
RSB_NODISCARD RSB_INLINE uint32_t rsb_private_u64_write(
    const rsb_u64 *set, char *buffer, size_t capacity, size_t *length, bool brief) {
    rsb_private_page page = {buffer, 0, 0};
    rsb_private_u64_put_set(&page, set, brief);
    *length = page.length;
    if (page.length > capacity) {
        return RSB_NO_ROOM;
    }
    page.capacity = capacity;
    page.length = 0;
    rsb_private_u64_put_set(&page, set, brief);
    return RSB_CHANGED;
}

/* Writes the text of a set, such as 22, 80, 8000..=8100, as rsb_u64_to_text does, but a run of one
   value as one number. rsb_u64_from_text reads it as the same set. Does not allocate, so it returns
   RSB_CHANGED or RSB_NO_ROOM. Takes two walks over the runs. */
RSB_NODISCARD RSB_INLINE uint32_t rsb_u64_to_short_text(
    const rsb_u64 *set, char *buffer, size_t capacity, size_t *length) {
    return rsb_private_u64_write(set, buffer, capacity, length, true);
}

#endif
