/* Arrays and text of sets of int64_t. i64.h includes this. */
#ifndef RANGE_SET_I64_ARRAYS_H
#define RANGE_SET_I64_ARRAYS_H

RSB_INLINE size_t rsb_i64_runs_in(
    const rsb_i64 *set, int64_t first, int64_t last, rsb_i64_run *runs, size_t count) {
    rsb_u64_run block[16];
    const size_t most = sizeof block / sizeof *block;
    size_t stored = 0;
    while (stored < count) {
        size_t wanted = count - stored < most ? count - stored : most;
        size_t found = rsb_u64_runs_in(
            &set->rsb_private, rsb_private_i64_in(first), rsb_private_i64_in(last), block, wanted);
        for (size_t i = 0; i < found; i++) {
            runs[stored++] = rsb_private_i64_run_out(block[i]);
        }
        if (found < wanted) {
            break;
        }
        rsb_i64_run run = runs[stored - 1];
        if (run.last == last) {
            break;
        }
        first = run.last + 1;
    }
    return stored;
}

/* Moves a set to `out`, or frees it if the call that makes it has failed. */
RSB_NODISCARD RSB_INLINE uint32_t rsb_private_i64_moved(uint32_t status, rsb_i64 *out, rsb_i64 *made) {
    rsb_u64_free(&(status == RSB_CHANGED ? out : made)->rsb_private);
    if (status == RSB_CHANGED) {
        *out = *made;
    }
    return status;
}

RSB_NODISCARD RSB_INLINE uint32_t rsb_i64_from_runs(rsb_i64 *out, const rsb_i64_run *runs, size_t count) {
    rsb_i64 made = RSB_EMPTY;
    uint32_t status = RSB_CHANGED;
    for (size_t i = 0; i < count && status == RSB_CHANGED; i++) {
        if (rsb_i64_insert_range(&made, runs[i].first, runs[i].last) == RSB_NO_MEMORY) {
            status = RSB_NO_MEMORY;
        }
    }
    return rsb_private_i64_moved(status, out, &made);
}

RSB_NODISCARD RSB_INLINE uint32_t rsb_i64_from_text_at(
    rsb_i64 *out, const char *text, size_t length, size_t *at) {
    rsb_private_scan scan = {text, length, 0};
    rsb_i64 made = RSB_EMPTY;
    uint32_t status = RSB_CHANGED;
    rsb_private_pass_blanks(&scan);
    bool is_first = true;
    while (status == RSB_CHANGED && (is_first ? scan.at < length : rsb_private_passes(&scan, ','))) {
        rsb_private_signed first, last;
        is_first = false;
        if (!rsb_private_read_range(&scan, 64, &first, &last)) {
            *at = scan.at;
            status = RSB_BAD_TEXT;
        } else if (rsb_i64_insert_range(&made, rsb_private_i64_of(first), rsb_private_i64_of(last))
            == RSB_NO_MEMORY) {
            status = RSB_NO_MEMORY;
        }
    }
    return rsb_private_i64_moved(status, out, &made);
}

RSB_NODISCARD RSB_INLINE uint32_t rsb_i64_from_text(rsb_i64 *out, const char *text, size_t length) {
    size_t at;
    return rsb_i64_from_text_at(out, text, length, &at);
}

#endif
