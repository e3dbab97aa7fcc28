/* The calls of the three widths. */
#include "core.h"

#define BITS 32
#define NUMBER uint32_t
#define NARROW(rank) ((uint32_t)(rank))
#define WIDE(value) ((wide)(value))
#define COUNT uint64_t
#define COUNTED(it) ((count){(it), false})
#define PLACE(n) ((uint64_t)(n))
#include "width.h"
#undef BITS
#undef NUMBER
#undef NARROW
#undef COUNT
#undef COUNTED

#define BITS 64
#define NUMBER uint64_t
#define NARROW(rank) ((uint64_t)(rank))
#define COUNT rsb_u64_count
#define COUNTED(it) ((count){(it).low | (wide)(it).high << 64, false})
#include "width.h"
#undef BITS
#undef NUMBER
#undef NARROW
#undef WIDE
#undef COUNT
#undef COUNTED
#undef PLACE

#define BITS 128
#define NUMBER rsb_u128_value
#define NARROW(rank) ((rsb_u128_value){(uint64_t)(rank), (uint64_t)((wide)(rank) >> 64)})
#define WIDE(value) ((value).low | (wide)(value).high << 64)
#define COUNT rsb_u128_count
#define COUNTED(it) ((count){(it).low | (wide)(it).high << 64, (it).top != 0})
#define PLACE(n) NARROW(n)
#include "width.h"

const calls *calls_for(int bits) {
    const calls *all[] = {&u32_calls, &u64_calls, &u128_calls};
    for (size_t at = 0; at < sizeof all / sizeof *all; at++) {
        if (all[at]->bits == bits) {
            return all[at];
        }
    }
    PyErr_Format(PyExc_ValueError, "bits is 32, 64 or 128, and not %d", bits);
    return NULL;
}
