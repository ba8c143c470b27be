/* A protection domain, as it is compiled for a board: it counts for its clients, and tells channel
 * 1 of each tenth. */
#include <microkit.h>

static seL4_Word count;

void init(void) {
    count = 0;
}

void notified(microkit_channel ch) {
    if (ch == 1)
        count = 0;
}

microkit_msginfo protected(microkit_channel ch, microkit_msginfo msginfo) {
    (void)ch;
    if (microkit_msginfo_get_label(msginfo) != 1)
        return microkit_msginfo_new(1, 0);
    count += microkit_mr_get(0);
    if (count % 10 == 0)
        microkit_notify(1);
    microkit_mr_set(0, count);
    return microkit_msginfo_new(0, 1);
}
