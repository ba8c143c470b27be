/* A protection domain that asks the counter. */
#include <microkit.h>

seL4_Word asker_seen;

void init(void) {
    for (int n = 0; n < 2; n++) {
        microkit_mr_set(0, 5);
        microkit_ppcall(0, microkit_msginfo_new(1, 1));
        asker_seen = microkit_mr_get(0);
    }
}

void notified(microkit_channel ch) {
    (void)ch;
}

microkit_msginfo protected(microkit_channel ch, microkit_msginfo msginfo) {
    (void)ch;
    return msginfo;
}
