/* A protection domain that hears of each tenth, and lets the counter begin anew. */
#include <microkit.h>

seL4_Word watcher_heard;

void init(void) {
}

void notified(microkit_channel ch) {
    watcher_heard++;
    microkit_deferred_notify(ch);
}

microkit_msginfo protected(microkit_channel ch, microkit_msginfo msginfo) {
    (void)ch;
    return msginfo;
}
