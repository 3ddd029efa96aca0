/* Open and close, again and again: memory and descriptors stay as they are, and no thread is left. */
#include "test.h"

static void once(const kangaroo_options *options, const char *folder) {
    kangaroo_cache *cache = open_with(options, folder);
    put_text(cache, "a", "apple");
    expect(hits_text(cache, "a", "apple"), "it works");
    close_cache(cache);
}

int main(void) {
    char folder[PATH_BYTES];
    kangaroo_options options = small_options();
    int rounds = is_quick() ? 500 : 10000;
    options.sets = 7;
    make_folder(folder);
    for (int i = 0; i < rounds / 10; i++) once(&options, folder);
    long memory = own_memory();
    int descriptors = open_descriptors();
    for (int i = 0; i < rounds; i++) once(&options, folder);
    long now = own_memory();
    show("%d times: own memory %ld KiB before, %ld behind; %d descriptors, %ld threads", rounds, memory, now,
         open_descriptors(), number_of_process("/proc/self/status", "Threads"));
    expect(is_sanitized() || now <= memory + 256, "memory is flat");
    expect(open_descriptors() == descriptors, "descriptors too");
    expect(is_sanitized() || number_of_process("/proc/self/status", "Threads") == 1, "no thread is left");
    remove_folder(folder);
    return 0;
}
