/* plugin LIBRARY ENTRY..: the shared library loaded while the program runs: dlopen, every entry's address, and calls through two of them. */
#include <dlfcn.h>

#include "check.h"
#include "honeyplank.h"
#include "record.h"

int main(int argc, char **argv)
{
    static struct record_file file;
    uint32_t (*baseline)(const uint8_t *, size_t, size_t, uint8_t *, size_t);
    int64_t (*told)(const uint8_t *, size_t, size_t, uint32_t);
    uint8_t out[HP_MOST_BYTES];
    int i;
    void *library = argc > 2 ? dlopen(argv[1], RTLD_NOW) : NULL;
    if (library == NULL) {
        fprintf(stderr, "usage: plugin LIBRARY ENTRY..\n");
        return 2;
    }
    for (i = 2; i < argc; i++)
        CHECK(dlsym(library, argv[i]) != NULL);
    *(void **)&baseline = dlsym(library, "hp_baseline");
    *(void **)&told = dlsym(library, "hp_told");
    put_worked(&file);
    CHECK(baseline != NULL && baseline(file.bytes, file.length, 0, out, sizeof out) == HP_ANSWERED && word_at(out) == 30348);
    CHECK(told != NULL && told(file.bytes, file.length, 0, HP_ADJUSTMENT) == 264);
    return checked("plugin");
}
