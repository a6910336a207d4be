/* The samples, which stand in samples/. */
#ifndef SAMPLE_H
#define SAMPLE_H

#include <dirent.h>

#include "check.h"

/* Reads a sample: its bytes into `to`, and how many there are. */
static inline size_t read_sample(const char *name, const char *ending, void *to, size_t most)
{
    char path[512];
    FILE *from;
    size_t length;
    snprintf(path, sizeof path, "samples/%s%s", name, ending);
    from = fopen(path, "rb");
    if (from == NULL)
        return 0;
    length = fread(to, 1, most, from);
    fclose(from);
    return length;
}

/* Calls this with the name of every sample. */
static inline void each_sample(void (*call)(const char *name))
{
    struct dirent *entry;
    DIR *folder = opendir("samples");
    int samples = 0;
    while (folder != NULL && (entry = readdir(folder)) != NULL) {
        char *ending = strrchr(entry->d_name, '.');
        if (ending == NULL || strcmp(ending, ".rec") != 0)
            continue;
        *ending = '\0';
        call(entry->d_name);
        samples++;
    }
    CHECK(samples >= 8);
    if (folder != NULL)
        closedir(folder);
}

#endif
