/* The lines of fir.h that state how much stack a function needs, each such as
 *    *   stack: fir_build 1024 */
#include "stack.h"

#include <stdio.h>
#include <string.h>

static struct entry *entry_of(const char *name)
{
    for (int i = 0; i < FUNCTIONS; i++)
        if (strcmp(entries[i].name, name) == 0)
            return &entries[i];
    return NULL;
}

static int wrong(const char *name, const char *what)
{
    printf("%s: %s\n", name, what);
    return 1;
}

static int stated(const char *name, size_t bytes)
{
    struct entry *entry = entry_of(name);
    if (entry == NULL)
        return wrong(name, "fir.h has a stack line for what is no function");
    if (entry->stated != 0)
        return wrong(name, "fir.h has two stack lines");
    entry->stated = bytes;
    return 0;
}

int read_header(const char *path)
{
    char line[256], name[64];
    size_t bytes;
    int faults = 0, declared = 0;
    FILE *header = fopen(path, "r");
    if (header == NULL)
        return wrong(path, "cannot be read");
    while (fgets(line, sizeof line, header) != NULL) {
        if (sscanf(line, " * stack: %63[a-z_] %zu", name, &bytes) == 2) {
            faults += stated(name, bytes);
        } else if (sscanf(line, "uint64_t %63[a-z_](", name) == 1) {
            declared++;
            if (entry_of(name) == NULL)
                faults += wrong(name, "fir.h declares it, and it is not called here");
        }
    }
    fclose(header);
    if (declared != FUNCTIONS)
        faults += wrong(path, "does not declare each function once");
    for (int i = 0; i < FUNCTIONS; i++)
        if (entries[i].stated == 0)
            faults += wrong(entries[i].name, "fir.h has no stack line");
    return faults;
}
