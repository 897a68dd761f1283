// Tests that two shared libraries with the functions of hidlog.h can be loaded into one process: passes each line of a
// log to a key of each library, and checks that the outputs are equal.
//
//     two_libraries FIRST SECOND LOG
#include "hidlog.h"

#include <dlfcn.h>
#include <stdio.h>
#include <stdlib.h>
#include <string.h>

enum { CAP = 1 << 20 };

struct library {
    struct hidlog_key key;
    int32_t (*lines)(struct hidlog_key *, const uint8_t *, size_t, uint8_t *, size_t, struct hidlog_result *);
    void *handle;
};

// Stores the address of the library's function with this name in the function pointer that `function` points to. Copies
// the address byte by byte, since ISO C has no conversion from an object pointer to a function pointer.
static void find_function(void *handle, const char *name, void *function) {
    void *found = dlsym(handle, name);
    if (found == NULL) {
        fprintf(stderr, "two_libraries: %s\n", dlerror());
        exit(2);
    }
    memcpy(function, &found, sizeof found);
}

static void open_library(struct library *library, const char *path) {
    static const uint8_t aaguid[16];
    size_t (*size)(void);
    int32_t (*init)(struct hidlog_key *, const uint8_t *, uint64_t, const uint8_t *, size_t);
    library->handle = dlopen(path, RTLD_NOW | RTLD_GLOBAL);
    if (library->handle == NULL) {
        fprintf(stderr, "two_libraries: %s\n", dlerror());
        exit(2);
    }
    find_function(library->handle, "hidlog_key_size", &size);
    find_function(library->handle, "hidlog_key_init", &init);
    find_function(library->handle, "hidlog_key_replay_lines", &library->lines);
    memset(&library->key, 0, sizeof library->key);
    library->key.memory = aligned_alloc(16, (size() + 15) / 16 * 16);
    if (library->key.memory == NULL || init(&library->key, aaguid, 0, aaguid, 0) != 0) {
        exit(2);
    }
}

int main(int count, char **words) {
    static uint8_t line[300], out[2][CAP];
    struct library libraries[2];
    struct hidlog_result results[2];
    FILE *file = count == 4 ? fopen(words[3], "rb") : NULL;
    int lines = 0;
    if (file == NULL) {
        fputs("usage: two_libraries FIRST SECOND LOG\n", stderr);
        return 2;
    }
    for (int i = 0; i < 2; i++) {
        open_library(&libraries[i], words[1 + i]);
    }
    while (fgets((char *)line, sizeof line, file) != NULL) {
        for (int i = 0; i < 2; i++) {
            libraries[i].lines(&libraries[i].key, line, strlen((char *)line), out[i], CAP, &results[i]);
        }
        if (results[0].written != results[1].written || memcmp(out[0], out[1], (size_t)results[0].written) != 0) {
            fprintf(stderr, "two_libraries: the two libraries write different outputs for line %d of the log\n", lines + 1);
            return 1;
        }
        lines++;
    }
    for (int i = 0; i < 2; i++) {
        free(libraries[i].key.memory);
        dlclose(libraries[i].handle);
    }
    fclose(file);
    return lines < 20;
}
