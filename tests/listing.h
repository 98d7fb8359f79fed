/* The dumps of a vector folder, and the text that readpage prints of them. */
#ifndef LISTING_H
#define LISTING_H
#include "entries.h"
#include <dirent.h>
#include <inttypes.h>
#include <stdio.h>
#include <string.h>

enum { LISTING = 1024, LISTING_DATA = 150, LISTING_PATH = 4096 };

/* The lines of a page that came back with these data, or the line of its refusal. */
static inline void listing(const paged *p, const uint8_t *data, char text[LISTING]) {
    if (p->number) {
        snprintf(text, LISTING, "page refused %" PRIu64 " place %" PRIu64 "\n", p->number, p->place);
        return;
    }
    int at = snprintf(text, LISTING, "page ok steps %" PRIu64 "\n", p->steps);
    for (int i = 0; i < 4; i++)
        at += snprintf(text + at, LISTING - (size_t)at, "level %d changed %d %016" PRIx64 " erased %d %016" PRIx64 "\n", i, p->changed[i], p->changed_marks[i], p->erased[i], p->erased_marks[i]);
    at += snprintf(text + at, LISTING - (size_t)at, "data ");
    for (int i = 0; i < LISTING_DATA; i++) at += snprintf(text + at, LISTING - (size_t)at, "%02x", data[i]);
    snprintf(text + at, LISTING - (size_t)at, "\n");
}

/* NAME.bin is what readpage reads, NAME.point6.out what it printed with limit 500, NAME.point9.out what it prints with the default, 200. */
static const struct { uint64_t limit; const char *suffix; } listings[] = {{500, "point6.out"}, {200, "point9.out"}};
enum { LISTINGS = sizeof listings / sizeof listings[0] };

/* A file of the folder's dumps. */
static inline FILE *dump_file(const char *folder, const char *name, const char *suffix) {
    char path[LISTING_PATH];
    snprintf(path, sizeof path, "%s/dumps/%s.%s", folder, name, suffix);
    return fopen(path, "rb");
}

/* The bytes of a dump, as many as there is room for. */
static inline size_t dump_bytes(const char *folder, const char *name, uint8_t *dump, size_t room) {
    FILE *file = dump_file(folder, name, "bin");
    size_t n = file ? fread(dump, 1, room, file) : 0;
    if (file) fclose(file);
    return n;
}

/* Whether a listing of a dump is this text and nothing else. */
static inline int is_listed(const char *folder, const char *name, const char *suffix, const char *text) {
    char stored[2 * LISTING];
    FILE *file = dump_file(folder, name, suffix);
    if (!file) return 0;
    size_t n = fread(stored, 1, sizeof stored, file);
    fclose(file);
    return n == strlen(text) && !memcmp(stored, text, n);
}

/* Calls a function with the name of each dump of the folder; gives how many there are. */
static inline unsigned long each_dump(const char *folder, void (*one)(const char *folder, const char *name)) {
    char path[LISTING_PATH];
    unsigned long count = 0;
    snprintf(path, sizeof path, "%s/dumps", folder);
    DIR *dir = opendir(path);
    for (struct dirent *entry; dir && (entry = readdir(dir));) {
        char *name = entry->d_name, *end = strrchr(name, '.');
        if (!end || strcmp(end, ".bin")) continue;
        *end = 0;
        one(folder, name);
        count++;
    }
    if (dir) closedir(dir);
    return count;
}

#endif
