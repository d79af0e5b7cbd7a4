/* What the fuzzer's targets share: memory between pages that may not be touched, known bytes, and buckets of what is
 * counted for the fuzzer. */
#ifndef FUZZ_COMMON_H
#define FUZZ_COMMON_H

#include <stddef.h>
#include <stdint.h>
#include <stdio.h>
#include <stdlib.h>
#include <string.h>
#include <sys/mman.h>
#include <unistd.h>

enum { PAGE = 4096, KINDS = 10, BUCKETS = 8, NUMBERS = 19 };

static inline void require(int holds, const char *what) {
    if (!holds) {
        fprintf(stderr, "fuzz: %s\n", what);
        abort();
    }
}

/* Maps the file, or fresh memory for none, between two pages that may not be touched. */
static inline uint8_t *between_guards(int file, size_t size, int rights) {
    uint8_t *all = mmap(NULL, size + 2 * PAGE, PROT_NONE, MAP_PRIVATE | MAP_ANONYMOUS, -1, 0);
    require(all != MAP_FAILED, "no memory");
    int flags = file < 0 ? MAP_PRIVATE | MAP_ANONYMOUS | MAP_FIXED : MAP_SHARED | MAP_FIXED;
    uint8_t *room = mmap(all + PAGE, size, rights, flags, file, 0);
    require(room == all + PAGE, "no memory at its place");
    return room;
}

/* Memory that is read only where the library is given it, and its copy that is written. */
typedef struct {
    const uint8_t *read;
    uint8_t *write;
    size_t size;
} Room;

static inline Room read_only_room(size_t size) {
    int file = memfd_create("lent", 0);
    require(file >= 0 && ftruncate(file, (off_t)size) == 0, "no memory to lend");
    Room room = {between_guards(file, size, PROT_READ), between_guards(file, size, PROT_READ | PROT_WRITE), size};
    return room;
}

/* Puts so many bytes at the end or the start of the room; gives where the library reads them. */
static inline const void *lend(Room room, const void *bytes, size_t size, int at_end) {
    size_t place = at_end ? room.size - size : 0;
    if (size > 0) {
        memcpy(room.write + place, bytes, size);
    }
    return room.read + place;
}

static inline void fill_known(uint8_t *bytes, size_t size) {
    for (size_t at = 0; at < size; at++) {
        bytes[at] = (uint8_t)(at * 0x9e3779b97f4a7c15u >> 56);
    }
}

static inline uint64_t hash(const uint8_t *bytes, size_t size) {
    uint64_t mixed = 0xcbf29ce484222325u;
    for (size_t at = 0; at < size; at++) {
        mixed = (mixed ^ bytes[at]) * 0x100000001b3u;
    }
    return mixed ^ mixed >> 29;
}

static inline size_t kind_of(uint64_t letter) {
    const char *letters = "PSHWEBGKN";
    const char *found = letter > 0 && letter < 128 ? strchr(letters, (int)letter) : NULL;
    return found ? (size_t)(found - letters) : KINDS - 1;
}

static inline size_t at_most(size_t number, size_t most) { return number < most ? number : most; }

/* 0 to 3 as they are, then a bucket up to 15, 63, 255 and above. */
static inline size_t bucket_of(size_t line) {
    size_t bucket = at_most(line, 3);
    for (size_t limit = 4; limit <= line && bucket < BUCKETS - 1; limit *= 4) {
        bucket++;
    }
    return bucket;
}

#endif
