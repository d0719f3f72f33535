/* Octets that grow, and bundles made of them, for the tests in C. */
#ifndef OCTETS_H
#define OCTETS_H

#include <stdint.h>
#include <stdio.h>
#include <stdlib.h>
#include <string.h>

#define OCTETS(text) (const uint8_t *)(text), strlen(text)

/* The kinds of records that a front has. */
enum { OBJECT = 1, IDL = 3 };

struct octets {
    uint8_t *at;
    size_t size, room;
};

static inline void put(struct octets *all, const void *octets, size_t size) {
    if (all->room - all->size < size) {
        all->room = 2 * all->room + size;
        all->at = realloc(all->at, all->room);
        if (!all->at) {
            fprintf(stderr, "no memory\n");
            exit(2);
        }
    }
    if (size) memcpy(all->at + all->size, octets, size);
    all->size += size;
}

static inline void put_text(struct octets *all, const char *text) { put(all, text, strlen(text)); }

/* A record of a bundle: its kind, the length of its payload in four octets, the highest first, and the payload. */
static inline void put_record(struct octets *bundle, int kind, const void *payload, size_t size) {
    const uint8_t head[5] = {(uint8_t)kind, (uint8_t)(size >> 24), (uint8_t)(size >> 16), (uint8_t)(size >> 8), (uint8_t)size};
    put(bundle, head, sizeof head);
    put(bundle, payload, size);
}

static inline void put_idl(struct octets *bundle, const char *idl) { put_record(bundle, IDL, idl, strlen(idl)); }

static inline void free_octets(struct octets *all) {
    free(all->at);
    *all = (struct octets){0};
}

#endif
