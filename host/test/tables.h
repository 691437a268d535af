/* What the files of tables.c share: the choice of a table and of a record. */
#ifndef TABLES_H
#define TABLES_H

#include "rig.h"

enum { ROOM = 65536 + 4096, MOST_ERASES = 16, OUT_ROOM = 512 };

extern struct dice dice;

#define ONE_OF(list) ((list)[below(&dice, sizeof(list) / sizeof((list)[0]))])

/* Lays a table into the room, which has ROOM bytes; how long it is. */
size_t choose_table(uint8_t *room);

/* An index and a slot around those that exist; of a table's bytes, or of any. */
uint32_t choose_index(const uint8_t *bytes, size_t n);
uint32_t choose_slot(void);

/* A record, in most cases one that is taken or nearly so. */
struct chosen {
    uint64_t density;
    uint32_t erases[MOST_ERASES];
    size_t erases_len, out_len;
};
void choose_record(struct chosen *r);

#endif
