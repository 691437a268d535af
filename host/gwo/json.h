/* Text as a JSON string. */
#ifndef JSON_H
#define JSON_H

#include "out.h"

/* In quotes; a byte that belongs to no character of UTF-8 becomes the replacement character. */
void put_json(struct out *o, const char *text);

/* "name":number, and "name":"text", each with a comma before it unless it is the first. */
void put_json_number(struct out *o, const char *comma, const char *name, uint64_t number);
void put_json_text(struct out *o, const char *comma, const char *name, const char *text);

#endif
