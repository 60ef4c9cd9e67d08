/* A table that the tests open; it must not be refused. */
#ifndef OPENED_H
#define OPENED_H

#include "bytes.h"

static inline lanes_table opened(bytes file) {
    lanes_table table = LANES_CLOSED;
    lanes_place place;
    uint8_t refused = lanes_open(file.at, file.length, &table, &place);
    if (refused != LANES_OK) end_at("lanes_open", refused, place);
    return table;
}

#endif
