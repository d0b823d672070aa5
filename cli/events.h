/* The file of events: what is written to the DAC, played and reset. */
#ifndef EVENTS_H
#define EVENTS_H

#include "dirgeflint.h"

enum kind { LOW, HIGH, PLAY, RESET };

struct event {
    enum kind kind;
    uint32_t number; /* the byte or the clocks */
};

struct events {
    struct event *all; /* to be freed, whatever the status */
    size_t count;
};

/* Reads the events and tries each with the library; gives the status. */
int read_events(const char *path, struct events *events);

/* Does to the record what the event says. A play puts its levels to the first bytes of levels. */
dirgeflint_answer take_event(dirgeflint_dac *dac, struct event event, uint8_t levels[DIRGEFLINT_PERIOD]);

#endif
