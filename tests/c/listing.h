/* The file that the specification lists step by step: a channel, a second thread, one number sent. */
#ifndef LISTING_H
#define LISTING_H

#include "lines.h"

static const line listing[] = {
    TYPE(0), DEFINITION(0, 2, 6), SLOT(1), SLOT(0),
    FOUR(CHOICE(1)), CHOICE(1), END,
    BRANCH(ALWAYS, NEW(0), 1),
    BRANCH(ALWAYS, SPAWN, 2, 4),
    BRANCH(ALWAYS, SET(1, 7), 3),
    BRANCH(ALWAYS, SEND(0, 1), 5),
    BRANCH(ALWAYS, RECEIVE(0, 1), 5),
};

#endif
