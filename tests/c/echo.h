/* A number comes in at port 0 and goes out at port 1, again and again. */
#ifndef ECHO_H
#define ECHO_H

#include "lines.h"

static const line echo[] = {
    TYPE(0), DEFINITION(2, 3, 3), SLOT(1), SLOT(1), SLOT(0),
    CHOICE(1), CHOICE(1), CALL(0, 0, 1),
    BRANCH(ALWAYS, RECEIVE(0, 2), 1),
    BRANCH(ALWAYS, SEND(1, 2), 2),
};

#endif
