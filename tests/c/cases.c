/*
 * Cases of starting, stepping, giving, taking, running and collecting through the C interface.
 *
 * Prints how many checks passed; the status is 1 if one failed.
 */
#include "cases.h"

#include "checks.h"

int main(void) {
    check_moves();
    check_meetings();
    check_rows();
    check_ports();
    check_runs();
    check_refusals();
    check_sound_states();
    check_collections();
    check_seats();
    return close_checks();
}
