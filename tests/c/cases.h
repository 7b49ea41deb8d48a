/* The groups of cases, one file each. */
#ifndef CASES_H
#define CASES_H

void check_moves(void);
void check_meetings(void);
void check_rows(void);
void check_ports(void);
void check_runs(void);
void check_refusals(void);
void check_sound_states(void);
void check_collections(void);
void check_seats(void);

#endif
