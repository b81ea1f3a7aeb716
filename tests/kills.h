/* kills.h: the two parts of the test kills. */
#ifndef KILLS_H
#define KILLS_H

/* Processes that have the file open through a handle are killed. Ends the test where something is lost, prints how many
 * were killed, and gives 1 where too little was tried, else 0. */
int kill_handles(const char *file);

#endif
