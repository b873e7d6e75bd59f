/* A station on its line: master or slave, or neither (000, C.3.2). */
#ifndef STATION_H
#define STATION_H

#include "settings.h"

/* Makes the folder of a station. */
void station_create(const char *folder);

/* Runs until the program is told to stop. */
void station_run(const char *folder, const settings *settings);

#endif
