/* The two ends of a link. Each runs on its folder until it is told to stop. */
#ifndef ENDS_H
#define ENDS_H

#include "settings.h"

void sender_create(const char *folder, const char *first);
void sender_reset(const char *folder);
void sender_run(const char *folder, const settings *link);

void receiver_create(const char *folder);
void receiver_run(const char *folder, const settings *link);

#endif
