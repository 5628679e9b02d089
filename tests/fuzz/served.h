/* What has to hold of a batch that ran. */
#ifndef SERVED_H
#define SERVED_H

#include "twins.h"

/* After the first twin's call reported that it is done. */
void check_served(const twins *t, const call *c, jumperloft1_report report);

#endif
