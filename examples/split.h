/* The second story of the example: a page that lies in three pieces. */
#ifndef SPLIT_H
#define SPLIT_H

#include "told.h"

/* Has the page read from the disk and written back elsewhere, by link lists. Whether it came to its end. */
bool play_split(lent *host);

#endif
