// The thread that keeps a client: it starts monitors and workers, joins those that ended, and lets time pass in the pools.
#ifndef NET_KEEPER_H
#define NET_KEEPER_H

#include "client.h"

void *keeper_run(void *client);

#endif
