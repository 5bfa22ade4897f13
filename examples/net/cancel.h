// By this one thread ends what another one does.
#ifndef NET_CANCEL_H
#define NET_CANCEL_H

#include "client.h"

struct mdb_net_cancel {
    client_t *client;
    int event; // an eventfd, readable once it is done
    bool done;
    pthread_cond_t *news; // of the check-out that waits, NULL for none
};

#endif
