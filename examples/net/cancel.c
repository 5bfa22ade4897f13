#include "cancel.h"
#include <errno.h>
#include <stdlib.h>
#include <sys/eventfd.h>
#include <unistd.h>

mdb_net_code mdb_net_cancel_new(mdb_net_client *client, mdb_net_cancel **cancel) {
    *cancel = calloc(1, sizeof **cancel);
    if (!*cancel) return MDB_NET_NO_MEMORY;
    (*cancel)->client = client;
    (*cancel)->event = eventfd(0, EFD_NONBLOCK | EFD_CLOEXEC);
    if ((*cancel)->event >= 0) return MDB_NET_OK;
    mdb_net_code why = errno == ENOMEM ? MDB_NET_NO_MEMORY : MDB_NET_NO_FILES;
    free(*cancel);
    *cancel = NULL;
    return why;
}

void mdb_net_cancel_now(mdb_net_cancel *cancel) {
    client_lock(cancel->client);
    cancel->done = true;
    eventfd_write(cancel->event, 1);
    if (cancel->news) pthread_cond_signal(cancel->news);
    pthread_cond_broadcast(&cancel->client->changed);
    client_unlock(cancel->client);
}

void mdb_net_cancel_free(mdb_net_cancel *cancel) {
    if (!cancel) return;
    close(cancel->event);
    free(cancel);
}
