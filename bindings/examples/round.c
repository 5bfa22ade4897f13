// A driver that is opened, and one caller that asks for a connection, gets it and returns it.
#include "mdb.h"
#include <stdio.h>

#define TEXT(text) (const uint8_t *)text, sizeof text - 1

int main(void) {
    mdb_slot driver = MDB_SLOT_INIT;
    mdb_reply r;
    uint8_t entry[1024];
    size_t n;
    if (mdb_open_line(&driver, 0, TEXT("open seeds=a:27017 max=10")) != MDB_OK) return 1;
    mdb_hello(&driver, &(mdb_at){.moment = 1}, TEXT("a:27017 0"), TEXT("ok rtt=5 maxWireVersion=21"), &r);
    mdb_request(&driver, &(mdb_at){.moment = 2}, 1, TEXT("a:27017"), &r); /* party 1: r.kind is MDB_ESTABLISHING */
    mdb_claim(&driver, &(mdb_at){.moment = 2}, &r);                       /* a worker takes the job: connect to r.pool, r.id */
    mdb_established(&driver, &(mdb_at){.moment = 3}, &(mdb_established_as){r.pool, r.id, 21, -1}, TEXT(""), &r);
    mdb_collect(&driver, &(mdb_at){.moment = 3}, 1, &r);                  /* r.kind is MDB_POOLED: use it */
    mdb_return(&driver, &(mdb_at){.moment = 4}, 1, MDB_USE_OK, &r);
    if (mdb_entry_text(&driver, entry, sizeof entry, &n) == MDB_OK) fwrite(entry, 1, n, stdout);
    mdb_close(&driver);
    return 0;
}
