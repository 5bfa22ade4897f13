// Runs the script on standard input as `mdb_script` does, and writes its log: the same lines, the same bytes, the same exit statuses.
#include "mdb.h"
#include <stdio.h>
#include <stdlib.h>

static mdb_slot slot = MDB_SLOT_INIT;
static uint8_t line[1 << 17], out[1 << 20];

int main(void) {
    mdb_reply reply;
    size_t n = 0, needed;
    int c, number = 1;
    while ((c = getchar()) != EOF) {
        if (n == sizeof line) return 1;
        if (c != '\n') {
            line[n++] = (uint8_t)c;
            continue;
        }
        mdb_status status = number == 1 ? mdb_open_line(&slot, 0, line, n) : mdb_line(&slot, 0, line, n, &reply);
        if (status != MDB_OK) {
            fprintf(stderr, "line %d is malformed\n", number);
            return status == MDB_MALFORMED ? 5 : 1;
        }
        if (mdb_entry_text(&slot, out, sizeof out, &needed) != MDB_OK) return 1;
        fwrite(out, 1, needed, stdout);
        n = 0;
        number++;
    }
    mdb_close(&slot);
    if (n) fprintf(stderr, "line %d is malformed\n", number);
    return n ? 5 : 0;
}
