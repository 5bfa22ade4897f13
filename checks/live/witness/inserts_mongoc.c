// A load by libmongoc: threads that insert into the database `libmongoc`.
//
// usage: inserts_mongoc URI SECONDS THREADS      cc inserts_mongoc.c $(pkg-config --cflags --libs libmongoc-1.0) -lpthread
#include <mongoc/mongoc.h>
#include <pthread.h>
#include <stdlib.h>
#include <unistd.h>

static void *inserts(void *given) {
    mongoc_client_pool_t *pool = given;
    for (;;) {
        mongoc_client_t *client = mongoc_client_pool_pop(pool);
        mongoc_collection_t *live = mongoc_client_get_collection(client, "libmongoc", "live");
        bson_t one = BSON_INITIALIZER;
        bson_error_t error;
        mongoc_collection_insert_one(live, &one, NULL, NULL, &error);
        bson_destroy(&one);
        mongoc_collection_destroy(live);
        mongoc_client_pool_push(pool, client);
        usleep(20000);
    }
    return NULL;
}

int main(int count, char **words) {
    if (count < 4) return 2;
    mongoc_init();
    mongoc_client_pool_t *pool = mongoc_client_pool_new(mongoc_uri_new(words[1]));
    for (int i = 0; i < atoi(words[3]); i++) {
        pthread_t thread;
        if (pthread_create(&thread, NULL, inserts, pool)) return 1;
    }
    sleep((unsigned)atoi(words[2]));
    return 0;
}
