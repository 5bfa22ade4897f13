/* A load by libmongoc: threads that insert documents, each with its own text, for some seconds.
   On a busy machine it goes on until each has 25 done, but for no longer than six times as long.

   usage: load SECONDS THREADS      MDB_URI says where
   cc load.c -o load $(pkg-config --cflags --libs libmongoc-1.0) -lpthread */
#include <mongoc/mongoc.h>
#include <pthread.h>
#include <stdatomic.h>
#include <stdio.h>
#include <stdlib.h>
#include <time.h>
#include <unistd.h>

static mongoc_client_pool_t *clients;
static atomic_long done, failed;
static double seconds;

enum { LEAST = 25 };

static double now(void) {
    struct timespec at;
    clock_gettime(CLOCK_MONOTONIC, &at);
    return at.tv_sec + at.tv_nsec / 1e9;
}

static bool insert(mongoc_client_t *client, long thread, int number) {
    char text[64];
    snprintf(text, sizeof text, "%ld %d", thread, number);
    mongoc_collection_t *items = mongoc_client_get_collection(client, "test", "items");
    bson_t *document = BCON_NEW("text", BCON_UTF8(text));
    bson_error_t error;
    bool fine = mongoc_collection_insert_one(items, document, NULL, NULL, &error);
    if (fine) {
        done++;
    } else {
        failed++;
        usleep(10000);
    }
    bson_destroy(document);
    mongoc_collection_destroy(items);
    return fine;
}

static void *work(void *thread) {
    double begin = now();
    int mine = 0;
    for (int number = 1; now() - begin < (mine >= LEAST ? seconds : 6 * seconds); number++) {
        mongoc_client_t *client = mongoc_client_pool_pop(clients);
        mine += insert(client, (long)thread, number);
        mongoc_client_pool_push(clients, client);
        usleep(10000);
    }
    return NULL;
}

int main(int count, char **words) {
    if (count != 3) return 2;
    int threads = atoi(words[2]);
    pthread_t ids[64];
    mongoc_init();
    bson_error_t error;
    mongoc_uri_t *uri = mongoc_uri_new_with_error(getenv("MDB_URI"), &error);
    if (!uri) return 2;
    clients = mongoc_client_pool_new(uri);
    mongoc_client_pool_set_error_api(clients, MONGOC_ERROR_API_VERSION_2);
    seconds = atof(words[1]);
    for (long thread = 0; thread < threads; thread++) pthread_create(&ids[thread], NULL, work, (void *)thread);
    for (int thread = 0; thread < threads; thread++) pthread_join(ids[thread], NULL);
    mongoc_client_pool_destroy(clients);
    mongoc_uri_destroy(uri);
    mongoc_cleanup();
    fprintf(stderr, "libmongoc %s: done %ld failed %ld\n", MONGOC_VERSION_S, (long)done, (long)failed);
    return 0;
}
