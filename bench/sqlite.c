/* Commits of sqlite with the same number of writers: sqlite TASK FILE WRITERS CALLS LENGTH lets WRITERS threads, each with its own connection, make
CALLS calls each; every call is a transaction (WAL, synchronous FULL). With put, each call puts LENGTH bytes into the writer's own row;
   with delete, each call deletes a row of that many bytes; all rows were inserted before. Prints how many calls were acknowledged and the
   time from the first to the last in nanoseconds. */
#include <pthread.h>
#include <sqlite3.h>
#include <stdio.h>
#include <stdlib.h>
#include <string.h>
#include <time.h>

static const char *path;
static int deletes;
static long calls, length;

static sqlite3 *opened(void) {
    sqlite3 *base;
    if (sqlite3_open(path, &base)) { fprintf(stderr, "%s\n", sqlite3_errmsg(base)); exit(1); }
    sqlite3_busy_timeout(base, 60000);
    if (sqlite3_exec(base, "pragma journal_mode=wal; pragma synchronous=full", 0, 0, 0)) { fprintf(stderr, "%s\n", sqlite3_errmsg(base)); exit(1); }
    return base;
}

struct writer { pthread_t thread; sqlite3 *base; char name; long done; };

/* The name of the row with that number of a writer. */
static int name_of(const struct writer *self, long number, char *name) { return sprintf(name, "%c%04ld", self->name, number); }

static sqlite3_stmt *prepared(struct writer *self, const char *text) {
    sqlite3_stmt *made;
    if (sqlite3_prepare_v2(self->base, text, -1, &made, 0)) exit(1);
    return made;
}

static void insert(struct writer *self, sqlite3_stmt *insert, long number) {
    char name[32], *bytes = malloc(length);
    memset(bytes, '/', length);
    sqlite3_bind_text(insert, 1, name, name_of(self, number, name), SQLITE_STATIC);
    sqlite3_bind_blob(insert, 2, bytes, length, SQLITE_STATIC);
    if (sqlite3_step(insert) == SQLITE_DONE) self->done++;
    sqlite3_reset(insert);
    free(bytes);
}

static const char *const PUT = "insert or replace into units values (?, ?)";

static void *called(void *given) {
    struct writer *self = given;
    sqlite3_stmt *made = prepared(self, deletes ? "delete from units where name = ?" : PUT);
    char name[32];
    for (long i = 0; i < calls; i++) {
        if (!deletes) { insert(self, made, 0); continue; }
        sqlite3_bind_text(made, 1, name, name_of(self, i, name), SQLITE_STATIC);
        if (sqlite3_step(made) == SQLITE_DONE && sqlite3_changes(self->base) == 1) self->done++;
        sqlite3_reset(made);
    }
    sqlite3_finalize(made);
    return 0;
}

/* Inserts the rows that will be deleted, in one transaction. */
static void fill(struct writer *self) {
    sqlite3_exec(self->base, "begin", 0, 0, 0);
    sqlite3_stmt *made = prepared(self, PUT);
    for (long i = 0; i < calls; i++) insert(self, made, i);
    sqlite3_finalize(made);
    sqlite3_exec(self->base, "commit", 0, 0, 0);
    self->done = 0;
}

int main(int argc, char **argv) {
    if (argc != 6) { fprintf(stderr, "usage: sqlite put|delete FILE WRITERS CALLS LENGTH\n"); return 2; }
    deletes = !strcmp(argv[1], "delete"), path = argv[2];
    long writers = atol(argv[3]), done = 0;
    calls = atol(argv[4]), length = atol(argv[5]);
    sqlite3 *base = opened();
    if (sqlite3_exec(base, "create table units(name text primary key, body blob) without rowid", 0, 0, 0)) return 1;
    struct writer *all = calloc(writers, sizeof *all);
    for (long i = 0; i < writers; i++) { all[i].base = opened(); all[i].name = 'a' + i % 26; if (deletes) fill(&all[i]); }
    struct timespec start, end;
    clock_gettime(CLOCK_MONOTONIC, &start);
    for (long i = 0; i < writers; i++) pthread_create(&all[i].thread, 0, called, &all[i]);
    for (long i = 0; i < writers; i++) { pthread_join(all[i].thread, 0); done += all[i].done; }
    clock_gettime(CLOCK_MONOTONIC, &end);
    printf("%ld %lld\n", done, (end.tv_sec - start.tv_sec) * 1000000000LL + end.tv_nsec - start.tv_nsec);
    for (long i = 0; i < writers; i++) sqlite3_close(all[i].base);
    sqlite3_close(base);
    return 0;
}
