/* The report of examples/report in C: pushes the streams of its feeds, undoes the correction, and writes the views to the
 * folder that is named. It prints the answers that aren't successes, and what it wrote. Run it at the top of the
 * repository, where `make lib` made the library:
 *
 *     cc -Iinclude -o out/report examples/c/report.c out/lib/liblv.a && out/report out
 */
#include "lv.h"

#include <stdio.h>
#include <stdlib.h>
#include <string.h>

typedef struct bytes {
    uint8_t *at;
    size_t len;
} bytes;

static void fail(const char *what) {
    fprintf(stderr, "report: %s\n", what);
    exit(1);
}

/* The bytes of a file, in a block of at least one byte. */
static bytes read_file(const char *path) {
    bytes held = {malloc(1), 0};
    FILE *file = fopen(path, "rb");
    if (!file) fail(path);
    for (size_t room = 1; held.at && !feof(file); room *= 2) {
        held.at = realloc(held.at, room);
        if (held.at) held.len += fread(held.at + held.len, 1, room - held.len, file);
        if (ferror(file)) fail(path);
    }
    if (!held.at) fail("memory");
    fclose(file);
    return held;
}

/* Pushes a file to the feed of a name, message by message. An edit that doesn't fit is printed, and the feed goes on. */
static void push_file(lv_handle *session, const char *feed) {
    char path[100];
    snprintf(path, sizeof path, "examples/report/%s.arrows", feed);
    bytes stream = read_file(path);
    for (size_t at = 0; at < stream.len;) {
        lv_pushed pushed = lv_push(session, (const uint8_t *)feed, strlen(feed), stream.at + at, stream.len - at);
        if (pushed.cause) printf("%s: refused %d\n", feed, pushed.cause);
        if (pushed.cause && pushed.used == 0) break;
        at += pushed.used;
    }
    free(stream.at);
}

static void write_view(lv_handle *session, const char *view, const char *folder, int number) {
    lv_written written = lv_write(session, (const uint8_t *)view, strlen(view));
    if (written.cause) {
        printf("%s: refused %d\n", view, written.cause);
        return;
    }
    char path[300];
    snprintf(path, sizeof path, "%s/%s-%d.arrows", folder, view, number);
    FILE *file = fopen(path, "wb");
    if (!file) fail(path);
    uint8_t piece[4096];
    size_t at = 0;
    for (size_t n; (n = lv_copy(session, at, piece, sizeof piece)) > 0; at += n) {
        if (fwrite(piece, 1, n, file) != n) fail(path);
    }
    if (fclose(file) || at != written.len) fail(path);
    printf("%s-%d: wrote %zu\n", view, number, at);
}

static void write_views(lv_handle *session, const char *folder, int number) {
    write_view(session, "report", folder, number);
    write_view(session, "countries", folder, number);
    write_view(session, "heaviest", folder, number);
}

/* Writes the canonical stream of a file to the folder, as `lv recast` does. */
static void recast_file(const char *path, const char *to) {
    bytes stream = read_file(path);
    size_t room = 2 * stream.len + 1;
    uint8_t *buffer = malloc(room);
    if (!buffer) fail("memory");
    lv_written written = lv_recast(stream.at, stream.len, buffer, room);
    if (written.cause || written.len > room) fail(path);
    FILE *file = fopen(to, "wb");
    if (!file || fwrite(buffer, 1, written.len, file) != written.len || fclose(file)) fail(to);
    free(buffer);
    free(stream.at);
}

int main(int argc, char **argv) {
    const char *folder = argc > 1 ? argv[1] : ".";
    bytes config = read_file("examples/report/report.toml");
    lv_handle session = {0};
    uint8_t cause = lv_open(&session, config.at, config.len);
    free(config.at);
    if (cause) {
        printf("refused %d\n", cause);
        return 1;
    }
    push_file(&session, "ports");
    push_file(&session, "calls");
    write_views(&session, folder, 1);
    push_file(&session, "withdrawn");
    push_file(&session, "corrected");
    write_views(&session, folder, 2);
    lv_undo(&session);
    lv_undo(&session);
    write_views(&session, folder, 3);
    printf("live rows %zu, stale %zu\n", lv_live_rows(&session), lv_stale(&session));
    lv_close(&session);
    char path[300];
    snprintf(path, sizeof path, "%s/orders.canon", folder);
    recast_file("examples/orders.arrows", path);
    return 0;
}
