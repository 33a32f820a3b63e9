/* What the programs of this folder share: reading the pairs of a file, and the lines that report progress.
 *
 *     PROGRAM load STORE PAIRS BATCH   puts the pairs of the file PAIRS, BATCH of them in each durable commit
 *     PROGRAM get STORE KEY            opens the store and prints `value V`
 *
 * A load prints `ready` when the pairs are read and the store is open, and `done` after its last commit; then it waits to be killed. */
#ifndef PAIRS_H
#define PAIRS_H

#include <stdio.h>
#include <stdlib.h>
#include <string.h>
#include <unistd.h>

struct slice {
    char *bytes;
    size_t length;
};

struct pair {
    struct slice key, value;
};

struct pairs {
    struct pair *items;
    size_t count;
};

static void fail(const char *what, const char *why) {
    fprintf(stderr, "%s: %s\n", what, why);
    exit(1);
}

/* Returns the whole file, followed by a zero byte. */
static struct slice read_file(const char *path) {
    FILE *file = fopen(path, "rb");
    if (file == NULL) fail(path, "can't be opened");
    fseek(file, 0, SEEK_END);
    struct slice text = {NULL, (size_t)ftell(file)};
    rewind(file);
    text.bytes = (char *)calloc(text.length + 1, 1);
    if (text.bytes == NULL || fread(text.bytes, 1, text.length, file) != text.length) fail(path, "can't be read");
    fclose(file);
    return text;
}

static size_t lines_of(struct slice text) {
    size_t lines = 0;
    for (size_t at = 0; at < text.length; at++) lines += text.bytes[at] == '\n';
    return lines;
}

/* Returns the pairs of a file. Each line is a key, a space and a value. */
static struct pairs read_pairs(const char *path) {
    struct slice text = read_file(path);
    size_t lines = lines_of(text);
    struct pairs pairs = {(struct pair *)calloc(lines + 1, sizeof(struct pair)), lines};
    if (pairs.items == NULL) fail(path, "no memory");
    char *start = text.bytes;
    for (size_t at = 0; at < lines; at++) {
        char *space = strchr(start, ' '), *end = space == NULL ? NULL : strchr(space, '\n');
        if (end == NULL) fail(path, "a line is no pair");
        struct pair pair = {{start, (size_t)(space - start)}, {space + 1, (size_t)(end - space - 1)}};
        pairs.items[at] = pair;
        start = end + 1;
    }
    return pairs;
}

static void say(const char *line) {
    puts(line);
    fflush(stdout);
}

/* Reports that all is committed, and waits to be killed: a load never closes its store. */
static void say_done_and_wait(void) {
    say("done");
    for (;;) pause();
}

static void say_value(const char *bytes, size_t length) {
    printf("value %.*s\n", (int)length, bytes);
    fflush(stdout);
}

#endif
