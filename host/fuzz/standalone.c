/* Feeds the target with changed files for some seconds, by a seed, where no
 * fuzzer is at hand: fuzz SECONDS SEED FILE... */
#define _DEFAULT_SOURCE
#include "target.h"

#include <signal.h>
#include <stdio.h>
#include <stdlib.h>
#include <string.h>
#include <time.h>
#include <unistd.h>

/* Longer files are not taken, and no change makes one longer. */
enum { MOST_BYTES = 1 << 16 };

typedef struct {
    uint8_t *bytes;
    size_t length;
} File;

static uint8_t current[MOST_BYTES];
static size_t current_length;
static uint64_t state;

/* Address sanitizer ends by the signal that the handler below waits for. */
const char *__asan_default_options(void);
const char *__asan_default_options(void) { return "abort_on_error=1:detect_leaks=0"; }

/* splitmix64. */
static uint64_t next_random(void) {
    state += 0x9e3779b97f4a7c15u;
    uint64_t word = state;
    word = (word ^ (word >> 30)) * 0xbf58476d1ce4e5b9u;
    word = (word ^ (word >> 27)) * 0x94d049bb133111ebu;
    return word ^ (word >> 31);
}

static size_t below(size_t bound) { return (size_t)(next_random() % bound); }

/* Writes the input that ended the program as hexadecimal digits. Only calls
 * that a signal handler may make. */
static void tell_input(int number) {
    static const char digits[] = "0123456789abcdef";
    static char text[2 * MOST_BYTES + 1];
    for (size_t index = 0; index < current_length; index++) {
        text[2 * index] = digits[current[index] >> 4];
        text[2 * index + 1] = digits[current[index] & 15];
    }
    text[2 * current_length] = '\n';
    static const char words[] = "fuzz: the input was\n";
    ssize_t done = write(2, words, sizeof words - 1);
    done = write(2, text, 2 * current_length + 1);
    (void)done;
    signal(number, SIG_DFL);
    raise(number);
}

static File load(const char *path) {
    File file = {malloc(MOST_BYTES), 0};
    FILE *stream = fopen(path, "rb");
    if (file.bytes == NULL || stream == NULL) {
        perror(path);
        exit(2);
    }
    file.length = fread(file.bytes, 1, MOST_BYTES, stream);
    fclose(stream);
    return file;
}

static void take(const File *file) {
    memcpy(current, file->bytes, file->length);
    current_length = file->length;
}

static void insert(size_t at, const uint8_t *bytes, size_t count) {
    if (current_length + count > MOST_BYTES) {
        return;
    }
    memmove(current + at + count, current + at, current_length - at);
    memcpy(current + at, bytes, count);
    current_length += count;
}

static void delete_bytes(size_t at, size_t count) {
    size_t rest = current_length - at;
    count = count < rest ? count : rest;
    memmove(current + at, current + at + count, rest - count);
    current_length -= count;
}

/* The end of the chunk at an offset, or 0 where there is none. */
static size_t chunk_end(size_t at) {
    if (at + 8 > current_length) {
        return 0;
    }
    const uint8_t *field = current + at + 4;
    size_t length = 0;
    for (size_t index = 0; index < 4; index++) {
        length = length << 8 | field[index];
    }
    size_t end = at + 8 + length + length % 2;
    return end <= current_length ? end : 0;
}

/* The offset of some chunk, or 0 where there is none. */
static size_t some_chunk(void) {
    size_t found = 0;
    size_t seen = 0;
    for (size_t at = 12; chunk_end(at) != 0; at = chunk_end(at)) {
        seen++;
        if (below(seen) == 0) {
            found = at;
        }
    }
    return found;
}

/* A chunk of one file, put before a chunk of the current one. */
static void insert_chunk(const File *other) {
    uint8_t chunk[4096];
    size_t at = some_chunk();
    uint8_t kept[MOST_BYTES];
    size_t kept_length = current_length;
    memcpy(kept, current, current_length);
    take(other);
    size_t from = some_chunk();
    size_t count = from == 0 ? 0 : chunk_end(from) - from;
    count = count <= sizeof chunk ? count : 0;
    memcpy(chunk, current + from, count);
    memcpy(current, kept, kept_length);
    current_length = kept_length;
    if (at != 0) {
        insert(at, chunk, count);
    }
}

static void change_length(void) {
    size_t at = some_chunk();
    if (at != 0) {
        current[at + 7] = (uint8_t)(current[at + 7] + below(9) - 4);
    }
}

static void put_edge(size_t at) {
    static const uint8_t edges[] = {0, 1, 2, 3, 127, 128, 200, 254, 255};
    current[at] = edges[below(sizeof edges)];
}

static void change(const File *other) {
    if (current_length == 0) {
        return;
    }
    size_t at = below(current_length);
    uint8_t few[4] = {(uint8_t)next_random(), 0, 255, (uint8_t)below(8)};
    switch (below(10)) {
    case 0: case 1: current[at] ^= (uint8_t)(1u << below(8)); break;
    case 2: case 3: put_edge(at); break;
    case 4: insert(at, few, 1 + below(4)); break;
    case 5: delete_bytes(at, 1 + below(4)); break;
    case 6: insert_chunk(other); break;
    case 7: change_length(); break;
    case 8: delete_bytes(at, current_length); break;
    default: current[at] = (uint8_t)(current[at] + 1 - 2 * below(2)); break;
    }
}

/* A wrong FORM length would hide everything else, so it is mostly right. */
static void correct_form_length(void) {
    if (current_length >= 8) {
        size_t length = current_length - 8;
        for (size_t index = 0; index < 4; index++) {
            current[4 + index] = (uint8_t)(length >> (24 - 8 * index));
        }
    }
}

static void change_some(const File *files, size_t count) {
    take(&files[below(count)]);
    size_t changes = below(4) == 0 ? below(20) : below(4);
    for (size_t done = 0; done < changes; done++) {
        change(&files[below(count)]);
    }
    if (below(10) != 0) {
        correct_form_length();
    }
}

/* A number of the command line, or the end of the program. */
static unsigned long long number_of(const char *word) {
    char *end;
    unsigned long long number = strtoull(word, &end, 10);
    if (end == word || *end != '\0') {
        fprintf(stderr, "fuzz: %s is not a number\n", word);
        exit(2);
    }
    return number;
}

static File *load_all(char **paths, size_t count) {
    File *files = calloc(count, sizeof *files);
    if (files == NULL) {
        perror("fuzz");
        exit(2);
    }
    for (size_t index = 0; index < count; index++) {
        files[index] = load(paths[index]);
    }
    return files;
}

static void catch_signals(void) {
    static const int signals[] = {SIGSEGV, SIGBUS, SIGABRT, SIGFPE, SIGILL};
    for (size_t index = 0; index < sizeof signals / sizeof *signals; index++) {
        signal(signals[index], tell_input);
    }
}

static unsigned long feed_unchanged(const File *files, size_t count) {
    for (size_t index = 0; index < count; index++) {
        take(&files[index]);
        LLVMFuzzerTestOneInput(current, current_length);
    }
    return count;
}

static unsigned long feed_changed(const File *files, size_t count, time_t seconds) {
    time_t end = time(NULL) + seconds;
    unsigned long inputs = 0;
    while (time(NULL) < end) {
        change_some(files, count);
        LLVMFuzzerTestOneInput(current, current_length);
        inputs++;
    }
    return inputs;
}

int main(int count, char **words) {
    if (count < 4) {
        fprintf(stderr, "usage: fuzz SECONDS SEED FILE...\n");
        return 2;
    }
    time_t seconds = (time_t)number_of(words[1]);
    state = number_of(words[2]);
    size_t files_count = (size_t)count - 3;
    File *files = load_all(words + 3, files_count);
    catch_signals();
    unsigned long inputs = feed_unchanged(files, files_count);
    if (fuzz_accepted == 0) {
        fprintf(stderr, "fuzz: none of the files is accepted, so nothing would be tested\n");
        return 1;
    }
    inputs += feed_changed(files, files_count, seconds);
    printf("fuzz: seed %s, %lu inputs, %lu of them accepted, %s s\n", words[2], inputs,
           fuzz_accepted, words[1]);
    return 0;
}
