/*
 * How much stack the library's functions take: each call is made on a stack of
 * LWO_STACK_BYTES bytes between pages that nobody may touch, which was painted
 * before; what is not painted any more was used. So a call that needed more than
 * the header says would end this program.
 *
 * Reads every file that standard input names, one a line, and writes its mesh.
 * Prints the most bytes that each function took.
 */
#define _GNU_SOURCE
#include <lwo.h>

#include <stdio.h>
#include <stdlib.h>
#include <string.h>
#include <sys/mman.h>
#include <ucontext.h>
#include <unistd.h>

#define PAINT 0xc9

static uint8_t *stack;
static ucontext_t here, there;

static void fail(const char *what)
{
    perror(what);
    exit(1);
}

/* A stack with a page on each side that nobody may touch. */
static void make_stack(void)
{
    size_t page = (size_t)sysconf(_SC_PAGESIZE);
    uint8_t *pages = mmap(NULL, LWO_STACK_BYTES + 2 * page, PROT_READ | PROT_WRITE,
                          MAP_PRIVATE | MAP_ANONYMOUS, -1, 0);
    if (LWO_STACK_BYTES % page != 0 || pages == MAP_FAILED ||
        mprotect(pages, page, PROT_NONE) != 0 ||
        mprotect(pages + page + LWO_STACK_BYTES, page, PROT_NONE) != 0) {
        fail("no stack");
    }
    stack = pages + page;
}

/* Makes a call on the painted stack and gives the bytes that it used. */
static size_t used_by(void (*call)(void))
{
    memset(stack, PAINT, LWO_STACK_BYTES);
    if (getcontext(&there) != 0) {
        fail("no context");
    }
    there.uc_stack.ss_sp = stack;
    there.uc_stack.ss_size = LWO_STACK_BYTES;
    there.uc_link = &here;
    makecontext(&there, call, 0);
    if (swapcontext(&here, &there) != 0) {
        fail("no switch");
    }
    size_t untouched = 0;
    while (untouched < LWO_STACK_BYTES && stack[untouched] == PAINT) {
        untouched += 1;
    }
    return LWO_STACK_BYTES - untouched;
}

/* What the calls are given, and what they answer. */
typedef struct Tables {
    uint32_t *points, *polygons, *vertices, *names, *records;
    uint8_t *name_bytes;
} Tables;

static uint8_t *file, *out;
static size_t file_length, out_length;
static Tables tables;
static LwoAnswer needs, answer;
static LwoWritten written;

static void nothing(void)
{
}

static void read_file(void)
{
    answer = lwo_read(file, file_length, tables.points,
                      needs.points * LWO_POINT_WORDS, tables.polygons,
                      needs.polygons * LWO_POLYGON_WORDS, tables.vertices,
                      needs.vertices, tables.names, needs.names, tables.name_bytes,
                      needs.name_bytes, tables.records,
                      needs.names * LWO_RECORD_WORDS);
}

static void write_file(void)
{
    written = lwo_write(tables.points, needs.points * LWO_POINT_WORDS,
                        tables.polygons, needs.polygons * LWO_POLYGON_WORDS,
                        tables.vertices, needs.vertices, tables.names, needs.names,
                        tables.name_bytes, needs.name_bytes, tables.records,
                        needs.names * LWO_RECORD_WORDS, out, out_length);
}

static void *memory(size_t bytes)
{
    void *new = malloc(bytes + 1);
    if (new == NULL) {
        fail("no memory");
    }
    return new;
}

static void load(const char *name)
{
    FILE *stream = fopen(name, "rb");
    if (stream == NULL || fseek(stream, 0, SEEK_END) != 0) {
        fail(name);
    }
    file_length = (size_t)ftell(stream);
    rewind(stream);
    file = memory(file_length);
    if (fread(file, 1, file_length, stream) != file_length) {
        fail(name);
    }
    fclose(stream);
}

static size_t larger(size_t one, size_t other)
{
    return one > other ? one : other;
}

/* Reads and writes a file in two calls each, and notes the most that they took. */
static void measure(const char *name, size_t *read_most, size_t *write_most)
{
    load(name);
    needs = (LwoAnswer){0};
    tables = (Tables){0};
    *read_most = larger(*read_most, used_by(read_file));
    if (answer.number == LWO_ACCEPTED || answer.number == LWO_NO_ROOM) {
        needs = answer;
        tables.points = memory(needs.points * LWO_POINT_WORDS * 4);
        tables.polygons = memory(needs.polygons * LWO_POLYGON_WORDS * 4);
        tables.vertices = memory(needs.vertices * 4);
        tables.names = memory(needs.names * 4);
        tables.name_bytes = memory(needs.name_bytes);
        tables.records = memory(needs.names * LWO_RECORD_WORDS * 4);
        *read_most = larger(*read_most, used_by(read_file));
        out = NULL;
        out_length = 0;
        *write_most = larger(*write_most, used_by(write_file));
        out_length = written.length;
        out = memory(out_length);
        *write_most = larger(*write_most, used_by(write_file));
        free(out);
        free(tables.points);
        free(tables.polygons);
        free(tables.vertices);
        free(tables.names);
        free(tables.name_bytes);
        free(tables.records);
    }
    free(file);
}

int main(void)
{
    make_stack();
    size_t read_most = 0, write_most = 0;
    char name[4096];
    while (fgets(name, sizeof name, stdin) != NULL) {
        name[strcspn(name, "\n")] = 0;
        measure(name, &read_most, &write_most);
    }
    /* What the switch itself puts on the stack is not the library's. */
    size_t empty = used_by(nothing);
    printf("lwo_read %zu\nlwo_write %zu\n", read_most - empty, write_most - empty);
    return 0;
}
