/*
 * Prints the panels of a LightWave object file by the board that each is cut from,
 * and by the part of the figure that it belongs to, where it belongs to one:
 *
 *   gcc -std=c99 boards.c $(pkg-config --cflags --libs lwo) -o boards
 *   ./boards panel.lwo
 *
 * Exits with 0, with 1 where the file cannot be read or is refused, and with 2 where
 * no file is given.
 */
#include <lwo.h>

#include <stdio.h>
#include <stdlib.h>
#include <string.h>

/* The mesh of a file, in the tables that the library fills. */
typedef struct Mesh {
    LwoAnswer counts;
    uint32_t *points;
    uint32_t *polygons;
    uint32_t *vertices;
    uint32_t *names;
    uint8_t *name_bytes;
    uint32_t *records;
} Mesh;

/* A polygon: its words in the table, and its vertices. */
typedef struct Panel {
    const uint32_t *words;
    const uint32_t *vertices;
} Panel;

/* What is cut from one board, for one part. */
typedef struct Board {
    unsigned long faces, patches, vertices;
    float lowest[LWO_POINT_WORDS], highest[LWO_POINT_WORDS];
} Board;

/* Memory for so many things, and for one more, since calloc may give NULL for
   none. */
static void *memory(size_t count, size_t size)
{
    void *bytes = calloc(count + 1, size);
    if (bytes == NULL) {
        fputs("boards: there is not enough memory\n", stderr);
        exit(1);
    }
    return bytes;
}

static void *table(uint64_t words)
{
    return memory((size_t)words, sizeof(uint32_t));
}

/* The bytes of a file, up to one more than the library reads. */
static uint8_t *load(const char *name, size_t *length)
{
    FILE *stream = fopen(name, "rb");
    uint8_t *bytes = table(LWO_FILE_BYTES / sizeof(uint32_t) + 1);
    if (stream == NULL) {
        perror(name);
        exit(1);
    }
    *length = fread(bytes, 1, LWO_FILE_BYTES + 1, stream);
    if (ferror(stream)) {
        perror(name);
        exit(1);
    }
    fclose(stream);
    return bytes;
}

/* Reads in two calls: the first has no tables and says how long they have to be. */
static LwoAnswer read_mesh(const uint8_t *file, size_t length, Mesh *mesh)
{
    LwoAnswer need = lwo_read(file, length, NULL, 0, NULL, 0, NULL, 0, NULL, 0,
                              NULL, 0, NULL, 0);
    if (need.number != LWO_ACCEPTED && need.number != LWO_NO_ROOM) {
        return need;
    }
    mesh->points = table(need.points * LWO_POINT_WORDS);
    mesh->polygons = table(need.polygons * LWO_POLYGON_WORDS);
    mesh->vertices = table(need.vertices);
    mesh->names = table(need.names);
    mesh->name_bytes = table(need.name_bytes);
    mesh->records = table(need.names * LWO_RECORD_WORDS);
    mesh->counts = lwo_read(file, length,
                            mesh->points, need.points * LWO_POINT_WORDS,
                            mesh->polygons, need.polygons * LWO_POLYGON_WORDS,
                            mesh->vertices, need.vertices,
                            mesh->names, need.names,
                            mesh->name_bytes, need.name_bytes,
                            mesh->records, need.names * LWO_RECORD_WORDS);
    return mesh->counts;
}

/* A coordinate of a point: the words are the bits of floats. */
static float coordinate(const Mesh *mesh, uint32_t point, int axis)
{
    float value;
    memcpy(&value, &mesh->points[(size_t)point * LWO_POINT_WORDS + (size_t)axis],
           sizeof value);
    return value;
}

static void add_vertex(Board *board, const Mesh *mesh, uint32_t point)
{
    for (int axis = 0; axis < LWO_POINT_WORDS; axis += 1) {
        float value = coordinate(mesh, point, axis);
        if (board->vertices == 0 || value < board->lowest[axis]) {
            board->lowest[axis] = value;
        }
        if (board->vertices == 0 || value > board->highest[axis]) {
            board->highest[axis] = value;
        }
    }
    board->vertices += 1;
}

static void add_panel(Board *board, const Mesh *mesh, const Panel *panel)
{
    if (panel->words[LWO_POLYGON_KIND] == LWO_FACE) {
        board->faces += 1;
    } else {
        board->patches += 1;
    }
    for (uint32_t i = 0; i < panel->words[LWO_POLYGON_VERTICES]; i += 1) {
        add_vertex(board, mesh, panel->vertices[i]);
    }
}

/* All polygons' vertices are joined, so the next one's begin where this one's
   end. */
static Panel *panels_of(const Mesh *mesh)
{
    Panel *panels = memory((size_t)mesh->counts.polygons, sizeof *panels);
    const uint32_t *vertices = mesh->vertices;
    for (uint64_t number = 0; number < mesh->counts.polygons; number += 1) {
        panels[number].words = &mesh->polygons[number * LWO_POLYGON_WORDS];
        panels[number].vertices = vertices;
        vertices += panels[number].words[LWO_POLYGON_VERTICES];
    }
    return panels;
}

/* The numbers of names count from 1, and 0 is for none. None comes last here: one
   less than 0 is the highest number. */
static int compare_names(uint32_t one, uint32_t other)
{
    return (one - 1 > other - 1) - (one - 1 < other - 1);
}

/* By their parts, and those of one part by their boards. */
static int compare_panels(const void *one, const void *other)
{
    const uint32_t *words = ((const Panel *)one)->words;
    const uint32_t *others = ((const Panel *)other)->words;
    int by_part = compare_names(words[LWO_POLYGON_PART], others[LWO_POLYGON_PART]);
    if (by_part != 0) {
        return by_part;
    }
    return compare_names(words[LWO_POLYGON_SURFACE], others[LWO_POLYGON_SURFACE]);
}

/* Where each name's bytes begin: they are all joined, without zero bytes between. */
static const uint8_t **name_starts(const Mesh *mesh)
{
    const uint8_t **starts = memory((size_t)mesh->counts.names, sizeof *starts);
    const uint8_t *bytes = mesh->name_bytes;
    for (uint64_t name = 0; name < mesh->counts.names; name += 1) {
        starts[name] = bytes;
        bytes += mesh->names[name];
    }
    return starts;
}

/* The name of this number. Its bytes may be any but zero, so what is not plain text
   is written out. */
static void print_name(const Mesh *mesh, const uint8_t **starts, uint32_t number)
{
    const uint8_t *bytes = starts[number - 1];
    putchar('"');
    for (uint32_t i = 0; i < mesh->names[number - 1]; i += 1) {
        if (bytes[i] == '\\') {
            fputs("\\\\", stdout);
        } else if (bytes[i] < 32 || bytes[i] > 126) {
            printf("\\x%02x", (unsigned)bytes[i]);
        } else {
            putchar(bytes[i]);
        }
    }
    putchar('"');
}

/* The board that a panel is cut from, and its part, if it belongs to one. */
static void print_names(const Mesh *mesh, const uint8_t **starts,
                        const Panel *panel)
{
    uint32_t surface = panel->words[LWO_POLYGON_SURFACE];
    uint32_t part = panel->words[LWO_POLYGON_PART];
    if (surface == 0) {
        fputs("no surface", stdout);
    } else {
        print_name(mesh, starts, surface);
    }
    if (part != 0) {
        fputs(", part ", stdout);
        print_name(mesh, starts, part);
    }
}

/* Coordinates are in metres. */
static void print_board(const Board *board)
{
    printf(": %lu faces, %lu patches, %lu vertices, %.3f x %.3f x %.3f mm\n",
           board->faces, board->patches, board->vertices,
           ((double)board->highest[0] - (double)board->lowest[0]) * 1000,
           ((double)board->highest[1] - (double)board->lowest[1]) * 1000,
           ((double)board->highest[2] - (double)board->lowest[2]) * 1000);
}

/* A line for all panels of one part and one board. */
static void print_boards(const Mesh *mesh)
{
    Panel *panels = panels_of(mesh);
    const uint8_t **starts = name_starts(mesh);
    size_t count = (size_t)mesh->counts.polygons, next = 0;
    qsort(panels, count, sizeof *panels, compare_panels);
    while (next < count) {
        const Panel *first = &panels[next];
        Board board = {0};
        while (next < count && compare_panels(first, &panels[next]) == 0) {
            add_panel(&board, mesh, &panels[next]);
            next += 1;
        }
        print_names(mesh, starts, first);
        print_board(&board);
    }
    free(starts);
    free(panels);
}

int main(int count, char **words)
{
    if (count != 2) {
        fputs("usage: boards FILE\n", stderr);
        return 2;
    }
    size_t length;
    uint8_t *file = load(words[1], &length);
    Mesh mesh;
    LwoAnswer answer = read_mesh(file, length, &mesh);
    if (answer.number != LWO_ACCEPTED) {
        fprintf(stderr, "%s: refused %lu at %lu\n", words[1],
                (unsigned long)answer.number, (unsigned long)answer.place);
        return 1;
    }
    print_boards(&mesh);
    free(mesh.points);
    free(mesh.polygons);
    free(mesh.vertices);
    free(mesh.names);
    free(mesh.name_bytes);
    free(mesh.records);
    free(file);
    if (fflush(stdout) != 0) {
        perror("standard output");
        return 1;
    }
    return 0;
}
