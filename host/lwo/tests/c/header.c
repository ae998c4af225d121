/*
 * Uses the library as a C program does: reads the 104 bytes of case l of document
 * 01 in two calls, checks every word, writes the mesh and compares the bytes, and
 * has files refused. Prints what is wrong and exits with 1, or prints nothing.
 */
#include <lwo.h>

#include <inttypes.h>
#include <stdio.h>
#include <string.h>

#define COUNT(table) (sizeof(table) / sizeof((table)[0]))

/* A word or byte that no reader puts here, to see that it is left alone. */
#define GUARD 0xA5u

static const uint8_t CASE_L[] = {
    'F', 'O', 'R', 'M', 0, 0, 0, 0x60, 'L', 'W', 'O', '2',
    'T', 'A', 'G', 'S', 0, 0, 0, 4, 'O', 'a', 'k', 0,
    'P', 'N', 'T', 'S', 0, 0, 0, 0x24,
    0, 0, 0, 0, 0, 0, 0, 0, 0, 0, 0, 0,
    0x3f, 0x80, 0, 0, 0, 0, 0, 0, 0, 0, 0, 0,
    0, 0, 0, 0, 0x40, 0, 0, 0, 0, 0, 0, 0,
    'P', 'O', 'L', 'S', 0, 0, 0, 12, 'F', 'A', 'C', 'E',
    0, 3, 0, 0, 0, 1, 0, 2,
    'P', 'T', 'A', 'G', 0, 0, 0, 8, 'S', 'U', 'R', 'F', 0, 0, 0, 0,
};

/* What case l has behind it where its name is the polygon's part too. */
static const uint8_t PART[] = {
    'P', 'T', 'A', 'G', 0, 0, 0, 8, 'P', 'A', 'R', 'T', 0, 0, 0, 0,
};

static int faults = 0;

static void same(const char *what, uint64_t found, uint64_t wanted)
{
    if (found != wanted) {
        printf("%s: %" PRIu64 ", and not %" PRIu64 "\n", what, found, wanted);
        faults += 1;
    }
}

static void same_words(const char *what, const uint32_t *found,
                       const uint32_t *wanted, size_t count)
{
    for (size_t i = 0; i < count; i += 1) {
        if (found[i] != wanted[i]) {
            printf("%s, word %zu: %" PRIx32 ", and not %" PRIx32 "\n", what, i,
                   found[i], wanted[i]);
            faults += 1;
        }
    }
}

static void same_bytes(const char *what, const uint8_t *found,
                       const uint8_t *wanted, size_t count)
{
    for (size_t i = 0; i < count; i += 1) {
        if (found[i] != wanted[i]) {
            printf("%s, byte %zu: %x, and not %x\n", what, i, (unsigned)found[i],
                   (unsigned)wanted[i]);
            faults += 1;
        }
    }
}

static void same_counts(LwoAnswer answer)
{
    same("place", answer.place, 0);
    same("points", answer.points, 3);
    same("polygons", answer.polygons, 1);
    same("vertices", answer.vertices, 3);
    same("names", answer.names, 1);
    same("name bytes", answer.name_bytes, 3);
    same("skipped", answer.skipped, 0);
    same("details", answer.details, 0);
}

/* The first of the two calls: tables of length 0. */
static LwoAnswer needs(const uint8_t *file, size_t length)
{
    uint32_t word = GUARD;
    uint8_t byte = GUARD;
    LwoAnswer answer = lwo_read(file, length, &word, 0, &word, 0, &word, 0,
                                &word, 0, &byte, 0, &word, 0);
    same("a word that was not lent", word, GUARD);
    same("a byte that was not lent", byte, GUARD);
    return answer;
}

/* A table, file or output of length 0 may be NULL. */
static void takes_null(void)
{
    LwoAnswer need = lwo_read(CASE_L, sizeof CASE_L, NULL, 0, NULL, 0, NULL, 0,
                              NULL, 0, NULL, 0, NULL, 0);
    same("tables that are NULL", need.number, LWO_NO_ROOM);
    same_counts(need);
    LwoAnswer none = lwo_read(NULL, 0, NULL, 0, NULL, 0, NULL, 0, NULL, 0, NULL, 0,
                              NULL, 0);
    same("a file that is NULL", none.number, LWO_NOT_AN_OBJECT);
    LwoWritten written = lwo_write(NULL, 0, NULL, 0, NULL, 0, NULL, 0, NULL, 0,
                                   NULL, 0, NULL, 0);
    same("an output that is NULL", written.number, LWO_NO_ROOM);
    same("the length of the empty mesh's file", written.length, 12);
    uint8_t out[12];
    written = lwo_write(NULL, 0, NULL, 0, NULL, 0, NULL, 0, NULL, 0, NULL, 0, out,
                        sizeof out);
    same("the empty mesh written", written.number, LWO_ACCEPTED);
    same_bytes("its file", out, (const uint8_t *)"FORM\0\0\0\4LWO2", sizeof out);
}

/* Tables of the size that case l needs, each with one element more, which is not
   lent. */
typedef struct Tables {
    uint32_t points[3 * LWO_POINT_WORDS + 1];
    uint32_t polygons[1 * LWO_POLYGON_WORDS + 1];
    uint32_t vertices[3 + 1];
    uint32_t names[1 + 1];
    uint8_t name_bytes[3 + 1];
    uint32_t records[1 * LWO_RECORD_WORDS + 1];
} Tables;

/* The mesh of case l, as its listing has it, and a guard behind each table. */
static const Tables MESH_L = {
    {0, 0, 0, 0x3f800000, 0, 0, 0, 0x40000000, 0, GUARD},
    {LWO_FACE, 3, 1, 0, GUARD},
    {0, 1, 2, GUARD},
    {3, GUARD},
    {'O', 'a', 'k', GUARD},
    {0, 0x3f800000, 0x3f800000, 0x3f800000, 0x3f800000, 0, 0, 0, 0, 1, GUARD},
};

/* The second call. */
static LwoAnswer read_into(Tables *tables, const uint8_t *file, size_t length)
{
    return lwo_read(file, length, tables->points, COUNT(tables->points) - 1,
                    tables->polygons, COUNT(tables->polygons) - 1,
                    tables->vertices, COUNT(tables->vertices) - 1,
                    tables->names, COUNT(tables->names) - 1,
                    tables->name_bytes, COUNT(tables->name_bytes) - 1,
                    tables->records, COUNT(tables->records) - 1);
}

static LwoWritten write_from(const Tables *tables, uint8_t *out, size_t length)
{
    return lwo_write(tables->points, COUNT(tables->points) - 1,
                     tables->polygons, COUNT(tables->polygons) - 1,
                     tables->vertices, COUNT(tables->vertices) - 1,
                     tables->names, COUNT(tables->names) - 1,
                     tables->name_bytes, COUNT(tables->name_bytes) - 1,
                     tables->records, COUNT(tables->records) - 1, out, length);
}

/* Every table with every element not yet what the mesh has there. */
static Tables other_tables(void)
{
    Tables tables;
    memset(&tables, 0x5a, sizeof tables);
    tables.points[COUNT(tables.points) - 1] = GUARD;
    tables.polygons[COUNT(tables.polygons) - 1] = GUARD;
    tables.vertices[COUNT(tables.vertices) - 1] = GUARD;
    tables.names[COUNT(tables.names) - 1] = GUARD;
    tables.name_bytes[COUNT(tables.name_bytes) - 1] = GUARD;
    tables.records[COUNT(tables.records) - 1] = GUARD;
    return tables;
}

static void same_tables(const Tables *found, const Tables *wanted)
{
    same_words("points", found->points, wanted->points, COUNT(wanted->points));
    same_words("polygons", found->polygons, wanted->polygons,
               COUNT(wanted->polygons));
    same_words("vertices", found->vertices, wanted->vertices,
               COUNT(wanted->vertices));
    same_words("names", found->names, wanted->names, COUNT(wanted->names));
    same_bytes("name bytes", found->name_bytes, wanted->name_bytes,
               COUNT(wanted->name_bytes));
    same_words("records", found->records, wanted->records,
               COUNT(wanted->records));
}

static void reads_in_two_calls(void)
{
    LwoAnswer need = needs(CASE_L, sizeof CASE_L);
    same("the first call", need.number, LWO_NO_ROOM);
    same_counts(need);

    Tables tables = other_tables();
    LwoAnswer answer = read_into(&tables, CASE_L, sizeof CASE_L);
    same("the second call", answer.number, LWO_ACCEPTED);
    same_counts(answer);
    same_tables(&tables, &MESH_L);
}

static void writes_in_two_calls(void)
{
    uint8_t out[sizeof CASE_L + 1];
    memset(out, GUARD, sizeof out);
    LwoWritten need = write_from(&MESH_L, out, 0);
    same("the length asked for", need.number, LWO_NO_ROOM);
    same("its place", need.place, 0);
    same("the length needed", need.length, sizeof CASE_L);
    same("an output that was not lent", out[0], GUARD);

    LwoWritten written = write_from(&MESH_L, out, sizeof out);
    same("the writer's number", written.number, LWO_ACCEPTED);
    same("its place", written.place, 0);
    same("the length written", written.length, sizeof CASE_L);
    same_bytes("the canonical file", out, CASE_L, sizeof CASE_L);
    same("the byte past the file", out[sizeof CASE_L], GUARD);
}

/* Case l with its name as a part: of type PART, or of another type. */
typedef struct Parted {
    uint8_t file[sizeof CASE_L + sizeof PART];
} Parted;

static Parted parted(const char *type)
{
    Parted made;
    memcpy(made.file, CASE_L, sizeof CASE_L);
    memcpy(made.file + sizeof CASE_L, PART, sizeof PART);
    memcpy(made.file + sizeof CASE_L + 8, type, 4);
    made.file[7] = (uint8_t)(sizeof made.file - 8);
    return made;
}

/* The mesh of case l with this part. */
static Tables mesh_with_part(uint32_t part)
{
    Tables tables = MESH_L;
    tables.polygons[LWO_POLYGON_PART] = part;
    return tables;
}

/* The part is the polygon's fourth word; what another type says is not kept. */
static void reads_a_part(const char *type, uint32_t part)
{
    Parted whole = parted(type);
    Tables tables = other_tables(), wanted = mesh_with_part(part);
    LwoAnswer answer = read_into(&tables, whole.file, sizeof whole.file);
    same("a file with a part", answer.number, LWO_ACCEPTED);
    same_counts(answer);
    same_tables(&tables, &wanted);
}

/* The canonical file has the part behind the surface. */
static void writes_a_part(void)
{
    Parted whole = parted("PART");
    Tables tables = mesh_with_part(1);
    uint8_t out[sizeof whole.file + 1];
    memset(out, GUARD, sizeof out);
    LwoWritten written = write_from(&tables, out, sizeof out);
    same("a mesh with a part", written.number, LWO_ACCEPTED);
    same("its length", written.length, sizeof whole.file);
    same_bytes("its canonical file", out, whole.file, sizeof whole.file);
    same("the byte past it", out[sizeof whole.file], GUARD);
}

/* A vertex that names no point, a part that is no name, and a colour where no
   surface is defined. */
static void refuses_to_write(void)
{
    uint8_t out[sizeof CASE_L];
    Tables tables = MESH_L;
    tables.vertices[2] = 3;
    memset(out, GUARD, sizeof out);
    LwoWritten written = write_from(&tables, out, sizeof out);
    same("tables that are no mesh", written.number, LWO_NOT_A_MESH);
    same("their place", written.place, 0);
    same("their length", written.length, 0);
    same("an output after a refusal", out[0], GUARD);

    tables = mesh_with_part(2);
    written = write_from(&tables, out, sizeof out);
    same("a part above the name count", written.number, LWO_NOT_A_MESH);

    tables = MESH_L;
    for (int level = 1; level <= 3; level++)
        tables.records[level] = 0x3f000000;
    written = write_from(&tables, out, sizeof out);
    same("a surface that is not defined, with a colour of 0.5", written.number,
         LWO_NOT_A_MESH);
}

/* A file is refused, and no table is changed. */
static void refuses(const uint8_t *file, size_t length, uint64_t number,
                    uint64_t place)
{
    Tables tables = other_tables();
    Tables before = tables;
    LwoAnswer answer = read_into(&tables, file, length);
    same("the number of a refusal", answer.number, number);
    same("its place", answer.place, place);
    same("its needs and counts",
         answer.points + answer.polygons + answer.vertices + answer.names +
             answer.name_bytes + answer.skipped + answer.details,
         0);
    same_tables(&tables, &before);
}

/* So is case l with one byte changed. */
static void refuses_byte(size_t byte, uint8_t value, uint64_t number,
                         uint64_t place)
{
    uint8_t file[sizeof CASE_L];
    memcpy(file, CASE_L, sizeof file);
    file[byte] = value;
    refuses(file, sizeof file, number, place);
}

static void refuses_to_read(void)
{
    /* The last vertex, at 86, names a fourth point. */
    refuses_byte(87, 3, LWO_VERTEX_NUMBER, 86);
    /* The polygon has a fourth vertex, which would begin where its chunk ends. */
    refuses_byte(81, 4, LWO_ITEM_CUT, 88);
    /* The first vertex, at 82, and the polygon of PTAG, at 100, have four bytes. */
    refuses_byte(82, 255, LWO_LONG_INDEX, 82);
    refuses_byte(100, 255, LWO_LONG_INDEX, 100);
    /* The last vertex should have four, and its chunk ends after two. */
    refuses_byte(86, 255, LWO_ITEM_CUT, 86);
    /* The name, at 20, has no zero byte at its end. */
    refuses_byte(23, 's', LWO_STRING_OPEN, 20);
    /* The header of PTAG, at 88, has a length past the end of the file. */
    refuses_byte(95, 9, LWO_CHUNK, 88);
}

/* So is case l with a part, with one byte of its PTAG changed. */
static void refuses_part_byte(size_t byte, uint8_t value, uint64_t number,
                              uint64_t place)
{
    Parted whole = parted("PART");
    whole.file[byte] = value;
    refuses(whole.file, sizeof whole.file, number, place);
}

static void refuses_a_part(void)
{
    /* The polygon, at 116, has four bytes, or is a second one. */
    refuses_part_byte(116, 255, LWO_LONG_INDEX, 116);
    refuses_part_byte(117, 1, LWO_POLYGON_NUMBER, 116);
    /* The tag, at 118, is a second name. */
    refuses_part_byte(119, 1, LWO_SURFACE, 118);
}

/* A layer with the name Lid. */
static const uint8_t LAYER[] = {
    'L', 'A', 'Y', 'R', 0, 0, 0, 20, 0, 0, 0, 0,
    0, 0, 0, 0, 0, 0, 0, 0, 0, 0, 0, 0, 'L', 'i', 'd', 0,
};

/* Case l with a layer put in before the chunk at this offset. */
typedef struct Layered {
    uint8_t file[sizeof CASE_L + sizeof LAYER];
} Layered;

static Layered layered(size_t offset)
{
    Layered made;
    memcpy(made.file, CASE_L, offset);
    memcpy(made.file + offset, LAYER, sizeof LAYER);
    memcpy(made.file + offset + sizeof LAYER, CASE_L + offset,
           sizeof CASE_L - offset);
    made.file[7] = (uint8_t)(sizeof made.file - 8);
    return made;
}

/* A layer before PNTS is not kept, nor counted as skipped. */
static void reads_a_layer(void)
{
    Layered whole = layered(24);
    Tables tables = other_tables();
    LwoAnswer answer = read_into(&tables, whole.file, sizeof whole.file);
    same("a file with a layer", answer.number, LWO_ACCEPTED);
    same_counts(answer);
    same_tables(&tables, &MESH_L);
}

/* The chunk at this offset lacks in its layer what comes before the layer. */
static void refuses_to_borrow(size_t offset)
{
    Layered lacking = layered(offset);
    refuses(lacking.file, sizeof lacking.file, LWO_ORDER, offset + sizeof LAYER);
}

int main(void)
{
    same("version", lwo_version(), LWO_VERSION_NUMBER);
    takes_null();
    reads_in_two_calls();
    writes_in_two_calls();
    refuses_to_read();
    reads_a_layer();
    refuses_to_borrow(68); /* POLS: points */
    refuses_to_borrow(88); /* PTAG: polygons */
    reads_a_part("PART", 1);
    reads_a_part("SMGP", 0);
    writes_a_part();
    refuses_a_part();
    refuses_to_write();
    return faults == 0 ? 0 : 1;
}
