/* What is asked of the library for any bytes, as LLVMFuzzerTestOneInput, the
 * name that libFuzzer and AFL++ know. The bytes are read with several rooms,
 * every buffer ends at a guard page or begins behind one, and what the demands
 * say of the library alone has to hold:
 *
 * - a refusal changes no byte of any table, and its number, place and counts
 *   do not go by the room;
 * - one word less than is needed in any one table is NO ROOM;
 * - longer tables give the same answer and mesh, and keep the rest;
 * - one more unlisted chunk gives the same mesh and one more skipped, or the
 *   same refusal at a place moved by that chunk;
 * - an accepted mesh is written, and read again is the same, to the bit;
 * - tables that were changed in one bit are written and read again the same,
 *   or are no mesh.
 *
 * And the answer to empty tables has to be the second program's, which runs in the
 * same process: a fuzzer that looks for new branches sees that program's, since
 * the library cannot be built to show its own. */
#include "target.h"

#include "../include/lwo.h"
#include "guarded.h"

#include <stdio.h>
#include <stdlib.h>
#include <string.h>

enum { POINTS, POLYGONS, VERTICES, NAMES, NAME_BYTES, RECORDS, TABLES };

enum { NO_ROOM = LWO_NO_ROOM, TOO_LONG = LWO_OUT_TOO_LONG };

/* The bytes of a word of each table, and the words of its entries. */
static const size_t WORD[TABLES] = {4, 4, 4, 4, 1, 4};
static const size_t ENTRY[TABLES] = {LWO_POINT_WORDS, LWO_POLYGON_WORDS, 1, 1, 1,
                                     LWO_RECORD_WORDS};

/* The most bytes of each table for a byte of the file: a point's words are 4 bytes
 * in both, a polygon takes at least 4 bytes of the file, a vertex 2, and a name,
 * with its length and its record, 2. */
static const size_t MOST[TABLES] = {1, LWO_POLYGON_WORDS, 2, 2, 1, 2 * LWO_RECORD_WORDS};

/* Longer inputs are passed over; no rule begins at this length. */
enum { MOST_INPUT = 1 << 18 };

typedef struct {
    Guarded table[TABLES];
    size_t words[TABLES];
} Tables;

unsigned long fuzz_accepted;

static Tables lent, mesh;
static Guarded input, longer_input, output;
static int ready;

static void get_ready(void) {
    for (int table = 0; table < TABLES; table++) {
        size_t room = MOST[table] * MOST_INPUT + 4096;
        lent.table[table] = guarded_new(room);
        mesh.table[table] = guarded_new(room);
    }
    input = guarded_new(MOST_INPUT + 4096);
    longer_input = guarded_new(MOST_INPUT + 4096);
    output = guarded_new(30 * MOST_INPUT);
    ready = 1;
}

static void demand(int holds, const char *what) {
    if (!holds) {
        fprintf(stderr, "fuzz: %s\n", what);
        abort();
    }
}

static void lend(Tables *tables, const size_t words[TABLES], Side side, uint32_t seed) {
    for (int table = 0; table < TABLES; table++) {
        tables->words[table] = words[table];
        guarded_lend(&tables->table[table], words[table] * WORD[table], side, seed);
    }
}

static uint32_t *words_of(const Tables *tables, int table) {
    return (uint32_t *)(void *)tables->table[table].start;
}

static LwoAnswer read_into(const Guarded *file, Tables *tables) {
    return lwo_read(file->start, file->bytes,
                    words_of(tables, POINTS), tables->words[POINTS],
                    words_of(tables, POLYGONS), tables->words[POLYGONS],
                    words_of(tables, VERTICES), tables->words[VERTICES],
                    words_of(tables, NAMES), tables->words[NAMES],
                    tables->table[NAME_BYTES].start, tables->words[NAME_BYTES],
                    words_of(tables, RECORDS), tables->words[RECORDS]);
}

static LwoWritten write_from(const Tables *tables, Guarded *out) {
    return lwo_write(words_of(tables, POINTS), tables->words[POINTS],
                     words_of(tables, POLYGONS), tables->words[POLYGONS],
                     words_of(tables, VERTICES), tables->words[VERTICES],
                     words_of(tables, NAMES), tables->words[NAMES],
                     tables->table[NAME_BYTES].start, tables->words[NAME_BYTES],
                     words_of(tables, RECORDS), tables->words[RECORDS],
                     out->start, out->bytes);
}

/* Whether the two answers have the same place, needs and counts. */
static int same_but_number(const LwoAnswer *one, const LwoAnswer *other) {
    return one->place == other->place && one->points == other->points &&
           one->polygons == other->polygons && one->vertices == other->vertices &&
           one->names == other->names && one->name_bytes == other->name_bytes &&
           one->skipped == other->skipped && one->details == other->details;
}

/* Whether every table is unchanged behind its first words. */
static int unchanged_behind(const Tables *tables, const size_t words[TABLES], uint32_t seed) {
    for (int table = 0; table < TABLES; table++) {
        if (!guarded_unchanged(&tables->table[table], words[table] * WORD[table], seed)) {
            return 0;
        }
    }
    return 1;
}

static int unchanged(const Tables *tables, uint32_t seed) {
    static const size_t none[TABLES];
    return unchanged_behind(tables, none, seed);
}

static int same_front(const Tables *one, const Tables *other, const size_t words[TABLES]) {
    for (int table = 0; table < TABLES; table++) {
        size_t bytes = words[table] * WORD[table];
        if (memcmp(one->table[table].start, other->table[table].start, bytes) != 0) {
            return 0;
        }
    }
    return 1;
}

static void needed_words(const LwoAnswer *answer, size_t words[TABLES]) {
    const uint64_t entries[TABLES] = {answer->points, answer->polygons, answer->vertices,
                                      answer->names,  answer->name_bytes, answer->names};
    for (int table = 0; table < TABLES; table++) {
        words[table] = (size_t)entries[table] * ENTRY[table];
    }
}

/* The second program's answer: witness/src/lib.rs. */
typedef struct {
    uint64_t words[9];
} WitnessAnswer;

extern WitnessAnswer witness_read(const uint8_t *file, size_t length);

static void check_witness(const LwoAnswer *told) {
    const uint64_t words[9] = {told->number, told->place,   told->points,
                               told->polygons, told->vertices, told->names,
                               told->name_bytes, told->skipped, told->details};
    WitnessAnswer witness = witness_read(input.start, input.bytes);
    demand(memcmp(witness.words, words, sizeof words) == 0,
           "the second program answers otherwise");
}

/* Whether a number is that of a fault in a chunk: 4 to 15, 19, 20 and 22. 1 to 3 are of the
 * file as a whole, 17 and 18 the writer's. */
static int is_of_a_chunk(uint64_t number) {
    return (number >= LWO_CHUNK && number <= LWO_SIDE_OR_BLOCK) || number == LWO_ITEM_CUT ||
           number == LWO_STRING_OPEN || number == LWO_LONG_INDEX;
}

/* Whether a place can be that of a refusal: an item that is missing altogether may begin
 * where the file ends. */
static int is_place_of(uint64_t number, uint64_t place) {
    return is_of_a_chunk(number) ? place >= 12 && place <= input.bytes : place == 0;
}

/* The answer to empty tables: a mesh's needs, or a refusal. */
static LwoAnswer ask_needs(void) {
    static const size_t none[TABLES];
    lend(&lent, none, AT_END, 1);
    LwoAnswer answer = read_into(&input, &lent);
    demand(unchanged(&lent, 1), "a guard of an empty table was changed");
    demand(answer.number <= NO_ROOM || is_of_a_chunk(answer.number),
           "the reader has no such number");
    demand(is_place_of(answer.number, answer.place), "the place is not in the file");
    check_witness(&answer);
    return answer;
}

static void check_refused(const LwoAnswer *told) {
    LwoAnswer nothing = {0, 0, 0, 0, 0, 0, 0, 0, 0};
    nothing.place = told->place;
    demand(same_but_number(told, &nothing), "a refusal has counts");
    const size_t some[TABLES] = {31, 31, 40, 9, 70, 95};
    lend(&lent, some, AT_END, 2);
    LwoAnswer answer = read_into(&input, &lent);
    demand(answer.number == told->number && same_but_number(&answer, told),
           "a refusal goes by the room");
    demand(unchanged(&lent, 2), "a refusal changed a table");
}

/* Reads into tables of just the right length, which are kept as the mesh. */
static void check_exact(const LwoAnswer *told, const size_t words[TABLES]) {
    lend(&mesh, words, AT_END, 3);
    LwoAnswer answer = read_into(&input, &mesh);
    demand(answer.number == 0 && same_but_number(&answer, told),
           "just enough room is not accepted");
    demand(unchanged_behind(&mesh, words, 3), "a guard of a table was changed");
}

static void check_longer(const LwoAnswer *told, const size_t words[TABLES]) {
    size_t longer[TABLES];
    for (int table = 0; table < TABLES; table++) {
        longer[table] = words[table] + 1 + (input.bytes + (size_t)table) % 13;
    }
    lend(&lent, longer, AT_START, 4);
    LwoAnswer answer = read_into(&input, &lent);
    demand(answer.number == 0 && same_but_number(&answer, told),
           "longer tables change the answer");
    demand(same_front(&lent, &mesh, words), "longer tables change the mesh");
    demand(unchanged_behind(&lent, words, 4), "the rest of a table was changed");
}

/* The input with a chunk that is not listed put before its first chunk. */
static void lend_longer_input(void) {
    static const uint8_t chunk[8] = {'Z', 'Z', 'Z', 'Z', 0, 0, 0, 0};
    size_t bytes = input.bytes + sizeof chunk;
    guarded_lend(&longer_input, bytes, AT_END, 8);
    memcpy(longer_input.start, input.start, 12);
    memcpy(longer_input.start + 12, chunk, sizeof chunk);
    memcpy(longer_input.start + 12 + sizeof chunk, input.start + 12, input.bytes - 12);
    for (size_t index = 0; index < 4; index++) {
        longer_input.start[4 + index] = (uint8_t)((bytes - 8) >> (24 - 8 * index));
    }
}

/* Refusals 1 to 3 are of the file as a whole; the others move, since no chunk lies before
 * the one that is put in. */
static void check_one_more_chunk(const LwoAnswer *told, const size_t words[TABLES]) {
    LwoAnswer expected = *told;
    if (told->number == NO_ROOM || told->number == 0) {
        expected.number = 0;
        expected.skipped += 1;
    } else if (is_of_a_chunk(told->number)) {
        expected.place += 8;
    } else {
        return;
    }
    lend_longer_input();
    lend(&lent, words, AT_END, 9);
    LwoAnswer answer = read_into(&longer_input, &lent);
    demand(answer.number == expected.number && same_but_number(&answer, &expected),
           "one more unlisted chunk changes the answer");
    if (answer.number == 0) {
        demand(same_front(&lent, &mesh, words), "one more unlisted chunk changes the mesh");
    }
}

static void check_shorter(const LwoAnswer *told, const size_t words[TABLES]) {
    for (int table = 0; table < TABLES; table++) {
        if (words[table] == 0) {
            continue;
        }
        size_t shorter[TABLES];
        memcpy(shorter, words, sizeof shorter);
        shorter[table] -= 1;
        lend(&lent, shorter, AT_END, 5);
        LwoAnswer answer = read_into(&input, &lent);
        demand(answer.number == NO_ROOM && same_but_number(&answer, told),
               "a word less is not NO ROOM");
        demand(unchanged(&lent, 5), "NO ROOM changed a table");
    }
}

/* Writes the mesh into output of so many bytes and demands this number. */
static void check_output(size_t bytes, Side side, uint64_t number, uint64_t length) {
    guarded_lend(&output, bytes, side, 6);
    LwoWritten written = write_from(&mesh, &output);
    demand(written.number == number && written.place == 0 && written.length == length,
           "the writer's answer goes by more than the room");
    size_t front = number == 0 ? (size_t)length : 0;
    demand(guarded_unchanged(&output, front, 6), "output past the length was changed");
}

/* Writes the mesh with just enough room; what was written, lent as input,
 * reads as the mesh that it was written from. */
static void check_read_back(const size_t words[TABLES], size_t length) {
    check_output(length, AT_END, 0, length);
    lend(&lent, words, AT_END, 7);
    LwoAnswer answer = read_into(&output, &lent);
    size_t again[TABLES];
    needed_words(&answer, again);
    demand(answer.number == 0 && answer.place == 0, "what was written is not accepted");
    demand(answer.skipped == 0 && answer.details == 0, "what was written has more than a mesh");
    demand(memcmp(again, words, sizeof again) == 0,
           "what was written reads as a mesh of another size");
    demand(same_front(&lent, &mesh, words), "what was written reads as another mesh");
    demand(unchanged_behind(&lent, words, 7), "a guard of a table was changed");
}

/* The writer's answer where there is no room at all. */
static LwoWritten ask_length(void) {
    guarded_lend(&output, 0, AT_END, 6);
    LwoWritten needed = write_from(&mesh, &output);
    demand(needed.place == 0, "the writer has a place");
    demand((needed.number == NO_ROOM) == (needed.length != 0),
           "a length is told where none is needed");
    return needed;
}

static void check_written(const size_t words[TABLES]) {
    LwoWritten needed = ask_length();
    demand(needed.number == NO_ROOM || needed.number == TOO_LONG,
           "an accepted mesh is not written");
    if (needed.number == NO_ROOM) {
        size_t length = (size_t)needed.length;
        check_output(length - 1, AT_END, NO_ROOM, length);
        check_output(length + 9, AT_START, 0, length);
        check_read_back(words, length);
    }
    demand(unchanged_behind(&mesh, words, 3), "writing changed a guard of a table");
}

/* A number that goes by the input, so that another input changes another bit. */
static size_t input_hash(void) {
    uint32_t hash = 0x811c9dc5u;
    for (size_t index = 0; index < input.bytes; index++) {
        hash = (hash ^ input.start[index]) * 0x01000193u;
    }
    return hash;
}

/* Changes one bit of the mesh's tables. */
static void check_changed_mesh(const size_t words[TABLES]) {
    size_t hash = input_hash();
    size_t table = hash % TABLES;
    size_t bytes = words[table] * WORD[table];
    if (bytes == 0) {
        return;
    }
    mesh.table[table].start[hash / TABLES % bytes] ^= (uint8_t)(1u << (hash >> 29));
    LwoWritten needed = ask_length();
    demand(needed.number >= NO_ROOM && needed.number <= TOO_LONG,
           "the writer has no such number");
    if (needed.number == NO_ROOM) {
        check_read_back(words, (size_t)needed.length);
    } else {
        check_output(4096, AT_END, needed.number, 0);
    }
}

int LLVMFuzzerTestOneInput(const uint8_t *data, size_t size) {
    if (!ready) {
        get_ready();
    }
    if (size > MOST_INPUT) {
        return 0;
    }
    guarded_lend(&input, size, AT_END, 0);
    if (size > 0) {
        memcpy(input.start, data, size);
    }
    LwoAnswer told = ask_needs();
    size_t words[TABLES];
    needed_words(&told, words);
    if (told.number != 0 && told.number != NO_ROOM) {
        check_refused(&told);
        check_one_more_chunk(&told, words);
    } else {
        demand(told.place == 0, "an accepted file has a place");
        check_exact(&told, words);
        check_longer(&told, words);
        check_shorter(&told, words);
        check_one_more_chunk(&told, words);
        check_written(words);
        check_changed_mesh(words);
        fuzz_accepted++;
    }
    demand(size == 0 || memcmp(input.start, data, size) == 0, "the file was changed");
    return 0;
}
