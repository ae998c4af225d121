/*
 * Reads LightWave object files, LWOB and LWO2, into lent tables, and writes a
 * mesh as one canonical LWO2 file.
 *
 * Read are points, faces, patches, names of surfaces and of the parts of a figure,
 * and base surface values. The layers of an LWO2 file are judged and not kept: its
 * mesh has the points and polygons of all of them. Not read are curves, vertex
 * maps, clips, envelopes, and textures beyond their nesting.
 *
 * Both functions answer whatever bytes and numbers they are lent, and keep
 * nothing after they have returned. They allocate no memory and have no state,
 * so any number of threads may call them at once. They need the C library's
 * memset and nothing else.
 *
 * The library is for Linux on x86-64 (System V calling convention), and the header
 * for C99 and later and for C++. A whole program that uses them is
 * host/examples/boards.c.
 *
 *
 * TABLES
 *
 * A table is lent as a pointer and a length in elements: words of 32 bits, or
 * bytes. No table may overlap another one, the file or the output. A table, file
 * or output of length 0 is allowed; its pointer is not followed, and may be NULL.
 *
 *   points      3 words a point: x, y, z, each the bits of a float, in file
 *               order
 *   polygons    4 words a polygon:
 *                 0  kind: 1 face, 2 patch
 *                 1  vertex count: 1 to 1,023
 *                 2  surface number: 0 none, else 1 for the first name
 *                 3  part number: 0 none, else 1 for the first name
 *               In LWO2 the surface is the tag that a PTAG of type SURF gives the
 *               polygon, and the part, as "head" or "saddle", that of a PTAG of
 *               type PART; of several the last one stands. LWOB has no parts.
 *   vertices    1 word a vertex: all polygons' point numbers, joined, counted
 *               from the file's first point, which is 0
 *   names       1 word a name: its length in bytes, at most 255
 *   name_bytes  the bytes of all names, joined, no terminators
 *   records     10 words a surface record, one record for each name:
 *                 0  defined: 1 if the file has a SURF for the name, else 0
 *                 1  red            words 1 to 8 are levels, each the bits of
 *                 2  green          a float
 *                 3  blue
 *                 4  diffuse
 *                 5  luminosity
 *                 6  specular
 *                 7  reflection
 *                 8  transparency
 *                 9  sides: 1 front only, 3 front and back
 *               A colour that the file does not give is 1.0, 1.0, 1.0.
 *
 * Where an entry is several words, a table is as long as its whole entries. The
 * words have the byte order of the machine: memcpy a point's word into a float
 * to have its coordinate.
 *
 *
 * READING IN TWO CALLS
 *
 * Call lwo_read with tables of length 0, each of them NULL. The answer's number is
 * then 0 for a file with nothing to keep, LWO_NO_ROOM for any other file that has
 * a mesh, and the refusal for a file that has none. On the first two the needs are
 * full: make tables of points * LWO_POINT_WORDS words,
 * polygons * LWO_POLYGON_WORDS words, vertices words, names words, name_bytes
 * bytes and names * LWO_RECORD_WORDS words, and call lwo_read again with the
 * same file and these tables. It answers 0, and the tables hold the mesh. No
 * need is above the length of the file.
 *
 * Writing is alike: call lwo_write with an output of length 0. It answers
 * LWO_NO_ROOM with the length needed, or a refusal; call it again with an output
 * of that length.
 */
#ifndef LWO_H
#define LWO_H

#include <stddef.h>
#include <stdint.h>

#ifdef __cplusplus
extern "C" {
#endif

/*
 * The version of this header and of the library beside it. A change of the second
 * number may change the words of a table: a polygon has four since 0.2.0, and had
 * three before.
 */
#define LWO_VERSION "0.2.0"
#define LWO_VERSION_MAJOR 0
#define LWO_VERSION_MINOR 2
#define LWO_VERSION_PATCH 0
#define LWO_VERSION_NUMBER                                                     \
    (LWO_VERSION_MAJOR * 65536 + LWO_VERSION_MINOR * 256 + LWO_VERSION_PATCH)

/* The version of the library that is linked, as LWO_VERSION_NUMBER has it. */
uint32_t lwo_version(void);

/* Bounds. */
#define LWO_FILE_BYTES 16777216 /* the longest file read or written */
#define LWO_NAME_BYTES 255      /* the longest name */

/*
 * The stack that a call of either function takes at most, in bytes; it does not
 * grow with the file. Measured over generated files of every kind up to the
 * longest, with the dynamic linker's look-ups: lwo_read took 1,420 bytes and
 * lwo_write 472.
 */
#define LWO_STACK_BYTES 16384

/* Words of an entry. */
#define LWO_POINT_WORDS 3
#define LWO_POLYGON_WORDS 4
#define LWO_RECORD_WORDS 10

/* Where in a polygon's entry its words stand. */
#define LWO_POLYGON_KIND 0
#define LWO_POLYGON_VERTICES 1
#define LWO_POLYGON_SURFACE 2
#define LWO_POLYGON_PART 3

/* Kinds of polygon. */
#define LWO_FACE 1
#define LWO_PATCH 2

/*
 * The numbers of an answer, each with when it is given.
 *
 * The place of 4 to 15, 19, 20 and 22 is the offset in the file, counted from 0, of
 * the first byte of what is at fault: a header, an item or a string. An item is a
 * type, a number or a float. A wrong body length (6), a wrong pad byte (4) and a
 * block that does not begin as it should (15) are faults of the header of their own
 * chunk or sub-chunk, whose first byte is that of its tag. Where an item or string
 * is not there at all, the place is where it would begin, which is the end of its
 * chunk's body: that may be where the next chunk begins, or the file's length, so
 * look before you read a byte there. The place of 1, 2, 3, 16, 17 and 18 is 0.
 *
 * Of several faults one is told: 1, 2 and 3 come first; then the first in the file,
 * byte by byte; 16 only where nothing else is wrong. Where one item has several, it
 * is the lowest number; but first it is told that an item is cut (19) or a string is
 * open (20), then that an index is too long (22), and only then its value is judged.
 */
#define LWO_ACCEPTED 0       /* accepted, or written */
#define LWO_FILE_TOO_LONG 1  /* file too long */
#define LWO_NOT_AN_OBJECT 2  /* under 12 bytes, not FORM, or type neither LWOB
                                nor LWO2 */
#define LWO_FORM_LENGTH 3    /* FORM length is not file length less 8 */
#define LWO_CHUNK 4          /* header cut, tag byte outside 32..126, length past
                                the parent's end, pad byte missing or not zero */
#define LWO_ORDER 5          /* something that must come earlier is missing (in
                                LWO2 after the latest LAYR: PNTS for POLS, POLS
                                for PTAG), or a single chunk comes twice */
#define LWO_BODY 6           /* wrong body length (bytes left over; LWOB PNTS over
                                65,536 points) */
#define LWO_NOT_FINITE 7     /* coordinate, of a point or a layer's pivot, or level
                                not finite */
#define LWO_VERTEX_COUNT 8   /* vertex count not allowed: LWOB has 1 to 200, LWO2
                                1 to 1,023 */
#define LWO_VERTEX_NUMBER 9  /* vertex number not below the latest point list's
                                length */
#define LWO_SURFACE 10       /* surface number, or tag of a surface or part, names
                                nothing */
#define LWO_POLYGON_NUMBER 11 /* polygon number not below the latest POLS's
                                count */
#define LWO_POLYGON_TYPE 12  /* POLS type neither FACE nor PTCH */
#define LWO_NAME 13          /* in TAGS or SRFS only: name over 255 bytes, or
                                equal to an earlier name there */
#define LWO_DETAIL 14        /* a detail polygon with a negative surface number */
#define LWO_SIDE_OR_BLOCK 15 /* SIDE neither 1 nor 3, or BLOK empty or with
                                another first sub-chunk than IMAP, PROC, GRAD or
                                SHDR */
#define LWO_NO_ROOM 16       /* table or output too short; answered only where
                                nothing else is wrong */
#define LWO_NOT_A_MESH 17    /* writer: not a mesh */
#define LWO_OUT_TOO_LONG 18  /* writer: canonical file too long */
#define LWO_ITEM_CUT 19      /* item, but no string, cut by its chunk's end */
#define LWO_STRING_OPEN 20   /* string without terminator or zero pad */
#define LWO_LONG_INDEX 22    /* LWO2: index of a point, polygon or envelope that is
                                below 65,280, in four bytes instead of two */

/* What lwo_read answers. */
typedef struct LwoAnswer {
    uint64_t number; /* 0 accepted, else 1 to 16, 19, 20 or 22 of those above */
    uint64_t place;  /* the byte at fault, as said there; 0 on 0 */
    /* The five needs: the counts of the file's mesh. Full on 0 and 16; 0 on every
       other number. */
    uint64_t points;     /* points */
    uint64_t polygons;   /* polygons */
    uint64_t vertices;   /* vertices, summed over the polygons */
    uint64_t names;      /* names; the records table needs one entry per name */
    uint64_t name_bytes; /* bytes, summed over the names */
    /* Two counts of the file. Full on 0 and 16; 0 on every other number. */
    uint64_t skipped; /* top-level chunks with an unlisted tag, not read */
    uint64_t details; /* detail polygons of LWOB, checked and not kept */
} LwoAnswer;

/* What lwo_write answers. */
typedef struct LwoWritten {
    uint64_t number; /* 0 written, else 16, 17 or 18 */
    uint64_t place;  /* 0 */
    uint64_t length; /* bytes written on 0, bytes needed on 16, else 0 */
} LwoWritten;

/*
 * Reads an object file into lent tables.
 *
 * On 0 the front of each table holds the mesh and the rest of it is unchanged. On
 * every other number all tables are unchanged.
 */
LwoAnswer lwo_read(const uint8_t *file, size_t file_length,
                   uint32_t *points, size_t points_length,
                   uint32_t *polygons, size_t polygons_length,
                   uint32_t *vertices, size_t vertices_length,
                   uint32_t *names, size_t names_length,
                   uint8_t *name_bytes, size_t name_bytes_length,
                   uint32_t *records, size_t records_length);

/*
 * Writes the mesh that the tables hold, each taken whole, as one canonical LWO2
 * file.
 *
 * On 0 the front of the output holds the file and the rest of it is unchanged. On
 * every other number all of the output is unchanged. What is written is read back
 * by lwo_read as the same mesh, to the bit.
 *
 * The file has TAGS and PNTS; then for each longest run of polygons of one kind a
 * POLS, a PTAG of type SURF if some of them have a surface, and a PTAG of type PART
 * if some have a part; then a SURF for each name whose record is defined. Empty
 * chunks are left out.
 *
 * Not a mesh (17) is: a table with part of an entry or over 16,777,216 entries;
 * counts that don't agree; a kind, vertex count (1 to 1,023), vertex number,
 * defined or sides number outside its range; a surface or part above the name
 * count or 65,536; a name over 255 bytes, with a zero byte, or equal to an earlier
 * one; a float not finite; an undefined record with other than the missing values,
 * by bits (colour 1.0, 1.0, 1.0, diffuse 1.0, the other levels 0.0, sides 1).
 */
LwoWritten lwo_write(const uint32_t *points, size_t points_length,
                     const uint32_t *polygons, size_t polygons_length,
                     const uint32_t *vertices, size_t vertices_length,
                     const uint32_t *names, size_t names_length,
                     const uint8_t *name_bytes, size_t name_bytes_length,
                     const uint32_t *records, size_t records_length,
                     uint8_t *out, size_t out_length);

#ifdef __cplusplus
}
#endif

#endif
