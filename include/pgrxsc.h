/*
 * pgrxsc: a proved reader and writer of pgrx schema sections.
 *
 * Link the archive that `rt lib`, run in crates/pgrxsc, makes (crates/pgrxsc/out/libpgrxsc.a). It needs nothing but the C
 * library's memset, reserves no memory, keeps no state and writes nowhere but to what it is lent. So all functions may be called
 * from several threads at a time. docs/FORMAT.md describes the format, the rows and the refusals at length.
 *
 * Bytes, tables and lists are lent as a pointer and a length; the length of a table counts its 32-bit numbers, and that of a list
 * its records. A pointer must not be NULL, also where the length is 0, and what a call may change must not overlap what else it
 * is lent.
 *
 * The answer of a call is four numbers:
 *
 *   answer[0]  the refusal's number, 0 if there is none
 *   answer[1]  the refusal's place, 0 if there is none
 *   answer[2]  a, as the function says; 0 after a refusal
 *   answer[3]  b, as the function says; 0 after a refusal
 *
 * ROWS. PGRXSC_ROW_WIDTH numbers of a table make a row: sort, offset, value. A reading gives a row for each leaf, in the order
 * of reading. The constant for a sort is PGRXSC_SORT_ and its name:
 *
 *   sort  name    leaf              offset                               value
 *   1     KIND    kind of entity    of its byte                          1 to 9, see below
 *   2     TAG     other tag         of its byte                          the byte
 *   3     FLAG    flag              of its byte                          0 or 1
 *   4     NUMBER  number            of its first byte                    the number
 *   5     COUNT   count of a list   of its first byte                    the count
 *   6     TEXT    text              of the first byte after its length   its length in bytes
 *
 * Offsets count from the start of the bytes given. A reading never has more rows than bytes.
 *
 * KINDS. The constant for a kind of entity is PGRXSC_KIND_ and its name:
 *
 *   kind  name         kind  name         kind  name
 *   1     SCHEMA       4     TYPE         7     HASH
 *   2     CUSTOM_SQL   5     ENUM         8     AGGREGATE
 *   3     FUNCTION     6     ORD          9     TRIGGER
 *
 * REFUSALS. The constant for a refusal is PGRXSC_REFUSAL_ and its name:
 *
 *   number  name                 is returned when                                           place
 *   1       INPUT_TOO_LONG       there are more than PGRXSC_LIMIT bytes                     0
 *   2       PARTIAL_LENGTH       at a boundary one to three bytes are left, not all 0       the boundary
 *   3       ZERO_LENGTH          the length at a boundary is 0, and a byte after it         the length
 *                                is not 0
 *   4       ENTRY_TOO_LONG       the length at a boundary is more than the bytes after it   the length
 *   5       TRUNCATED            a read needs more bytes than the payload has left          where the read begins; of a text's
 *                                                                                           bytes, after its length
 *   6       BAD_FLAG             a flag is neither 0 nor 1                                  the flag
 *   7       NOT_UTF8             a text is not UTF-8 by RFC 3629                            its first byte
 *   8       UNKNOWN_KIND         the kind of an entity is unknown                           the kind
 *   9       UNKNOWN_TAG          another tag is unknown                                     the tag
 *   10      NO_SQL_TEXT          a declaration's mapping, or the one read for its SQL       the declaration's result, or
 *                                text, is neither As nor Numeric                            the offset given
 *   11      DECLARED_ERROR       a declaration's result is an error                         the result
 *   12      TRAILING_BYTES       bytes remain after the entity, the record or the mapping   the first of them
 *   13      TABLE_TOO_SMALL      the table has fewer whole rows than the reading needs      0
 *   14      BAD_ROWS             the rows given to a writer do not spell exactly one        0
 *                                record, mapping or entity, or for a section one
 *                                entity or more
 *   15      BAD_TEXT_ROW         a text row leaves the lent bytes or is not UTF-8 there,    0
 *                                or a row given as text is of another sort
 *   16      OUTPUT_TOO_LONG      the written length is more than PGRXSC_LIMIT               0
 *   17      BAD_BUFFER_SIZE      the destination is shorter than what is written, or the    0
 *                                buffer for an SQL text has not PGRXSC_SQL_TEXT_SIZE bytes
 *   18      NOT_ELF64            the file is no 64-bit little-endian ELF file with section  0
 *                                headers of 64 bytes
 *   19      BAD_SECTION_HEADERS  the file has no section headers or no section name table,  0
 *                                or one of the two tables ends past the file, or the
 *                                section found does, unless its type is 8
 *   20      NO_SUCH_SECTION      no section has the name given, or the section found is of  0
 *                                type 8 (SHT_NOBITS), without bytes in the file
 *   21      LIST_TOO_SMALL       the list has fewer records than the section has entities   0
 *
 * A boundary is the section's start or the end of an entry. 1 comes first, then 2 to 4 at the first bad boundary, then 5 to 12
 * at the first bad read, then 13, then 21. A writer's refusals come in the order 14 to 17. Those of finding a section in a file
 * come in the order 18 to 20.
 */
#ifndef PGRXSC_H
#define PGRXSC_H

#include <stdbool.h>
#include <stddef.h>
#include <stdint.h>

#ifdef __cplusplus
extern "C" {
#endif

/*
 * The version of this header. It grows by one whenever a function, a row, a record or a refusal is gone, or changes its shape or
 * its meaning, as when a row gets another number. Header and archive must be of the same version; if they are not, the program
 * may still link. So compare the two before the first other call:
 *
 *   if (pgrxsc_version() != PGRXSC_VERSION) ...
 */
#define PGRXSC_VERSION 2

/* Returns the version of the archive: PGRXSC_VERSION of the header that belongs to it. */
uint32_t pgrxsc_version(void);

/* The most bytes that are read or written: 16 MiB. */
#define PGRXSC_LIMIT 16777216

/* The numbers of a row. */
#define PGRXSC_ROW_WIDTH 3

/* The bytes of the buffer for an SQL text. */
#define PGRXSC_SQL_TEXT_SIZE 31

/* The most bytes that the server, PostgreSQL, keeps of a name. It cuts a longer name at a character boundary. */
#define PGRXSC_MOST_KEPT 63

/* The name of the schema section in an extension's ELF file. */
#define PGRXSC_ELF_SECTION_NAME ".pgrxsc"

/* The sorts of rows. */
#define PGRXSC_SORT_KIND 1
#define PGRXSC_SORT_TAG 2
#define PGRXSC_SORT_FLAG 3
#define PGRXSC_SORT_NUMBER 4
#define PGRXSC_SORT_COUNT 5
#define PGRXSC_SORT_TEXT 6

/* The kinds of entities. */
#define PGRXSC_KIND_SCHEMA 1
#define PGRXSC_KIND_CUSTOM_SQL 2
#define PGRXSC_KIND_FUNCTION 3
#define PGRXSC_KIND_TYPE 4
#define PGRXSC_KIND_ENUM 5
#define PGRXSC_KIND_ORD 6
#define PGRXSC_KIND_HASH 7
#define PGRXSC_KIND_AGGREGATE 8
#define PGRXSC_KIND_TRIGGER 9

/* The refusals. */
#define PGRXSC_REFUSAL_INPUT_TOO_LONG 1
#define PGRXSC_REFUSAL_PARTIAL_LENGTH 2
#define PGRXSC_REFUSAL_ZERO_LENGTH 3
#define PGRXSC_REFUSAL_ENTRY_TOO_LONG 4
#define PGRXSC_REFUSAL_TRUNCATED 5
#define PGRXSC_REFUSAL_BAD_FLAG 6
#define PGRXSC_REFUSAL_NOT_UTF8 7
#define PGRXSC_REFUSAL_UNKNOWN_KIND 8
#define PGRXSC_REFUSAL_UNKNOWN_TAG 9
#define PGRXSC_REFUSAL_NO_SQL_TEXT 10
#define PGRXSC_REFUSAL_DECLARED_ERROR 11
#define PGRXSC_REFUSAL_TRAILING_BYTES 12
#define PGRXSC_REFUSAL_TABLE_TOO_SMALL 13
#define PGRXSC_REFUSAL_BAD_ROWS 14
#define PGRXSC_REFUSAL_BAD_TEXT_ROW 15
#define PGRXSC_REFUSAL_OUTPUT_TOO_LONG 16
#define PGRXSC_REFUSAL_BAD_BUFFER_SIZE 17
#define PGRXSC_REFUSAL_NOT_ELF64 18
#define PGRXSC_REFUSAL_BAD_SECTION_HEADERS 19
#define PGRXSC_REFUSAL_NO_SUCH_SECTION 20
#define PGRXSC_REFUSAL_LIST_TOO_SMALL 21

/*
 * Finds a section of a 64-bit little-endian ELF file by its name: PGRXSC_ELF_SECTION_NAME for the schema section of an extension.
 * a is the section's start in the file, b its length; nothing is copied. The file may have any length. The part found then goes
 * to pgrxsc_read_section, which tests its length, and whose offsets and places count from the part's start.
 *
 * The name is lent without a zero byte at its end. The section is that of the first section header, from index 1 on, whose name
 * in the section name table equals the given one and is followed there by a zero byte inside the table. An empty name and one
 * that holds a zero byte find nothing. Extended numbering is not supported. Refusals 18 to 20.
 */
void pgrxsc_find_section(const uint8_t *file, size_t file_len, const uint8_t *name, size_t name_len, uint64_t answer[4]);

/*
 * Reads a whole section: entries, then padding. a is the number of entities, b the number of rows. The table then has the rows,
 * and only 0 after them; after a refusal it is all 0. Refusals 1 to 13.
 */
void pgrxsc_read_section(const uint8_t *bytes, size_t len, uint32_t *table, size_t table_len, uint64_t answer[4]);

/* The same for one payload alone, which is one entity: a is 1. Refusals 1 and 5 to 13. */
void pgrxsc_read_payload(const uint8_t *bytes, size_t len, uint32_t *table, size_t table_len, uint64_t answer[4]);

/* The same for one metadata record alone: a is 0. Refusals 1, 5 to 7, 9, 12 and 13. */
void pgrxsc_read_metadata(const uint8_t *bytes, size_t len, uint32_t *table, size_t table_len, uint64_t answer[4]);

/* The same for one mapping alone. */
void pgrxsc_read_mapping(const uint8_t *bytes, size_t len, uint32_t *table, size_t table_len, uint64_t answer[4]);

/* The record of an entity in a section's directory. */
struct pgrxsc_record {
    uint32_t kind;      /* the entity's kind, 1 to 9 */
    uint32_t start;     /* where its entry starts, with the 4 bytes of the entry's length; counted from the section's start */
    uint32_t length;    /* how many bytes the entry has, those 4 included */
    uint32_t first_row; /* the index of the entity's first row, from 0 */
    uint32_t row_count; /* how many rows the entity has */
};

/*
 * Reads a whole section, with its directory. Answer and table are those of pgrxsc_read_section, but for refusal 21. Record i of
 * the list is then that of entity i, where the entities are counted from 0 in the order of reading; sentinels have no records.
 * Records after the last entity's are unchanged. After every refusal the list is unchanged and the table all 0. A list of
 * len / 21 records is always large enough, since the entry of an entity takes 21 bytes or more. Refusals 1 to 13 and 21.
 */
void pgrxsc_read_directory(const uint8_t *bytes, size_t len, uint32_t *table, size_t table_len, struct pgrxsc_record *records,
                           size_t records_len, uint64_t answer[4]);

/*
 * Tells which entity of a section holds a position, counted from the section's start. For a position in a file, subtract the
 * section's start first, which pgrxsc_find_section gives. a is 1 if the position lies in the entry of an entity, whose first
 * bytes are the 4 of its length, and b is then the index of that entity, from 0. Else both are 0: sentinels, padding and what is
 * past the section's end belong to no entity. Each call reads the whole section; for many positions, search the records of
 * pgrxsc_read_directory, whose starts rise. Refusals 1 to 12.
 */
void pgrxsc_entity_at(const uint8_t *bytes, size_t len, uint64_t position, uint64_t answer[4]);

/*
 * The text of a row: a is its start in the bytes, b its length. The row is tested and need not come from a reading. Refusals 1
 * and 15.
 */
void pgrxsc_row_text(const uint8_t *bytes, size_t len, uint32_t sort, uint32_t offset, uint32_t value, uint64_t answer[4]);

/*
 * The kept name of a row: as much of its text as the server keeps of a name. It ends at the greatest character boundary at or
 * below PGRXSC_MOST_KEPT bytes; a text of no more bytes is kept whole. a is its start in the bytes, which is that of the text, b
 * its length. The whole text is tested, also behind the cut. Refusals 1 and 15, as for pgrxsc_row_text.
 */
void pgrxsc_kept_name(const uint8_t *bytes, size_t len, uint32_t sort, uint32_t offset, uint32_t value, uint64_t answer[4]);

/*
 * The SQL name of a declared function, from the row of the declaration's name: what stands after the last "::" of the text, with
 * matches taken from the left without overlap. a is its start in the bytes, b its length. Refusals 1 and 15.
 */
void pgrxsc_sql_name(const uint8_t *bytes, size_t len, uint32_t sort, uint32_t offset, uint32_t value, uint64_t answer[4]);

/*
 * Where the SQL name starts in a declared function's name, which the bytes are, any number of them. a is 1 if they are UTF-8 by RFC
 * 3629, else 0; b is the start, as pgrxsc_sql_name has it, and 0 where a is 0. No refusals.
 */
void pgrxsc_name_start(const uint8_t *bytes, size_t len, uint64_t answer[4]);

/*
 * The SQL text of the mapping whose tag stands at an offset. a is its start and b its length: in the bytes, if 0 is returned, as
 * for a mapping As and after a refusal; in the buffer, if 1 is returned, as for Numeric, whose text is then stored at the
 * buffer's start. No other byte of the buffer changes. Refusals 1, 5 to 7, 9, 10 and 17.
 */
uint32_t pgrxsc_sql_text(const uint8_t *bytes, size_t len, uint32_t offset, uint8_t *buffer, size_t buffer_len,
                         uint64_t answer[4]);

/*
 * Writes one metadata record from its rows to the start of dest. The offset of a text row counts from the start of `text`; other
 * offsets are not looked at. a is the written length, b is 0. Bytes after it are unchanged, and so is all of dest after a
 * refusal. pgrxsc_metadata_len tells how long dest must be. Refusals 14 to 17.
 */
void pgrxsc_write_metadata(const uint32_t *rows, size_t rows_len, const uint8_t *text, size_t text_len, uint8_t *dest,
                           size_t dest_len, uint64_t answer[4]);

/* The same for one mapping. */
void pgrxsc_write_mapping(const uint32_t *rows, size_t rows_len, const uint8_t *text, size_t text_len, uint8_t *dest,
                          size_t dest_len, uint64_t answer[4]);

/*
 * The same for one entity of any kind, which is written as a payload. The rows of a declaration that a reading refuses with 10
 * or 11 are refused with 14. pgrxsc_payload_len tells how long dest must be.
 */
void pgrxsc_write_payload(const uint32_t *rows, size_t rows_len, const uint8_t *text, size_t text_len, uint8_t *dest,
                          size_t dest_len, uint64_t answer[4]);

/*
 * The same for one or more entities, which are written as a section: an entry for each, its length and its payload, without
 * sentinels and padding. No rows are refused with 14. pgrxsc_section_len tells how long dest must be.
 *
 * From the rows of a section that was read, with the section as `text`, that section is written, without its sentinels and its
 * padding.
 */
void pgrxsc_write_section(const uint32_t *rows, size_t rows_len, const uint8_t *text, size_t text_len, uint8_t *dest,
                          size_t dest_len, uint64_t answer[4]);

/*
 * Measures one metadata record before it is written, which tells how many bytes to lend as dest: a is the length that
 * pgrxsc_write_metadata writes from the same rows and text, b is 0. Refusals 14 to 16, which are those of the writing.
 */
void pgrxsc_metadata_len(const uint32_t *rows, size_t rows_len, const uint8_t *text, size_t text_len, uint64_t answer[4]);

/* The same for one mapping, which pgrxsc_write_mapping writes. */
void pgrxsc_mapping_len(const uint32_t *rows, size_t rows_len, const uint8_t *text, size_t text_len, uint64_t answer[4]);

/* The same for one entity, which pgrxsc_write_payload writes. */
void pgrxsc_payload_len(const uint32_t *rows, size_t rows_len, const uint8_t *text, size_t text_len, uint64_t answer[4]);

/* The same for a section, which pgrxsc_write_section writes: four bytes for the length of each entry are counted too. */
void pgrxsc_section_len(const uint32_t *rows, size_t rows_len, const uint8_t *text, size_t text_len, uint64_t answer[4]);

/*
 * Returns the number of unordered pairs of entities of a section that repeat a path: they are of one kind, and their full_path
 * bytes agree. So a type and the ordering and hashing that it derives are no pairs, although they share a path; and schemas have
 * no full_path. After a refusal it is 0. a and b are 0. Refusals 1 to 12.
 *
 * `work` is room to work in: any number of 32-bit numbers, none included. Result and answer do not depend on it, and what it
 * holds afterwards is left free; it decides what the call costs. Lend a number for each entity that is no schema: len / 27 are
 * always enough, since the entry of such an entity takes 27 bytes or more. Then the paths of n entities are sorted, in n log n
 * comparisons: about a second at most for any section. With fewer numbers the paths are compared pair by pair, and the time
 * grows with the square of n: one or two seconds for 10,000 entities of one kind, some minutes for 100,000, and an hour or two
 * for 600,000.
 */
uint64_t pgrxsc_path_repeats(const uint8_t *bytes, size_t len, uint32_t *work, size_t work_len, uint64_t answer[4]);

/* Whether the bytes are UTF-8 by RFC 3629. */
bool pgrxsc_is_text(const uint8_t *bytes, size_t len);

/*
 * The same, and how many of the bytes the server keeps as a name. There may be any number of them. a is 1 if they are UTF-8 by RFC
 * 3629, else 0; b is the greatest character boundary at or below PGRXSC_MOST_KEPT, which is where pgrxsc_kept_name cuts, and 0
 * where a is 0. No refusals.
 */
void pgrxsc_check_text(const uint8_t *bytes, size_t len, uint64_t answer[4]);

#ifdef __cplusplus
}
#endif

#endif
