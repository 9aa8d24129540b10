/* Zakvind: checks, lays out and orders acceleration structure builds. The functions of libzakvind.a (./install), which is
 * target/staticlib/libcapi.a (bindings/library). Nothing else has to be linked. C99 or C++11.
 *
 * Every function accepts all bytes and numbers, finishes, and refuses by a number what it won't have; 0 is accepted. A
 * refused call writes no lent byte, except that a refused submission leaves what its earlier actions did, and for 42 in a
 * Build its counter step, Blases and earlier Tlases.
 *
 * The caller owes: each pointer is not null, aligned, and valid for its length, which is in elements; what a call may write
 * overlaps nothing else that is lent to it. A length may be 0, but nothing promises that the pointer beside it may then be null:
 * ZAKVIND_NONE(uint8_t) is one to no elements, and ZAKVIND_LENT(uint8_t, p) is p, or that where p is null.
 *
 * Threads: the library has no data of its own, so calls in any number of threads do not disturb each other, as long as
 * nothing that one call may write is lent to another at the same time. It allocates nothing and calls nothing but memcpy,
 * memmove, memset and memcmp.
 * Stack: zakvind_report and zakvind_explain use at most ZAKVIND_TEXT_STACK_BYTES, zakvind_open_groups ZAKVIND_GROUPS_STACK_BYTES,
 * every other call ZAKVIND_STACK_BYTES. These are bounds on what was measured on x86-64 with the largest tables and sheet, with 512
 * instances appended or read back in one call, and with 64 groups each inside the next (bindings/c/edges.c), nothing proves them.
 *
 * Tables are records end to end, little-endian, with the layout of the sheet's sections. zakvind_records.h packs and unpacks
 * each record, and has the bytes of one and the most of each. A sheet is of version 1 or 2: in version 2 a geometry's `first` is a
 * uint64_t, so that its record, zakvind_wide_geometry, has four bytes more; all else is the same.
 */
#ifndef ZAKVIND_H
#define ZAKVIND_H

#include "zakvind_records.h"

#ifdef __cplusplus
extern "C" {
#endif

/* The numbers of refusals. */
enum {
    ZAKVIND_ACCEPTED = 0,
    ZAKVIND_UNKNOWN_VERSION = 1,                          /* neither 1 nor 2; of a converter also the version that it makes */
    ZAKVIND_TRUNCATED = 2,
    ZAKVIND_TRAILING_BYTES = 3,
    ZAKVIND_TOO_MANY = 4,
    ZAKVIND_INVALID_VALUE = 5,
    ZAKVIND_INVALID_RESOURCE = 6,
    ZAKVIND_BLAS_GEOMETRY_KIND_MISMATCH = 10,
    ZAKVIND_INCOMPATIBLE_BLAS_BUILD_SIZES = 11,
    ZAKVIND_INCOMPATIBLE_BLAS_FLAGS = 12,                 /* declared, given */
    ZAKVIND_INCOMPATIBLE_BLAS_VERTEX_COUNT = 13,          /* declared, given */
    ZAKVIND_DIFFERENT_BLAS_VERTEX_FORMATS = 14,           /* declared, given */
    ZAKVIND_VERTEX_STRIDE_TOO_SMALL = 15,                 /* needed, given */
    ZAKVIND_VERTEX_STRIDE_UNALIGNED = 16,                 /* needed, given */
    ZAKVIND_BLAS_INDEX_COUNT_PROVIDED_MISMATCH = 17,
    ZAKVIND_INCOMPATIBLE_BLAS_INDEX_COUNT = 18,           /* declared, given */
    ZAKVIND_DIFFERENT_BLAS_INDEX_FORMATS = 19,            /* declared, given */
    ZAKVIND_MISSING_INDEX_BUFFER = 20,
    ZAKVIND_DESTROYED_RESOURCE = 21,                      /* sort (1 buffer, 2 Blas, 3 Tlas), id; in a submission Blas */
    ZAKVIND_MISSING_BUFFER_USAGE = 22,                    /* sort 1, id */
    ZAKVIND_INSUFFICIENT_BUFFER_SIZE = 23,                /* offset, region, size */
    ZAKVIND_MISSING_ASSOCIATED_DATA = 24,
    ZAKVIND_MISSING_INDEX_FORMAT = 25,
    ZAKVIND_OFFSET_LIMITED_TO_4GB = 26,                   /* offset, count, stride */
    ZAKVIND_INVALID_INDEX_COUNT = 27,                     /* count */
    ZAKVIND_USE_TRANSFORM_MISSING = 28,
    ZAKVIND_UNALIGNED_TRANSFORM_BUFFER_OFFSET = 29,
    ZAKVIND_TRANSFORM_MISSING = 30,
    ZAKVIND_INCOMPATIBLE_BLAS_AABB_PRIMITIVE_COUNT = 31,  /* declared, given */
    ZAKVIND_UNALIGNED_AABB_PRIMITIVE_OFFSET = 32,
    ZAKVIND_INVALID_AABB_STRIDE = 33,                     /* stride */
    ZAKVIND_TLAS_INVALID_CUSTOM_INDEX = 34,
    ZAKVIND_TLAS_DEPENDENT_MISSING_VERTEX_RETURN = 35,
    ZAKVIND_TLAS_INSTANCE_COUNT_EXCEEDED = 36,            /* count, most */
    ZAKVIND_OUT_OF_MEMORY = 37,                           /* 1: e0 is an entry, 2: a package */
    ZAKVIND_COMPACTED_BLAS = 38,
    ZAKVIND_OUTPUT_TOO_SHORT = 39,
    ZAKVIND_COUNTER_EXHAUSTED = 40,
    ZAKVIND_BUILD_OF_COMPACTED_BLAS = 41,                 /* Blas */
    ZAKVIND_USED_UNBUILT_BLAS = 42,                       /* Blas, Tlas in a Build; Tlas, Blas in a use */
    ZAKVIND_USED_UNBUILT_TLAS = 43,                       /* Tlas */
    ZAKVIND_BLAS_NEWER_THAN_TLAS = 44,                    /* Blas, Tlas */
    ZAKVIND_INVALID_GROUP = 45,                           /* of groups: a count of 0, or a group that is not an earlier one */
    ZAKVIND_TOO_MANY_SLOTS = 46,                          /* of groups */
    ZAKVIND_TOO_FAR = 47,                                 /* of zakvind_to_version_1: a first vertex or primitive offset above 2^32 - 1 */
    ZAKVIND_UNEVEN_LENGTH = 48,                           /* of zakvind_read_instances: a length not in 64s */
    ZAKVIND_WORD_NOT_ZERO = 49,                           /* of a record of these: the u32 at byte 52 is not 0 */
    ZAKVIND_NOT_ONE_BLAS = 50                             /* of a record of these: the address of no Blas or of several */
};

enum {
    ZAKVIND_TLAS_ROOM = 512,            /* cells of a Tlas's list in a submission */
    ZAKVIND_INSTANCE_BYTES = 64,        /* that a present slot comes to */
    ZAKVIND_MOST_GROUPS = 64,           /* of zakvind_open_groups */
    ZAKVIND_LONGEST_REPORT = 6134,      /* bytes of zakvind_report */
    ZAKVIND_LONGEST_EXPLAINED = 6381,   /* bytes of zakvind_explain */
    ZAKVIND_LONGEST_WORDS = 247,        /* bytes of zakvind_words */
    ZAKVIND_TEXT_STACK_BYTES = 131072,  /* of zakvind_report and zakvind_explain */
    ZAKVIND_GROUPS_STACK_BYTES = 20480, /* of zakvind_open_groups */
    ZAKVIND_STACK_BYTES = 8192          /* of every other call */
};

/* A pointer to no elements, for a length of 0; and a pointer that may be null where its length is 0. */
static inline void *zakvind_none(void)
{
    static uint64_t none;
    return &none;
}
#define ZAKVIND_NONE(type) ((type *)zakvind_none())
#define ZAKVIND_LENT(type, pointer) ((pointer) ? (pointer) : ZAKVIND_NONE(type))

/* Kinds of action. */
enum {
    ZAKVIND_BUILD = 1,
    ZAKVIND_USE_TLAS = 2,
    ZAKVIND_MARK_BLAS = 3,
    ZAKVIND_MARK_TLAS = 4, /* over no Blases: it draws whatever is built after it */
    ZAKVIND_MARK_BUILT = 5 /* each Tlas over the Blases that it names, as a Build: refused by 44 once one is built after it; not in a sheet */
};

typedef struct {
    uint64_t active_submission_index;                          /* never moved */
    uint64_t next_acceleration_structure_build_command_index;  /* the counter */
} zakvind_command_indices;

typedef struct {
    uint64_t start; /* of the first record, in bytes of the sheet */
    uint64_t count;
} zakvind_section;

typedef struct {
    uint64_t number;
    uint64_t place; /* of the refused byte */
    uint64_t version; /* 1 or 2 */
    uint64_t alignment, counter;
    zakvind_section sections[9]; /* sections 1 to 9; the records of 6 are wide in version 2 */
} zakvind_sheet;

typedef struct {
    uint64_t number;
    uint64_t e0, e1;     /* entry and geometry, package and slot, of 37 as f0 says; for 4 and 5 section and record */
    uint64_t f0, f1, f2; /* figures */
    uint64_t recorded;   /* 1, or 0: nothing recorded, only init_ranges written */
    uint64_t scratch_size;
    /* how many elements of each output were written */
    uint64_t blas_offsets, tlas_offsets, staging_ranges, instances, init_ranges, compactable, lists;
} zakvind_built;

typedef struct {
    uint64_t number;
    uint64_t action; /* the refused action, from 0; 0 for a refused start */
    uint64_t f0, f1;
} zakvind_submitted;

typedef struct {
    uint64_t number;
    uint64_t e0, e1;     /* 0, 0; of zakvind_append_instances 0 and a position */
    uint64_t f0, f1, f2; /* figures */
    uint64_t used;       /* bytes in use now; of a refused append as many as before */
} zakvind_appended;

typedef struct {
    uint64_t number; /* 0 or 39 */
    uint64_t written;
} zakvind_reported;

typedef struct {
    uint64_t number;
    uint64_t place; /* of the refused byte; 0 for 39 */
    uint64_t written;
} zakvind_written;

typedef struct {
    uint64_t number;
    uint64_t place;       /* of the refused byte, of 2 to 5; 0 for the others */
    uint64_t group, item; /* as written, from 0, of 45 and 46; 0 where there is none, and for the others */
    uint64_t written;     /* bytes */
} zakvind_opened;

typedef struct {
    uint64_t number;
    uint64_t e0, e1;  /* of 49 and 50 the record, from 0, and 0; 0, 0 for the others */
    uint64_t written; /* bytes of items; 0 of a refusal */
} zakvind_instances_read;

/* The room that a build's outputs need, in elements. */
typedef struct {
    size_t blas_offsets, tlas_offsets, staging_ranges, instances, init_ranges, compactable, lists;
} zakvind_room;

/* The most that any build of so many records needs. */
#define ZAKVIND_ROOM_BLAS_OFFSETS(entries) (entries)
#define ZAKVIND_ROOM_TLAS_OFFSETS(packages) (packages)
#define ZAKVIND_ROOM_STAGING_RANGES(packages) (2 * (packages))
#define ZAKVIND_ROOM_INSTANCES(slots) (ZAKVIND_INSTANCE_BYTES * (slots))
#define ZAKVIND_ROOM_INIT_RANGES(geometries) (9 * (geometries))
#define ZAKVIND_ROOM_COMPACTABLE(entries) (entries)
#define ZAKVIND_ROOM_LISTS(entries, packages, slots) ((entries) + 2 * (packages) + (slots))

/* The most that zakvind_to_version_2 needs for a sheet of so many bytes; zakvind_to_version_1 needs no more than the sheet has. */
#define ZAKVIND_ROOM_VERSION_2(sheet_len) \
    ((sheet_len) + ZAKVIND_MOST_GEOMETRIES * (ZAKVIND_WIDE_GEOMETRY_BYTES - ZAKVIND_GEOMETRY_BYTES))

/* What zakvind_read_instances needs for so many bytes of records: to the byte what it writes if it accepts them. */
#define ZAKVIND_ROOM_ITEMS(records_len) ((records_len) / ZAKVIND_INSTANCE_BYTES * ZAKVIND_INSTANCE_FIELDS_BYTES)

/* The room by whether the geometries are wide; zakvind_room_for and zakvind_room_for_wide are to be called. */
static inline zakvind_room zakvind_room_by(
    int wide,
    const uint8_t *blases, size_t blases_len,
    const uint8_t *entries, size_t entries_len,
    const uint8_t *geometries, size_t geometries_len,
    size_t packages_len,
    const uint8_t *slots, size_t slots_len)
{
    const size_t geometry_bytes = wide ? ZAKVIND_WIDE_GEOMETRY_BYTES : ZAKVIND_GEOMETRY_BYTES;
    const size_t blas_count = blases_len / ZAKVIND_BLAS_BYTES, entry_count = entries_len / ZAKVIND_ENTRY_BYTES;
    const size_t geometry_count = geometries_len / geometry_bytes, slot_count = slots_len / ZAKVIND_SLOT_BYTES;
    const size_t package_count = packages_len / ZAKVIND_PACKAGE_BYTES;
    size_t ranges = 0, compactable = 0, present = 0, next = 0;
    zakvind_room room;
    for (size_t i = 0; i < entry_count; i++) {
        const zakvind_entry e = zakvind_unpack_entry(entries + i * ZAKVIND_ENTRY_BYTES);
        if (e.blas < blas_count) {
            const zakvind_blas b = zakvind_unpack_blas(blases + (size_t)e.blas * ZAKVIND_BLAS_BYTES);
            compactable += (size_t)((b.flags & ZAKVIND_FLAGS_ALLOW_COMPACTION) != 0);
        }
        for (size_t j = 0; j < e.geometry_count && next < geometry_count; j++, next++) {
            const uint8_t *g = geometries + next * geometry_bytes;
            const uint16_t index_buffer = wide ? zakvind_unpack_wide_geometry(g).index_buffer : zakvind_unpack_geometry(g).index_buffer;
            const uint16_t transform_buffer =
                wide ? zakvind_unpack_wide_geometry(g).transform_buffer : zakvind_unpack_geometry(g).transform_buffer;
            ranges++;
            if (e.kind == ZAKVIND_KIND_TRIANGLES)
                ranges += (size_t)(index_buffer != ZAKVIND_NO_BUFFER) + (size_t)(transform_buffer != ZAKVIND_NO_BUFFER);
        }
    }
    for (size_t i = 0; i < slot_count; i++)
        present += (size_t)(slots[i * ZAKVIND_SLOT_BYTES] != 0);
    room.blas_offsets = entry_count;
    room.tlas_offsets = package_count;
    room.staging_ranges = 2 * package_count;
    room.instances = ZAKVIND_INSTANCE_BYTES * present;
    room.init_ranges = 3 * ranges;
    room.compactable = compactable;
    room.lists = entry_count + 2 * package_count + present;
    return room;
}

/* The room that a build of these tables needs: exactly what it writes if it is recorded. With nothing recorded it writes the
 * init_ranges alone, as many; refused, nothing. So with this room no build is refused by 39, and with one element less of any
 * output a recorded one is.
 *   blas_offsets    one for each entry             tlas_offsets  one for each package
 *   staging_ranges  two for each package           instances     64 for each present slot
 *   init_ranges     three for each buffer that a geometry names: its data, and of triangles its indices and its transform
 *   compactable     one for each entry whose Blas has ALLOW_COMPACTION
 *   lists           one for each entry, two for each package, one for each present slot
 * Where tables are refused by a build, the room is of no use, but reading them is in bounds. */
static inline zakvind_room zakvind_room_for(
    const uint8_t *blases, size_t blases_len,
    const uint8_t *entries, size_t entries_len,
    const uint8_t *geometries, size_t geometries_len,
    const uint8_t *packages, size_t packages_len,
    const uint8_t *slots, size_t slots_len)
{
    (void)packages;
    return zakvind_room_by(0, blases, blases_len, entries, entries_len, geometries, geometries_len, packages_len, slots, slots_len);
}

/* The same of zakvind_build_wide. */
static inline zakvind_room zakvind_room_for_wide(
    const uint8_t *blases, size_t blases_len,
    const uint8_t *entries, size_t entries_len,
    const uint8_t *geometries, size_t geometries_len,
    const uint8_t *packages, size_t packages_len,
    const uint8_t *slots, size_t slots_len)
{
    (void)packages;
    return zakvind_room_by(1, blases, blases_len, entries, entries_len, geometries, geometries_len, packages_len, slots, slots_len);
}

/* Reads a sheet of either version: where its sections are, or the first refusal and its byte place. Refuses by 1 to 5. */
zakvind_sheet zakvind_read_sheet(const uint8_t *sheet, size_t sheet_len);

/* Writes a sheet anew in its own version, as many bytes as it has: unused fields zero, declared geometries by Blas number and those of
 * one Blas in their order. What is written is read, and means the same; two sheets come to equal bytes exactly when they mean the
 * same: as read, version included, unused fields aside, floats by their bits, each Blas's declared geometries in order.
 * Refuses by 1 to 5 and 39, the reader's numbers first and at its place, and then writes nothing; room for the sheet's own length is
 * always enough. */
zakvind_written zakvind_write_sheet(const uint8_t *sheet, size_t sheet_len, uint8_t *out, size_t out_len);

/* Writes a sheet of version 1 as one of version 2: the version byte is 2 and each geometry's `first` has four bytes more; every other
 * byte is as it was, in unused fields too. So zakvind_to_version_1 gives the same bytes back. Refuses by 1 to 5 and 39: by 1 at place 0
 * where the version byte is not 1, then by the reader's numbers at its place, then by 39 where `out` is shorter than what is to be
 * written; and then writes nothing. What is written has the sheet's length and four bytes for each geometry, at most 1,024 more:
 * ZAKVIND_ROOM_VERSION_2(sheet_len) is always enough. */
zakvind_written zakvind_to_version_2(const uint8_t *sheet, size_t sheet_len, uint8_t *out, size_t out_len);

/* Writes a sheet of version 2 as one of version 1, the other way round; zakvind_to_version_2 gives the same bytes back. Refuses by 1 to 5,
 * 39 and 47: by 1 at place 0 where the version byte is not 2, then by the reader's numbers at its place, then by 47 at the place, in the
 * sheet that is read, of the first `first` of a geometry that is above 2^32 - 1, then by 39; and then writes nothing. Room for the sheet's
 * own length is always enough. */
zakvind_written zakvind_to_version_1(const uint8_t *sheet, size_t sheet_len, uint8_t *out, size_t out_len);

/* Opens groups of slots: a u16 group count, at most ZAKVIND_MOST_GROUPS, then for each group a u16 item count and its items. An item
 * is a byte 1 and a slot's fields after its present byte, which together are a present slot as zakvind_pack_slot packs it, or a byte 2
 * and a u16, the number of an earlier group, from 0. Writes the slots that the last group opens to, in written order, one behind the
 * other as section 8 has them, with the present byte 1.
 * Refuses by 2 to 5, 39, 45 and 46: first what judging all groups from the start on finds, whether the last one names them or not (2 to
 * 5 at the byte place; 45, at a group and an item, for a count of 0 and for a group that names itself or a later one), then by 46 at
 * the group and the item where the 513th slot is written, then by 39; and then writes nothing. Room for ZAKVIND_MOST_SLOTS *
 * ZAKVIND_SLOT_BYTES is always enough, and however many slots are named, no more than 513 are opened. */
zakvind_opened zakvind_open_groups(const uint8_t *groups, size_t groups_len, uint8_t *slots, size_t slots_len);

/* Judges a build and writes its plan: an offset for each entry, one for each package, start and end of each package's
 * staging range, 64 bytes for each present slot, buffer, start and end of each initialisation range, the compactable Blases,
 * and the recorded action's lists, which zakvind_submit takes as (1, 0, entries, packages).
 * Refuses by 4 to 6 and 10 to 39; by 37 with f0 1 at the first entry at which the running Blas total reaches 2^64 - 1 or would
 * pass it, and if the Blas total stays below, with f0 2 at the first such package; by 39 with e and figures 0, see
 * zakvind_room_for. */
zakvind_built zakvind_build(
    uint32_t alignment,
    const uint8_t *buffers, size_t buffers_len,
    const uint8_t *blases, size_t blases_len,
    const uint8_t *declared, size_t declared_len,
    const uint8_t *tlases, size_t tlases_len,
    const uint8_t *entries, size_t entries_len,
    const uint8_t *geometries, size_t geometries_len,
    const uint8_t *packages, size_t packages_len,
    const uint8_t *slots, size_t slots_len,
    uint64_t *blas_offsets, size_t blas_offsets_len,
    uint64_t *tlas_offsets, size_t tlas_offsets_len,
    uint64_t *staging_ranges, size_t staging_ranges_len,
    uint8_t *instances, size_t instances_len,
    uint64_t *init_ranges, size_t init_ranges_len,
    uint16_t *compactable, size_t compactable_len,
    uint16_t *lists, size_t lists_len);

/* zakvind_build with wide geometries, ZAKVIND_WIDE_GEOMETRY_BYTES each; all else is lent and answered as there, and where every `first`
 * is below 2^32, the same. Above, the same checks are made of whole numbers; of triangles a figure of 23 that would pass 2^64 - 1 stops
 * there. Refuses by 4 to 6 and 10 to 39; see zakvind_room_for_wide. */
zakvind_built zakvind_build_wide(
    uint32_t alignment,
    const uint8_t *buffers, size_t buffers_len,
    const uint8_t *blases, size_t blases_len,
    const uint8_t *declared, size_t declared_len,
    const uint8_t *tlases, size_t tlases_len,
    const uint8_t *entries, size_t entries_len,
    const uint8_t *geometries, size_t geometries_len,
    const uint8_t *packages, size_t packages_len,
    const uint8_t *slots, size_t slots_len,
    uint64_t *blas_offsets, size_t blas_offsets_len,
    uint64_t *tlas_offsets, size_t tlas_offsets_len,
    uint64_t *staging_ranges, size_t staging_ranges_len,
    uint8_t *instances, size_t instances_len,
    uint64_t *init_ranges, size_t init_ranges_len,
    uint16_t *compactable, size_t compactable_len,
    uint16_t *lists, size_t lists_len);

/* Submits actions on the lent tables. A Tlas t lists the first dependency_counts[t] of its 512 cells of dependencies. An
 * action is four cells: kind, operand, Blas count, Tlas count. A Build's operand is the first cell of its lists: its Blases,
 * then for each Tlas its id, how many Blases it lists, and these. ZAKVIND_MARK_BUILT is written alike and does the same. Another
 * kind's operand is the id, and its counts are not read. Refuses by 4 to 6, 21 and 39 to 44. */
zakvind_submitted zakvind_submit(
    zakvind_command_indices *indices,
    uint8_t *blases, size_t blases_len,
    uint8_t *tlases, size_t tlases_len,
    uint16_t *dependency_counts, size_t dependency_counts_len,
    uint16_t *dependencies, size_t dependencies_len,
    const uint32_t *actions, size_t actions_len,
    const uint16_t *lists, size_t lists_len);

/* Appends the 64 bytes of one instance (a slot's 55 bytes after its present byte) to those in use. Refuses by 6, 34, 35 and 39,
 * and then hands back `used` as it was. Not judged here: the tables (4, 5), and how many instances the Tlas may have (36); a
 * build judges both. */
zakvind_appended zakvind_append_instance(
    const uint8_t *tlases, size_t tlases_len,
    const uint8_t *blases, size_t blases_len,
    uint16_t tlas,
    const uint8_t instance[55],
    uint8_t *instances, size_t instances_len,
    uint64_t used);

/* Appends many instances of one Tlas: the items are ZAKVIND_INSTANCE_FIELDS_BYTES each, end to end, each as zakvind_append_instance
 * takes one. All are judged before the first is written, and the bytes are those of one such call after another.
 * Refuses by 5, 6, 34, 35 and 39: first by 6 for the Tlas, with e 0, 0; then for each instance in turn by 6, 34 and 35, with e 0 and its
 * position, from 0; then by 5 for a part of an item at the end, with e 0 and the number of whole ones; last by 39, with e 0, 0, where
 * `used` and 64 bytes for each are more than `instances` has. It then writes nothing, and hands back `used` as it was. Without items
 * nothing is written; the Tlas and the room are judged all the same. Not judged here: what zakvind_append_instance leaves to a build. */
zakvind_appended zakvind_append_instances(
    const uint8_t *tlases, size_t tlases_len,
    const uint8_t *blases, size_t blases_len,
    uint16_t tlas,
    const uint8_t *items, size_t items_len,
    uint8_t *instances, size_t instances_len,
    uint64_t used);

/* Reads instances back from the bytes that a build or an append wrote, or from other records of VkAccelerationStructureInstanceKHR:
 * ZAKVIND_INSTANCE_BYTES each, end to end. Writes an item for each, ZAKVIND_INSTANCE_FIELDS_BYTES, end to end, as
 * zakvind_append_instances takes them: the Blas is the one whose `handle` is the u64 at byte 56, custom data are the low 24 bits of
 * the u32 at byte 48, the mask is its high 8, and the twelve numbers from byte 0 on are kept by their bits, those of a NaN too.
 * Appended to any Tlas they give the same records again, unless 35 is drawn; what was appended comes back as it was, if the address
 * of its Blas stands once in the table.
 * Refuses by 39 and 48 to 50: first by 48, with e 0, 0, where the length is not in 64s; then for each record in turn, with e the
 * record, from 0, and 0, by 49 where the u32 at byte 52, which is written as 0, is something else, and by 50 where its address is
 * that of no Blas or of several; last by 39, with e 0, 0, where there is less room than ZAKVIND_ROOM_ITEMS(records_len); and then
 * writes nothing. Each whole record of `blases` counts, however many there are, a part of one at the end does not, and nothing but
 * the addresses is judged. The first 65,536 have an id: an address that only a later one has is refused by 50 as well. */
zakvind_instances_read zakvind_read_instances(
    const uint8_t *records, size_t records_len,
    const uint8_t *blases, size_t blases_len,
    uint8_t *items, size_t items_len);

/* The lines that the sheet program prints, what is refused among them. Refuses by 39, and then writes nothing; room for
 * ZAKVIND_LONGEST_REPORT is always enough. */
zakvind_reported zakvind_report(const uint8_t *sheet, size_t sheet_len, uint8_t *out, size_t out_len);

/* These lines, and below them in words what they refuse. Refuses by 39, and then writes nothing; room for
 * ZAKVIND_LONGEST_EXPLAINED is always enough. */
zakvind_reported zakvind_explain(const uint8_t *sheet, size_t sheet_len, uint8_t *out, size_t out_len);

/* A refusal of any call in words, a line with its newline: "refused 23: region overruns buffer, entry 0, geometry 0, offset 0,
 * region 960, size 959"; number 0 gives "nothing is refused". What a call doesn't have is given as 0. Refuses by 39, and then
 * writes nothing; room for ZAKVIND_LONGEST_WORDS is always enough. */
enum {
    ZAKVIND_CALL_SHEET = 1,          /* e0 is the place */
    ZAKVIND_CALL_BUILD = 2,          /* of zakvind_build_wide too */
    ZAKVIND_CALL_SUBMISSION = 3,     /* e0 is the action, e1 its kind, 0 where that is not known */
    ZAKVIND_CALL_APPEND = 4,
    ZAKVIND_CALL_WRITE = 5,          /* e0 is the place */
    ZAKVIND_CALL_GROUPS = 6,         /* e0 is the place; of 45 and 46 e0 is the group and e1 the item */
    ZAKVIND_CALL_APPEND_MANY = 7,    /* e1 is the position; of 6 it may be 0 for the Tlas too, and the words say so */
    ZAKVIND_CALL_TO_VERSION_2 = 8,   /* e0 is the place */
    ZAKVIND_CALL_TO_VERSION_1 = 9,   /* e0 is the place */
    ZAKVIND_CALL_READ_INSTANCES = 10 /* e0 is the record */
};
zakvind_reported zakvind_words(
    uint64_t call, uint64_t number, uint64_t e0, uint64_t e1, uint64_t f0, uint64_t f1, uint64_t f2, uint8_t *out, size_t out_len);

#ifdef __cplusplus
}
#endif

#endif
