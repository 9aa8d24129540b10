/* Made by format/generate_bindings.py from format/layout.py.
 *
 * The records of tables and sheets: how long each is, how many a table may have, and each packed to its bytes and unpacked from them.
 * A packed record is what the struct says, bit by bit: whether its values may stand there is judged by the calls. */
#ifndef ZAKVIND_RECORDS_H
#define ZAKVIND_RECORDS_H

#include <stddef.h>
#include <stdint.h>
#include <string.h>

/* Bytes of one record. */
enum {
    ZAKVIND_BUFFER_BYTES = 9,
    ZAKVIND_BLAS_BYTES = 28,
    ZAKVIND_DECLARED_BYTES = 18,
    ZAKVIND_TLAS_BYTES = 22,
    ZAKVIND_ENTRY_BYTES = 5,
    ZAKVIND_GEOMETRY_BYTES = 44, /* of version 1 */
    ZAKVIND_WIDE_GEOMETRY_BYTES = 48, /* of version 2 */
    ZAKVIND_PACKAGE_BYTES = 4,
    ZAKVIND_SLOT_BYTES = 56,
    ZAKVIND_ACTION_BYTES = 3,
    ZAKVIND_INSTANCE_FIELDS_BYTES = 55, /* a slot's after its present byte */
    ZAKVIND_HEAD_BYTES = 13,
    ZAKVIND_LONGEST_SHEET = 57439, /* of either version */
    ZAKVIND_LONGEST_VERSION_1 = 56415
};

/* The most records of a table. */
enum {
    ZAKVIND_MOST_BUFFERS = 256,
    ZAKVIND_MOST_BLASES = 128,
    ZAKVIND_MOST_DECLARED = 512,
    ZAKVIND_MOST_TLASES = 32,
    ZAKVIND_MOST_ENTRIES = 64,
    ZAKVIND_MOST_GEOMETRIES = 256,
    ZAKVIND_MOST_PACKAGES = 32,
    ZAKVIND_MOST_SLOTS = 512,
    ZAKVIND_MOST_ACTIONS = 64
};

/* Values and bits of fields. */
enum {
    ZAKVIND_MARKS_BLAS_INPUT = 1,
    ZAKVIND_MARKS_DESTROYED = 2,
    ZAKVIND_KIND_TRIANGLES = 0,
    ZAKVIND_KIND_BOXES = 1,
    ZAKVIND_FLAGS_USE_TRANSFORM = 1,
    ZAKVIND_FLAGS_ALLOW_RAY_HIT_VERTEX_RETURN = 2,
    ZAKVIND_FLAGS_ALLOW_COMPACTION = 4,
    ZAKVIND_STATE_IDLE = 0,
    ZAKVIND_STATE_WAITING = 1,
    ZAKVIND_STATE_READY = 2,
    ZAKVIND_STATE_COMPACTED = 3,
    ZAKVIND_INDEX_FORMAT_NONE = 0,
    ZAKVIND_INDEX_FORMAT_TWO_BYTE = 1,
    ZAKVIND_INDEX_FORMAT_FOUR_BYTE = 2,
    ZAKVIND_NO_BUFFER = 65535
};

/* Little-endian numbers of `width` bytes. */
static inline void zakvind_put(uint8_t *at, size_t width, uint64_t value)
{
    for (size_t i = 0; i < width; i++)
        at[i] = (uint8_t)(value >> (8 * i) & 255);
}

static inline uint64_t zakvind_get(const uint8_t *at, size_t width)
{
    uint64_t value = 0;
    for (size_t i = 0; i < width; i++)
        value |= (uint64_t)at[i] << (8 * i);
    return value;
}

static inline uint16_t zakvind_get_u16(const uint8_t *at) { return (uint16_t)zakvind_get(at, 2); }
static inline uint32_t zakvind_get_u32(const uint8_t *at) { return (uint32_t)zakvind_get(at, 4); }
static inline uint64_t zakvind_get_u64(const uint8_t *at) { return zakvind_get(at, 8); }

/* A float by its bits, those of a NaN too. */
static inline void zakvind_put_f32(uint8_t *at, float value)
{
    uint32_t bits;
    memcpy(&bits, &value, sizeof bits);
    zakvind_put(at, 4, bits);
}

static inline float zakvind_get_f32(const uint8_t *at)
{
    uint32_t bits = zakvind_get_u32(at);
    float value;
    memcpy(&value, &bits, sizeof value);
    return value;
}

/* Section 1, buffers. */
typedef struct {
    uint64_t size;
    uint8_t marks; /* bits: 1 BLAS_INPUT, 2 destroyed */
} zakvind_buffer;

static inline void zakvind_pack_buffer(uint8_t at[ZAKVIND_BUFFER_BYTES], const zakvind_buffer *r)
{
    zakvind_put(at + 0, 8, r->size);
    at[8] = r->marks;
}

static inline zakvind_buffer zakvind_unpack_buffer(const uint8_t at[ZAKVIND_BUFFER_BYTES])
{
    zakvind_buffer r;
    r.size = zakvind_get_u64(at + 0);
    r.marks = at[8];
    return r;
}

/* A buffer of which nothing is said: all 0, but for what may not be 0, and no buffer where there may be none. */
static inline zakvind_buffer zakvind_buffer_default(void)
{
    zakvind_buffer r;
    memset(&r, 0, sizeof r);
    return r;
}

/* Section 2, blases. */
typedef struct {
    uint8_t kind; /* 0 triangles, 1 boxes */
    uint8_t flags; /* bits: 1 USE_TRANSFORM, 2 ALLOW_RAY_HIT_VERTEX_RETURN, 4 ALLOW_COMPACTION */
    uint8_t compacted_state; /* 0 Idle, 1 Waiting, 2 Ready, 3 Compacted */
    uint8_t destroyed; /* 0 to 1 */
    uint64_t build_scratch_size;
    uint64_t handle;
    uint64_t built_index; /* of the build that last built it, 0 none */
} zakvind_blas;

static inline void zakvind_pack_blas(uint8_t at[ZAKVIND_BLAS_BYTES], const zakvind_blas *r)
{
    at[0] = r->kind;
    at[1] = r->flags;
    at[2] = r->compacted_state;
    at[3] = r->destroyed;
    zakvind_put(at + 4, 8, r->build_scratch_size);
    zakvind_put(at + 12, 8, r->handle);
    zakvind_put(at + 20, 8, r->built_index);
}

static inline zakvind_blas zakvind_unpack_blas(const uint8_t at[ZAKVIND_BLAS_BYTES])
{
    zakvind_blas r;
    r.kind = at[0];
    r.flags = at[1];
    r.compacted_state = at[2];
    r.destroyed = at[3];
    r.build_scratch_size = zakvind_get_u64(at + 4);
    r.handle = zakvind_get_u64(at + 12);
    r.built_index = zakvind_get_u64(at + 20);
    return r;
}

/* A blas of which nothing is said: all 0, but for what may not be 0, and no buffer where there may be none. */
static inline zakvind_blas zakvind_blas_default(void)
{
    zakvind_blas r;
    memset(&r, 0, sizeof r);
    return r;
}

/* Section 3, declared geometries. */
typedef struct {
    uint16_t blas; /* a record of section 2 */
    uint8_t flags;
    uint32_t count; /* of vertices, or of boxes */
    uint8_t vertex_format;
    uint16_t min_vertex_stride;
    uint16_t stride_alignment; /* 1 or more */
    uint8_t index_format; /* 0 none, 1 two-byte, 2 four-byte */
    uint8_t index_count_present; /* 0 to 1 */
    uint32_t index_count;
} zakvind_declared;

static inline void zakvind_pack_declared(uint8_t at[ZAKVIND_DECLARED_BYTES], const zakvind_declared *r)
{
    zakvind_put(at + 0, 2, r->blas);
    at[2] = r->flags;
    zakvind_put(at + 3, 4, r->count);
    at[7] = r->vertex_format;
    zakvind_put(at + 8, 2, r->min_vertex_stride);
    zakvind_put(at + 10, 2, r->stride_alignment);
    at[12] = r->index_format;
    at[13] = r->index_count_present;
    zakvind_put(at + 14, 4, r->index_count);
}

static inline zakvind_declared zakvind_unpack_declared(const uint8_t at[ZAKVIND_DECLARED_BYTES])
{
    zakvind_declared r;
    r.blas = zakvind_get_u16(at + 0);
    r.flags = at[2];
    r.count = zakvind_get_u32(at + 3);
    r.vertex_format = at[7];
    r.min_vertex_stride = zakvind_get_u16(at + 8);
    r.stride_alignment = zakvind_get_u16(at + 10);
    r.index_format = at[12];
    r.index_count_present = at[13];
    r.index_count = zakvind_get_u32(at + 14);
    return r;
}

/* A declared of which nothing is said: all 0, but for what may not be 0, and no buffer where there may be none. */
static inline zakvind_declared zakvind_declared_default(void)
{
    zakvind_declared r;
    memset(&r, 0, sizeof r);
    r.stride_alignment = 1;
    return r;
}

/* Section 4, tlases. */
typedef struct {
    uint8_t flags; /* bits: 2 ALLOW_RAY_HIT_VERTEX_RETURN */
    uint8_t destroyed; /* 0 to 1 */
    uint64_t build_scratch_size;
    uint32_t max_instance_count;
    uint64_t built_index; /* of the build that last built it, 0 none */
} zakvind_tlas;

static inline void zakvind_pack_tlas(uint8_t at[ZAKVIND_TLAS_BYTES], const zakvind_tlas *r)
{
    at[0] = r->flags;
    at[1] = r->destroyed;
    zakvind_put(at + 2, 8, r->build_scratch_size);
    zakvind_put(at + 10, 4, r->max_instance_count);
    zakvind_put(at + 14, 8, r->built_index);
}

static inline zakvind_tlas zakvind_unpack_tlas(const uint8_t at[ZAKVIND_TLAS_BYTES])
{
    zakvind_tlas r;
    r.flags = at[0];
    r.destroyed = at[1];
    r.build_scratch_size = zakvind_get_u64(at + 2);
    r.max_instance_count = zakvind_get_u32(at + 10);
    r.built_index = zakvind_get_u64(at + 14);
    return r;
}

/* A tlas of which nothing is said: all 0, but for what may not be 0, and no buffer where there may be none. */
static inline zakvind_tlas zakvind_tlas_default(void)
{
    zakvind_tlas r;
    memset(&r, 0, sizeof r);
    return r;
}

/* Section 5, entries. */
typedef struct {
    uint16_t blas;
    uint8_t kind; /* 0 triangles, 1 boxes */
    uint16_t geometry_count;
} zakvind_entry;

static inline void zakvind_pack_entry(uint8_t at[ZAKVIND_ENTRY_BYTES], const zakvind_entry *r)
{
    zakvind_put(at + 0, 2, r->blas);
    at[2] = r->kind;
    zakvind_put(at + 3, 2, r->geometry_count);
}

static inline zakvind_entry zakvind_unpack_entry(const uint8_t at[ZAKVIND_ENTRY_BYTES])
{
    zakvind_entry r;
    r.blas = zakvind_get_u16(at + 0);
    r.kind = at[2];
    r.geometry_count = zakvind_get_u16(at + 3);
    return r;
}

/* A entry of which nothing is said: all 0, but for what may not be 0, and no buffer where there may be none. */
static inline zakvind_entry zakvind_entry_default(void)
{
    zakvind_entry r;
    memset(&r, 0, sizeof r);
    return r;
}

/* Section 6, geometries, of version 1. */
typedef struct {
    uint8_t flags;
    uint32_t count; /* of vertices, or of boxes */
    uint32_t first; /* first vertex, or the boxes' offset in bytes */
    uint64_t stride;
    uint16_t buffer; /* not 65535 */
    uint8_t vertex_format;
    uint8_t index_format; /* 0 none, 1 two-byte, 2 four-byte */
    uint16_t index_buffer; /* 65535 none */
    uint8_t index_count_present; /* 0 to 1 */
    uint32_t index_count;
    uint8_t first_index_present; /* 0 to 1 */
    uint32_t first_index;
    uint16_t transform_buffer; /* 65535 none */
    uint8_t transform_buffer_offset_present; /* 0 to 1 */
    uint64_t transform_buffer_offset;
} zakvind_geometry;

static inline void zakvind_pack_geometry(uint8_t at[ZAKVIND_GEOMETRY_BYTES], const zakvind_geometry *r)
{
    at[0] = r->flags;
    zakvind_put(at + 1, 4, r->count);
    zakvind_put(at + 5, 4, r->first);
    zakvind_put(at + 9, 8, r->stride);
    zakvind_put(at + 17, 2, r->buffer);
    at[19] = r->vertex_format;
    at[20] = r->index_format;
    zakvind_put(at + 21, 2, r->index_buffer);
    at[23] = r->index_count_present;
    zakvind_put(at + 24, 4, r->index_count);
    at[28] = r->first_index_present;
    zakvind_put(at + 29, 4, r->first_index);
    zakvind_put(at + 33, 2, r->transform_buffer);
    at[35] = r->transform_buffer_offset_present;
    zakvind_put(at + 36, 8, r->transform_buffer_offset);
}

static inline zakvind_geometry zakvind_unpack_geometry(const uint8_t at[ZAKVIND_GEOMETRY_BYTES])
{
    zakvind_geometry r;
    r.flags = at[0];
    r.count = zakvind_get_u32(at + 1);
    r.first = zakvind_get_u32(at + 5);
    r.stride = zakvind_get_u64(at + 9);
    r.buffer = zakvind_get_u16(at + 17);
    r.vertex_format = at[19];
    r.index_format = at[20];
    r.index_buffer = zakvind_get_u16(at + 21);
    r.index_count_present = at[23];
    r.index_count = zakvind_get_u32(at + 24);
    r.first_index_present = at[28];
    r.first_index = zakvind_get_u32(at + 29);
    r.transform_buffer = zakvind_get_u16(at + 33);
    r.transform_buffer_offset_present = at[35];
    r.transform_buffer_offset = zakvind_get_u64(at + 36);
    return r;
}

/* A geometry of which nothing is said: all 0, but for what may not be 0, and no buffer where there may be none. */
static inline zakvind_geometry zakvind_geometry_default(void)
{
    zakvind_geometry r;
    memset(&r, 0, sizeof r);
    r.index_buffer = 65535;
    r.transform_buffer = 65535;
    return r;
}

/* Section 6, geometries, of version 2. */
typedef struct {
    uint8_t flags;
    uint32_t count; /* of vertices, or of boxes */
    uint64_t first; /* first vertex, or the boxes' offset in bytes */
    uint64_t stride;
    uint16_t buffer; /* not 65535 */
    uint8_t vertex_format;
    uint8_t index_format; /* 0 none, 1 two-byte, 2 four-byte */
    uint16_t index_buffer; /* 65535 none */
    uint8_t index_count_present; /* 0 to 1 */
    uint32_t index_count;
    uint8_t first_index_present; /* 0 to 1 */
    uint32_t first_index;
    uint16_t transform_buffer; /* 65535 none */
    uint8_t transform_buffer_offset_present; /* 0 to 1 */
    uint64_t transform_buffer_offset;
} zakvind_wide_geometry;

static inline void zakvind_pack_wide_geometry(uint8_t at[ZAKVIND_WIDE_GEOMETRY_BYTES], const zakvind_wide_geometry *r)
{
    at[0] = r->flags;
    zakvind_put(at + 1, 4, r->count);
    zakvind_put(at + 5, 8, r->first);
    zakvind_put(at + 13, 8, r->stride);
    zakvind_put(at + 21, 2, r->buffer);
    at[23] = r->vertex_format;
    at[24] = r->index_format;
    zakvind_put(at + 25, 2, r->index_buffer);
    at[27] = r->index_count_present;
    zakvind_put(at + 28, 4, r->index_count);
    at[32] = r->first_index_present;
    zakvind_put(at + 33, 4, r->first_index);
    zakvind_put(at + 37, 2, r->transform_buffer);
    at[39] = r->transform_buffer_offset_present;
    zakvind_put(at + 40, 8, r->transform_buffer_offset);
}

static inline zakvind_wide_geometry zakvind_unpack_wide_geometry(const uint8_t at[ZAKVIND_WIDE_GEOMETRY_BYTES])
{
    zakvind_wide_geometry r;
    r.flags = at[0];
    r.count = zakvind_get_u32(at + 1);
    r.first = zakvind_get_u64(at + 5);
    r.stride = zakvind_get_u64(at + 13);
    r.buffer = zakvind_get_u16(at + 21);
    r.vertex_format = at[23];
    r.index_format = at[24];
    r.index_buffer = zakvind_get_u16(at + 25);
    r.index_count_present = at[27];
    r.index_count = zakvind_get_u32(at + 28);
    r.first_index_present = at[32];
    r.first_index = zakvind_get_u32(at + 33);
    r.transform_buffer = zakvind_get_u16(at + 37);
    r.transform_buffer_offset_present = at[39];
    r.transform_buffer_offset = zakvind_get_u64(at + 40);
    return r;
}

/* A wide geometry of which nothing is said: all 0, but for what may not be 0, and no buffer where there may be none. */
static inline zakvind_wide_geometry zakvind_wide_geometry_default(void)
{
    zakvind_wide_geometry r;
    memset(&r, 0, sizeof r);
    r.index_buffer = 65535;
    r.transform_buffer = 65535;
    return r;
}

/* Section 7, packages. */
typedef struct {
    uint16_t tlas;
    uint16_t slot_count;
} zakvind_package;

static inline void zakvind_pack_package(uint8_t at[ZAKVIND_PACKAGE_BYTES], const zakvind_package *r)
{
    zakvind_put(at + 0, 2, r->tlas);
    zakvind_put(at + 2, 2, r->slot_count);
}

static inline zakvind_package zakvind_unpack_package(const uint8_t at[ZAKVIND_PACKAGE_BYTES])
{
    zakvind_package r;
    r.tlas = zakvind_get_u16(at + 0);
    r.slot_count = zakvind_get_u16(at + 2);
    return r;
}

/* A package of which nothing is said: all 0, but for what may not be 0, and no buffer where there may be none. */
static inline zakvind_package zakvind_package_default(void)
{
    zakvind_package r;
    memset(&r, 0, sizeof r);
    return r;
}

/* Section 8, slots. */
typedef struct {
    uint8_t present; /* 0 to 1 */
    uint16_t blas;
    uint32_t custom_data;
    uint8_t mask;
    float transform[12]; /* three lines of four, the last of each the translation */
} zakvind_slot;

static inline void zakvind_pack_slot(uint8_t at[ZAKVIND_SLOT_BYTES], const zakvind_slot *r)
{
    at[0] = r->present;
    zakvind_put(at + 1, 2, r->blas);
    zakvind_put(at + 3, 4, r->custom_data);
    at[7] = r->mask;
    for (size_t i = 0; i < 12; i++)
        zakvind_put_f32(at + 8 + 4 * i, r->transform[i]);
}

static inline zakvind_slot zakvind_unpack_slot(const uint8_t at[ZAKVIND_SLOT_BYTES])
{
    zakvind_slot r;
    r.present = at[0];
    r.blas = zakvind_get_u16(at + 1);
    r.custom_data = zakvind_get_u32(at + 3);
    r.mask = at[7];
    for (size_t i = 0; i < 12; i++)
        r.transform[i] = zakvind_get_f32(at + 8 + 4 * i);
    return r;
}

/* A slot of which nothing is said: all 0, but for what may not be 0, and no buffer where there may be none. */
static inline zakvind_slot zakvind_slot_default(void)
{
    zakvind_slot r;
    memset(&r, 0, sizeof r);
    return r;
}

/* Section 9, actions. */
typedef struct {
    uint8_t kind; /* 5, the mark that names Blases, is of library submissions only; 1 build, 2 use, 3 mark_blas, 4 mark_tlas */
    uint16_t operand;
} zakvind_action;

static inline void zakvind_pack_action(uint8_t at[ZAKVIND_ACTION_BYTES], const zakvind_action *r)
{
    at[0] = r->kind;
    zakvind_put(at + 1, 2, r->operand);
}

static inline zakvind_action zakvind_unpack_action(const uint8_t at[ZAKVIND_ACTION_BYTES])
{
    zakvind_action r;
    r.kind = at[0];
    r.operand = zakvind_get_u16(at + 1);
    return r;
}

/* A action of which nothing is said: all 0, but for what may not be 0, and no buffer where there may be none. */
static inline zakvind_action zakvind_action_default(void)
{
    zakvind_action r;
    memset(&r, 0, sizeof r);
    r.kind = 1;
    return r;
}

#endif
