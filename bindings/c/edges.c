/* The header against the library: records packed and unpacked, the room of a build, scratch that reaches 2^64 - 1, builds of either width,
 * empty tables, marks that name Blases, a sheet written anew, one of each version converted to the other, opened groups, words, a refused
 * append, many instances in one call, instances read back, how much stack each call uses, with the largest tables, sheet and groups, and
 * how often a build divides. Every answer is held against what it must be. OTHER_LIBRARY: one that stands in for ours may use more stack
 * and divide. */
#define _GNU_SOURCE
#include <zakvind.h>

#include <pthread.h>
#include <stdio.h>
#include <stdlib.h>
#include <string.h>
#include <sys/mman.h>

static void must(int holds, const char *what)
{
    if (!holds) {
        printf("C edges: not as it must be: %s\n", what);
        exit(1);
    }
}

static int all(const uint8_t *bytes, size_t n, uint8_t value)
{
    while (n--)
        if (bytes[n] != value)
            return 0;
    return 1;
}

/* ---- records: random bytes, unpacked and packed again, are the same */

static uint64_t state = 0x5eed;

static uint8_t random_byte(void)
{
    state ^= state << 13;
    state ^= state >> 7;
    state ^= state << 17;
    return (uint8_t)(state >> 32 & 255);
}

#define SAME(one, bytes)                                         \
    for (int round = 0; round < 1000; round++) {                 \
        uint8_t given[bytes], packed[bytes];                     \
        for (size_t i = 0; i < bytes; i++)                       \
            given[i] = random_byte();                            \
        const zakvind_##one r = zakvind_unpack_##one(given);     \
        zakvind_pack_##one(packed, &r);                          \
        must(memcmp(given, packed, bytes) == 0, "a packed " #one); \
    }

static void records(void)
{
    SAME(buffer, ZAKVIND_BUFFER_BYTES)
    SAME(blas, ZAKVIND_BLAS_BYTES)
    SAME(declared, ZAKVIND_DECLARED_BYTES)
    SAME(tlas, ZAKVIND_TLAS_BYTES)
    SAME(entry, ZAKVIND_ENTRY_BYTES)
    SAME(geometry, ZAKVIND_GEOMETRY_BYTES)
    SAME(wide_geometry, ZAKVIND_WIDE_GEOMETRY_BYTES)
    SAME(package, ZAKVIND_PACKAGE_BYTES)
    SAME(slot, ZAKVIND_SLOT_BYTES)
    SAME(action, ZAKVIND_ACTION_BYTES)
    must(zakvind_geometry_default().index_buffer == ZAKVIND_NO_BUFFER, "no index buffer by default");
    must(zakvind_geometry_default().transform_buffer == ZAKVIND_NO_BUFFER, "no transform buffer by default");
    must(zakvind_wide_geometry_default().index_buffer == ZAKVIND_NO_BUFFER, "no index buffer of a wide one by default");
    must(zakvind_wide_geometry_default().transform_buffer == ZAKVIND_NO_BUFFER, "no transform buffer of a wide one by default");
    must(zakvind_declared_default().stride_alignment == 1, "a stride alignment that may be, by default");
}

/* ---- the largest tables that there may be, all of them used */

static uint8_t buffers[ZAKVIND_MOST_BUFFERS * ZAKVIND_BUFFER_BYTES], blases[ZAKVIND_MOST_BLASES * ZAKVIND_BLAS_BYTES];
static uint8_t declared[ZAKVIND_MOST_DECLARED * ZAKVIND_DECLARED_BYTES], tlases[ZAKVIND_MOST_TLASES * ZAKVIND_TLAS_BYTES];
static uint8_t entries[ZAKVIND_MOST_ENTRIES * ZAKVIND_ENTRY_BYTES], geometries[ZAKVIND_MOST_GEOMETRIES * ZAKVIND_GEOMETRY_BYTES];
static uint8_t packages[ZAKVIND_MOST_PACKAGES * ZAKVIND_PACKAGE_BYTES], slots[ZAKVIND_MOST_SLOTS * ZAKVIND_SLOT_BYTES];
static uint8_t actions[ZAKVIND_MOST_ACTIONS * ZAKVIND_ACTION_BYTES], sheet[ZAKVIND_LONGEST_VERSION_1];
/* the same as version 2 has them */
static uint8_t wide_geometries[ZAKVIND_MOST_GEOMETRIES * ZAKVIND_WIDE_GEOMETRY_BYTES], wide_sheet[ZAKVIND_LONGEST_SHEET];

static void fill(void)
{
    for (size_t i = 0; i < ZAKVIND_MOST_BUFFERS; i++) {
        const zakvind_buffer r = {1 << 20, ZAKVIND_MARKS_BLAS_INPUT};
        zakvind_pack_buffer(buffers + i * ZAKVIND_BUFFER_BYTES, &r);
    }
    for (size_t i = 0; i < ZAKVIND_MOST_BLASES; i++) {
        zakvind_blas r = zakvind_blas_default();
        r.flags = ZAKVIND_FLAGS_USE_TRANSFORM | (i % 3 ? ZAKVIND_FLAGS_ALLOW_COMPACTION : 0);
        r.kind = i % 4 == 3;
        r.build_scratch_size = 300 + i;
        r.handle = 0x123456789abcdef0 + i;
        r.built_index = 1;
        zakvind_pack_blas(blases + i * ZAKVIND_BLAS_BYTES, &r);
    }
    for (size_t i = 0; i < ZAKVIND_MOST_DECLARED; i++) {
        zakvind_declared r = zakvind_declared_default();
        r.blas = (uint16_t)(i % ZAKVIND_MOST_BLASES);
        r.count = 24;
        r.index_format = ZAKVIND_INDEX_FORMAT_TWO_BYTE;
        r.index_count_present = 1;
        r.index_count = 36;
        zakvind_pack_declared(declared + i * ZAKVIND_DECLARED_BYTES, &r);
    }
    for (size_t i = 0; i < ZAKVIND_MOST_TLASES; i++) {
        zakvind_tlas r = zakvind_tlas_default();
        r.build_scratch_size = 1000;
        r.max_instance_count = 512;
        zakvind_pack_tlas(tlases + i * ZAKVIND_TLAS_BYTES, &r);
    }
    for (size_t i = 0; i < ZAKVIND_MOST_ENTRIES; i++) {
        const zakvind_entry r = {(uint16_t)i, i % 4 == 3, 4};
        zakvind_pack_entry(entries + i * ZAKVIND_ENTRY_BYTES, &r);
    }
    for (size_t i = 0; i < ZAKVIND_MOST_GEOMETRIES; i++) {
        zakvind_geometry r = zakvind_geometry_default();
        r.count = 24;
        r.stride = 24;
        r.buffer = (uint16_t)i;
        r.index_format = ZAKVIND_INDEX_FORMAT_TWO_BYTE;
        r.index_buffer = (uint16_t)i;
        r.index_count_present = r.first_index_present = r.transform_buffer_offset_present = 1;
        r.index_count = 36;
        r.transform_buffer = (uint16_t)i;
        r.first = (uint32_t)(8 * i);
        zakvind_pack_geometry(geometries + i * ZAKVIND_GEOMETRY_BYTES, &r);
        const zakvind_wide_geometry w = {
            r.flags, r.count, r.first, r.stride, r.buffer, r.vertex_format, r.index_format, r.index_buffer, r.index_count_present,
            r.index_count, r.first_index_present, r.first_index, r.transform_buffer, r.transform_buffer_offset_present,
            r.transform_buffer_offset};
        zakvind_pack_wide_geometry(wide_geometries + i * ZAKVIND_WIDE_GEOMETRY_BYTES, &w);
    }
    for (size_t i = 0; i < ZAKVIND_MOST_PACKAGES; i++) {
        const zakvind_package r = {(uint16_t)i, 16};
        zakvind_pack_package(packages + i * ZAKVIND_PACKAGE_BYTES, &r);
    }
    for (size_t i = 0; i < ZAKVIND_MOST_SLOTS; i++) {
        zakvind_slot r = zakvind_slot_default();
        r.present = i % 5 != 0;
        r.blas = (uint16_t)(i % ZAKVIND_MOST_BLASES);
        zakvind_pack_slot(slots + i * ZAKVIND_SLOT_BYTES, &r);
    }
    for (size_t i = 0; i < ZAKVIND_MOST_ACTIONS; i++) {
        const zakvind_action r = {(uint8_t)(1 + i % 2), 0};
        zakvind_pack_action(actions + i * ZAKVIND_ACTION_BYTES, &r);
    }
}

static void put_section(uint8_t **at, const uint8_t *table, size_t bytes, size_t one)
{
    zakvind_put(*at, 2, bytes / one);
    memcpy(*at + 2, table, bytes);
    *at += 2 + bytes;
}

static size_t make_sheet(uint8_t *sheet, uint8_t version)
{
    uint8_t *at = sheet;
    zakvind_put(at, 1, version);
    zakvind_put(at + 1, 4, 256);
    zakvind_put(at + 5, 8, 5);
    at += ZAKVIND_HEAD_BYTES;
    put_section(&at, buffers, sizeof buffers, ZAKVIND_BUFFER_BYTES);
    put_section(&at, blases, sizeof blases, ZAKVIND_BLAS_BYTES);
    put_section(&at, declared, sizeof declared, ZAKVIND_DECLARED_BYTES);
    put_section(&at, tlases, sizeof tlases, ZAKVIND_TLAS_BYTES);
    put_section(&at, entries, sizeof entries, ZAKVIND_ENTRY_BYTES);
    if (version == 2)
        put_section(&at, wide_geometries, sizeof wide_geometries, ZAKVIND_WIDE_GEOMETRY_BYTES);
    else
        put_section(&at, geometries, sizeof geometries, ZAKVIND_GEOMETRY_BYTES);
    put_section(&at, packages, sizeof packages, ZAKVIND_PACKAGE_BYTES);
    put_section(&at, slots, sizeof slots, ZAKVIND_SLOT_BYTES);
    put_section(&at, actions, sizeof actions, ZAKVIND_ACTION_BYTES);
    return (size_t)(at - sheet);
}

static void make_sheets(void)
{
    must(make_sheet(sheet, 1) == sizeof sheet && make_sheet(wide_sheet, 2) == sizeof wide_sheet, "the longest sheets are as long as is said");
}

/* ---- a build with so much room */

static uint64_t blas_offsets[ZAKVIND_ROOM_BLAS_OFFSETS(ZAKVIND_MOST_ENTRIES)];
static uint64_t tlas_offsets[ZAKVIND_ROOM_TLAS_OFFSETS(ZAKVIND_MOST_PACKAGES)];
static uint64_t staging_ranges[ZAKVIND_ROOM_STAGING_RANGES(ZAKVIND_MOST_PACKAGES)];
static uint8_t instances[ZAKVIND_ROOM_INSTANCES(ZAKVIND_MOST_SLOTS)];
static uint64_t init_ranges[ZAKVIND_ROOM_INIT_RANGES(ZAKVIND_MOST_GEOMETRIES)];
static uint16_t compactable[ZAKVIND_ROOM_COMPACTABLE(ZAKVIND_MOST_ENTRIES)];
static uint16_t lists[ZAKVIND_ROOM_LISTS(ZAKVIND_MOST_ENTRIES, ZAKVIND_MOST_PACKAGES, ZAKVIND_MOST_SLOTS)];
static zakvind_room room;
static zakvind_built built;
static uint32_t alignment = 256;

/* a build of either width, and the geometries that it takes */
static const struct width {
    __typeof__(zakvind_build) *build;
    __typeof__(zakvind_room_for) *room;
    const uint8_t *geometries;
    size_t bytes;
} widths[] = {
    {zakvind_build, zakvind_room_for, geometries, sizeof geometries},
    {zakvind_build_wide, zakvind_room_for_wide, wide_geometries, sizeof wide_geometries},
}, *width = widths;

static void build(void)
{
    built = width->build(alignment, buffers, sizeof buffers, blases, sizeof blases, declared, sizeof declared, tlases, sizeof tlases,
                         entries, sizeof entries, width->geometries, width->bytes, packages, sizeof packages, slots, sizeof slots,
                         blas_offsets, room.blas_offsets, tlas_offsets, room.tlas_offsets, staging_ranges, room.staging_ranges,
                         instances, room.instances, init_ranges, room.init_ranges, compactable, room.compactable, lists, room.lists);
}

static void room_fits(void)
{
    room = width->room(blases, sizeof blases, entries, sizeof entries, width->geometries, width->bytes, packages, sizeof packages,
                       slots, sizeof slots);
    build();
    must(built.number == 0 && built.recorded == 1, "a build with the room that it needs");
    must(built.blas_offsets == room.blas_offsets && built.tlas_offsets == room.tlas_offsets, "offsets as many as there is room");
    must(built.staging_ranges == room.staging_ranges && built.instances == room.instances, "instances as many as there is room");
    must(built.init_ranges == room.init_ranges && built.compactable == room.compactable, "ranges as many as there is room");
    must(built.lists == room.lists, "lists as many as there is room");
    size_t *each[] = {&room.blas_offsets, &room.tlas_offsets, &room.staging_ranges, &room.instances,
                      &room.init_ranges, &room.compactable, &room.lists};
    for (size_t i = 0; i < sizeof each / sizeof *each; i++) {
        must(*each[i] > 0, "each output is written");
        --*each[i];
        build();
        must(built.number == ZAKVIND_OUTPUT_TOO_SHORT, "a build with one element less");
        ++*each[i];
    }
}

/* ---- scratch: entries without geometries and packages without slots, each of a Blas or a Tlas of its own with such a size. The ids run
 * the other way, so that none is taken for the entry or the package. */

static uint8_t sized_entries[sizeof entries], sized_packages[sizeof packages];
static uint8_t sized_blases[ZAKVIND_MOST_ENTRIES * ZAKVIND_BLAS_BYTES], sized_tlases[ZAKVIND_MOST_PACKAGES * ZAKVIND_TLAS_BYTES];
static uint64_t blas_sizes[ZAKVIND_MOST_ENTRIES], tlas_sizes[ZAKVIND_MOST_PACKAGES];

/* so many entries and packages, with the alignment 1 */
static void build_sized(size_t n, size_t m)
{
    for (uint16_t i = 0; i < ZAKVIND_MOST_ENTRIES; i++) {
        const uint16_t id = (uint16_t)(ZAKVIND_MOST_ENTRIES - 1 - i);
        const zakvind_entry e = {id, 0, 0};
        zakvind_blas r = zakvind_blas_default();
        r.flags = ZAKVIND_FLAGS_ALLOW_COMPACTION;
        r.build_scratch_size = blas_sizes[i];
        zakvind_pack_blas(sized_blases + id * ZAKVIND_BLAS_BYTES, &r);
        zakvind_pack_entry(sized_entries + i * ZAKVIND_ENTRY_BYTES, &e);
    }
    for (uint16_t i = 0; i < ZAKVIND_MOST_PACKAGES; i++) {
        const uint16_t id = (uint16_t)(ZAKVIND_MOST_PACKAGES - 1 - i);
        const zakvind_package p = {id, 0};
        zakvind_tlas r = zakvind_tlas_default();
        r.build_scratch_size = tlas_sizes[i];
        zakvind_pack_tlas(sized_tlases + id * ZAKVIND_TLAS_BYTES, &r);
        zakvind_pack_package(sized_packages + i * ZAKVIND_PACKAGE_BYTES, &p);
    }
    uint8_t *outputs[] = {(uint8_t *)blas_offsets, (uint8_t *)tlas_offsets, (uint8_t *)staging_ranges, (uint8_t *)compactable,
                          (uint8_t *)lists};
    const size_t bytes[] = {sizeof blas_offsets, sizeof tlas_offsets, sizeof staging_ranges, sizeof compactable, sizeof lists};
    for (size_t i = 0; i < sizeof bytes / sizeof *bytes; i++)
        memset(outputs[i], 0x5a, bytes[i]);
    built = width->build(1, buffers, 0, sized_blases, sizeof sized_blases, declared, 0, sized_tlases, sizeof sized_tlases,
                         sized_entries, n * ZAKVIND_ENTRY_BYTES, geometries, 0, sized_packages, m * ZAKVIND_PACKAGE_BYTES, slots, 0,
                         blas_offsets, room.blas_offsets, tlas_offsets, room.tlas_offsets, staging_ranges, room.staging_ranges,
                         instances, 0, init_ranges, 0, compactable, ZAKVIND_MOST_ENTRIES, lists, room.lists);
    for (size_t i = 0; built.number && i < sizeof bytes / sizeof *bytes; i++)
        must(all(outputs[i], bytes[i], 0x5a), "a refused build writes nothing");
}

/* Whether all entries and packages are refused by 37 at e0, an entry with f0 1, a package with 2. */
static int out_of_memory(uint64_t e0, uint64_t f0)
{
    build_sized(ZAKVIND_MOST_ENTRIES, ZAKVIND_MOST_PACKAGES);
    return built.number == ZAKVIND_OUT_OF_MEMORY && built.e0 == e0 && built.e1 == 0 && built.f0 == f0 && built.f1 == 0 && built.f2 == 0 &&
           built.recorded == 0 && built.scratch_size == 0 && built.blas_offsets == 0 && built.lists == 0;
}

static int accepted(uint64_t scratch_size)
{
    build_sized(ZAKVIND_MOST_ENTRIES, ZAKVIND_MOST_PACKAGES);
    return built.number == 0 && built.recorded == 1 && built.scratch_size == scratch_size && built.blas_offsets == ZAKVIND_MOST_ENTRIES;
}

static void put_sizes(uint64_t blas_size, uint64_t tlas_size)
{
    for (size_t i = 0; i < ZAKVIND_MOST_ENTRIES; i++)
        blas_sizes[i] = blas_size;
    for (size_t i = 0; i < ZAKVIND_MOST_PACKAGES; i++)
        tlas_sizes[i] = tlas_size;
}

static void scratch(void)
{
    enum { LAST_ENTRY = ZAKVIND_MOST_ENTRIES - 1, LAST_PACKAGE = ZAKVIND_MOST_PACKAGES - 1 };
    const uint64_t top = UINT64_MAX, half = (uint64_t)1 << 63, entry = 1, package = 2;
    /* by each one alone, and by the last one of equal ones, whose sum would be 2^64 */
    for (size_t i = 0; i < ZAKVIND_MOST_ENTRIES; i++) {
        put_sizes(0, 0);
        blas_sizes[i] = top;
        must(out_of_memory(i, entry), "2^64 - 1 of one entry");
    }
    for (size_t i = 0; i < ZAKVIND_MOST_PACKAGES; i++) {
        put_sizes(0, 0);
        tlas_sizes[i] = top;
        must(out_of_memory(i, package), "2^64 - 1 of one package");
    }
    put_sizes((uint64_t)1 << 58, 0);
    must(out_of_memory(LAST_ENTRY, entry), "a sum that would be 2^64, at the last entry");
    put_sizes(0, (uint64_t)1 << 59);
    must(out_of_memory(LAST_PACKAGE, package), "a sum that would be 2^64, at the last package");
    build_sized(LAST_ENTRY, LAST_PACKAGE);
    must(built.number == 0 && built.scratch_size == (uint64_t)LAST_PACKAGE << 59, "and without it");

    /* exactly 2^64 - 2, and one more, by the last one */
    put_sizes(1, 1);
    blas_sizes[0] = top - 1 - LAST_ENTRY;
    must(accepted(top - 1) && blas_offsets[LAST_ENTRY] == top - 2, "2^64 - 2 of the entries");
    tlas_sizes[0] = top - 1 - LAST_PACKAGE;
    must(accepted(top - 1) && tlas_offsets[LAST_PACKAGE] == top - 2, "2^64 - 2 of both");
    tlas_sizes[LAST_PACKAGE]++;
    must(out_of_memory(LAST_PACKAGE, package), "2^64 - 1 at the last package");
    blas_sizes[LAST_ENTRY]++;
    must(out_of_memory(LAST_ENTRY, entry), "2^64 - 1 at the last entry, before a package");
    tlas_sizes[0] = top;
    must(out_of_memory(LAST_ENTRY, entry), "the last entry before the first package");
    blas_sizes[0] = top - 1;
    must(out_of_memory(1, entry), "the first of many entries");
    blas_sizes[0] = top;
    must(out_of_memory(0, entry), "the first entry");

    /* sums that would be 0 are no build of nothing */
    put_sizes(0, 0);
    build_sized(ZAKVIND_MOST_ENTRIES, ZAKVIND_MOST_PACKAGES);
    must(built.number == 0 && built.recorded == 0 && built.scratch_size == 0, "no scratch: nothing recorded");
    blas_sizes[3] = blas_sizes[40] = half;
    must(out_of_memory(40, entry), "2^63 of two entries");
    put_sizes(0, 0);
    tlas_sizes[3] = tlas_sizes[20] = half;
    must(out_of_memory(20, package), "2^63 of two packages");
    /* the larger total counts, not their sum */
    put_sizes(0, 0);
    blas_sizes[5] = tlas_sizes[7] = half;
    must(accepted(half), "2^63 of an entry and of a package");
}

/* ---- builds of either width */

enum { KEPT = sizeof blas_offsets + sizeof tlas_offsets + sizeof staging_ranges + sizeof instances + sizeof init_ranges +
              sizeof compactable + sizeof lists };
static uint8_t kept[2][KEPT];

/* every output and the answer, painted before */
static zakvind_built build_kept(const struct width *by, uint8_t *to)
{
    void *outputs[] = {blas_offsets, tlas_offsets, staging_ranges, instances, init_ranges, compactable, lists};
    const size_t bytes[] = {sizeof blas_offsets, sizeof tlas_offsets, sizeof staging_ranges, sizeof instances,
                            sizeof init_ranges, sizeof compactable, sizeof lists};
    for (size_t i = 0; i < sizeof bytes / sizeof *bytes; i++)
        memset(outputs[i], 0x5a, bytes[i]);
    width = by;
    build();
    for (size_t i = 0; i < sizeof bytes / sizeof *bytes; to += bytes[i++])
        memcpy(to, outputs[i], bytes[i]);
    return built;
}

static uint64_t same_as_narrow(const char *what)
{
    const zakvind_built a = build_kept(widths, kept[0]), b = build_kept(widths + 1, kept[1]);
    must(memcmp(&a, &b, sizeof a) == 0 && memcmp(kept[0], kept[1], KEPT) == 0, what);
    return a.number;
}

/* a bit of a geometry flipped in both, where it is at another place from the stride on */
static void flip(size_t i, size_t byte, uint8_t bit)
{
    geometries[i * ZAKVIND_GEOMETRY_BYTES + byte] ^= bit;
    wide_geometries[i * ZAKVIND_WIDE_GEOMETRY_BYTES + byte + (byte < 9 ? 0 : 4)] ^= bit;
}

static void as_narrow(void)
{
    size_t seen[48] = {0}, numbers = 0;
    must(same_as_narrow("a wide build is answered as the narrow one") == 0, "it is accepted");
    for (size_t i = 0; i < ZAKVIND_MOST_GEOMETRIES; i += 51)
        for (size_t byte = 0; byte < ZAKVIND_GEOMETRY_BYTES; byte++)
            for (int k = 0; k < 8; k++) {
                flip(i, byte, (uint8_t)(1 << k));
                const uint64_t number = same_as_narrow("with another bit in a geometry too");
                must(number < 48, "by a number that there is");
                numbers += seen[number]++ == 0;
                flip(i, byte, (uint8_t)(1 << k));
            }
    must(numbers > 15, "of many numbers");
    width = widths;
}

static uint8_t far_buffer[ZAKVIND_BUFFER_BYTES], far_blas[ZAKVIND_BLAS_BYTES], far_declared[ZAKVIND_DECLARED_BYTES];
static uint8_t far_entry[ZAKVIND_ENTRY_BYTES], far_geometry[ZAKVIND_WIDE_GEOMETRY_BYTES];

/* One geometry of a kind over a buffer of such a size. */
static void build_far(uint8_t kind, uint64_t size, uint64_t first, uint32_t count, uint64_t stride)
{
    const zakvind_buffer buffer = {size, ZAKVIND_MARKS_BLAS_INPUT};
    const zakvind_entry entry = {0, kind, 1};
    zakvind_blas blas = zakvind_blas_default();
    zakvind_declared declares = zakvind_declared_default();
    zakvind_wide_geometry geometry = zakvind_wide_geometry_default();
    blas.kind = kind;
    blas.build_scratch_size = 1;
    declares.count = geometry.count = count;
    geometry.first = first;
    geometry.stride = stride;
    zakvind_pack_buffer(far_buffer, &buffer);
    zakvind_pack_blas(far_blas, &blas);
    zakvind_pack_declared(far_declared, &declares);
    zakvind_pack_entry(far_entry, &entry);
    zakvind_pack_wide_geometry(far_geometry, &geometry);
    built = zakvind_build_wide(1, far_buffer, sizeof far_buffer, far_blas, sizeof far_blas, far_declared, sizeof far_declared, tlases, 0,
                               far_entry, sizeof far_entry, far_geometry, sizeof far_geometry, packages, 0, slots, 0, blas_offsets, 1,
                               tlas_offsets, 0, staging_ranges, 0, instances, 0, init_ranges, 3, compactable, 0, lists, 1);
}

static int ranges_to(uint64_t start, uint64_t end)
{
    return built.number == 0 && built.recorded == 1 && built.init_ranges == 3 && init_ranges[0] == 0 && init_ranges[1] == start &&
           init_ranges[2] == end;
}

static int overruns(uint64_t offset, uint64_t region, uint64_t size)
{
    return built.number == ZAKVIND_INSUFFICIENT_BUFFER_SIZE && built.e0 == 0 && built.e1 == 0 && built.f0 == offset &&
           built.f1 == region && built.f2 == size;
}

static void far_builds(void)
{
    const uint64_t top = UINT64_MAX, far = (uint64_t)1 << 32;
    const uint64_t firsts[] = {0, far - 8, far, far + 8, (uint64_t)1 << 40, top - 55};
    for (size_t i = 0; i < sizeof firsts / sizeof *firsts; i++) {
        const uint64_t first = firsts[i], end = first + 48;
        build_far(ZAKVIND_KIND_BOXES, end, first, 2, 24);
        must(ranges_to(first, end), "boxes to the buffer's end");
        build_far(ZAKVIND_KIND_BOXES, end - 1, first, 2, 24);
        must(overruns(first, 48, end - 1), "boxes a byte past the buffer's end");
        build_far(ZAKVIND_KIND_BOXES, top, first + 4, 2, 24);
        must(built.number == ZAKVIND_UNALIGNED_AABB_PRIMITIVE_OFFSET, "an offset not in eights");
    }
    for (size_t i = 0; i < sizeof firsts / sizeof *firsts - 1; i++) {
        const uint64_t first = firsts[i], start = 12 * first, end = start + 36;
        build_far(ZAKVIND_KIND_TRIANGLES, end, first, 3, 12);
        must(ranges_to(start, end), "vertices to the buffer's end");
        build_far(ZAKVIND_KIND_TRIANGLES, end - 1, first, 3, 12);
        must(overruns(start, 36, end - 1), "vertices a byte past the buffer's end");
    }
    build_far(ZAKVIND_KIND_BOXES, top, top - 7, 2, 24);
    must(overruns(top - 7, 48, top), "boxes past 2^64 - 1");
    build_far(ZAKVIND_KIND_BOXES, top, top - 7, 0, 24);
    must(ranges_to(top - 7, top - 7), "no boxes, just before 2^64 - 1");
    build_far(ZAKVIND_KIND_BOXES, top, top, 2, 24);
    must(built.number == ZAKVIND_UNALIGNED_AABB_PRIMITIVE_OFFSET, "an offset of 2^64 - 1");
    build_far(ZAKVIND_KIND_BOXES, top, far, 1 << 27, 32);
    must(built.number == ZAKVIND_OFFSET_LIMITED_TO_4GB && built.f0 == far && built.f1 == 1 << 27 && built.f2 == 32, "boxes of 2^32 bytes");
    build_far(ZAKVIND_KIND_TRIANGLES, top, top - 3, 3, 1);
    must(ranges_to(top - 3, top), "vertices to 2^64 - 1");
    build_far(ZAKVIND_KIND_TRIANGLES, top, top - 2, 3, 1);
    must(overruns(top - 2, 3, top), "a sum past 2^64 - 1");
    build_far(ZAKVIND_KIND_TRIANGLES, top, top, 3, 12);
    must(overruns(top, 36, top), "a product past 2^64 - 1");
    build_far(ZAKVIND_KIND_TRIANGLES, top, far, 3, top);
    must(overruns(top, top, top), "two products past 2^64 - 1");
    build_far(ZAKVIND_KIND_TRIANGLES, 0, top, UINT32_MAX, 0);
    must(ranges_to(0, 0), "no stride from 2^64 - 1 on");
}

/* ---- nothing at all, lent by the idiom */

static void nothing(void)
{
    uint8_t *null = NULL, *given = sheet;
    uint8_t *none = ZAKVIND_LENT(uint8_t, null);
    must(none != NULL && ZAKVIND_LENT(uint8_t, given) == sheet, "a pointer to nothing");
    for (size_t i = 0; i < sizeof widths / sizeof *widths; i++) {
        const zakvind_built b =
            widths[i].build(1, none, 0, none, 0, none, 0, none, 0, none, 0, none, 0, none, 0, none, 0, ZAKVIND_NONE(uint64_t), 0,
                            ZAKVIND_NONE(uint64_t), 0, ZAKVIND_NONE(uint64_t), 0, none, 0, ZAKVIND_NONE(uint64_t), 0,
                            ZAKVIND_NONE(uint16_t), 0, ZAKVIND_NONE(uint16_t), 0);
        must(b.number == 0 && b.recorded == 0, "a build of nothing");
    }
    zakvind_command_indices indices = {3, 5};
    const zakvind_submitted s = zakvind_submit(&indices, none, 0, none, 0, ZAKVIND_NONE(uint16_t), 0, ZAKVIND_NONE(uint16_t), 0,
                                               ZAKVIND_NONE(uint32_t), 0, ZAKVIND_NONE(uint16_t), 0);
    must(s.number == 0 && indices.next_acceleration_structure_build_command_index == 5, "a submission of nothing");
    must(zakvind_read_sheet(none, 0).number == ZAKVIND_TRUNCATED, "a sheet of nothing");
    must(zakvind_write_sheet(none, 0, none, 0).number == ZAKVIND_TRUNCATED, "a sheet of nothing written");
    must(zakvind_write_sheet(sheet, sizeof sheet, none, 0).number == ZAKVIND_OUTPUT_TOO_SHORT, "a sheet without room");
    must(zakvind_to_version_2(none, 0, none, 0).number == ZAKVIND_TRUNCATED, "a sheet of nothing to version 2");
    must(zakvind_to_version_1(none, 0, none, 0).number == ZAKVIND_TRUNCATED, "a sheet of nothing to version 1");
    must(zakvind_to_version_2(sheet, sizeof sheet, none, 0).number == ZAKVIND_OUTPUT_TOO_SHORT, "version 2 without room");
    must(zakvind_to_version_1(wide_sheet, sizeof wide_sheet, none, 0).number == ZAKVIND_OUTPUT_TOO_SHORT, "version 1 without room");
    must(zakvind_open_groups(none, 0, none, 0).number == ZAKVIND_TRUNCATED, "groups of nothing opened");
    zakvind_appended a = zakvind_append_instances(none, 0, none, 0, 0, none, 0, none, 0, 0);
    must(a.number == ZAKVIND_INVALID_RESOURCE && a.used == 0, "no instances of no Tlas");
    a = zakvind_append_instances(tlases, ZAKVIND_TLAS_BYTES, none, 0, 0, none, 0, none, 0, 0);
    must(a.number == 0 && a.used == 0, "no instances of a Tlas");
    uint8_t record[ZAKVIND_INSTANCE_BYTES] = {0};
    zakvind_put(record + 56, 8, zakvind_unpack_blas(blases).handle);
    zakvind_instances_read r = zakvind_read_instances(none, 0, none, 0, none, 0);
    must(r.number == 0 && r.e0 == 0 && r.e1 == 0 && r.written == 0, "no records over no Blases");
    r = zakvind_read_instances(none, 0, blases, sizeof blases, none, 0);
    must(r.number == 0 && r.written == 0, "no records over Blases");
    r = zakvind_read_instances(record, sizeof record, none, 0, none, 0);
    must(r.number == ZAKVIND_NOT_ONE_BLAS && r.e0 == 0 && r.written == 0, "a record over no Blases");
    r = zakvind_read_instances(record, sizeof record, blases, sizeof blases, none, 0);
    must(r.number == ZAKVIND_OUTPUT_TOO_SHORT && r.e0 == 0 && r.written == 0, "a record without room");
    r = zakvind_read_instances(record, 1, none, 0, none, 0);
    must(r.number == ZAKVIND_UNEVEN_LENGTH && r.e0 == 0 && r.written == 0, "a byte of a record");
    must(zakvind_report(none, 0, none, 0).number == ZAKVIND_OUTPUT_TOO_SHORT, "a text without room");
}

/* ---- a mark that names each Tlas's Blases */

enum { MARKED_BLASES = 2, MARKED_TLASES = 2 };
typedef struct {
    uint8_t blases[MARKED_BLASES * ZAKVIND_BLAS_BYTES], tlases[MARKED_TLASES * ZAKVIND_TLAS_BYTES];
    uint16_t counts[MARKED_TLASES], dependencies[MARKED_TLASES * ZAKVIND_TLAS_ROOM];
    zakvind_command_indices indices;
} marked;

/* Blas 1 in a state of its own, neither built; every cell of a list is 7 */
static marked marked_start(uint64_t counter, uint8_t state_of_1)
{
    marked m = {.indices = {3, counter}};
    zakvind_blas b = zakvind_blas_default();
    const zakvind_tlas t = zakvind_tlas_default();
    zakvind_pack_blas(m.blases, &b);
    b.compacted_state = state_of_1;
    zakvind_pack_blas(m.blases + ZAKVIND_BLAS_BYTES, &b);
    for (int i = 0; i < MARKED_TLASES; i++)
        zakvind_pack_tlas(m.tlases + i * ZAKVIND_TLAS_BYTES, &t);
    for (int i = 0; i < MARKED_TLASES * ZAKVIND_TLAS_ROOM; i++)
        m.dependencies[i] = 7;
    return m;
}

static zakvind_submitted mark(marked *m, const uint32_t *cells, size_t n, const uint16_t *its_lists, size_t its_lists_len)
{
    return zakvind_submit(&m->indices, m->blases, sizeof m->blases, m->tlases, sizeof m->tlases, m->counts, MARKED_TLASES, m->dependencies,
                          MARKED_TLASES * ZAKVIND_TLAS_ROOM, cells, n, its_lists, its_lists_len);
}

/* of the mark and of a Build of the same lists: the same answer, and the same is left */
static void marks_as_build(uint64_t counter, uint8_t state_of_1, uint32_t blas_count, uint32_t tlas_count, size_t lent, uint64_t number)
{
    static const uint16_t its_lists[] = {0, 1, 0, 2, 0, 1, 1, 1, 0, 2, 0, 9};
    const uint32_t of_mark[] = {ZAKVIND_MARK_BUILT, 0, blas_count, tlas_count}, of_build[] = {ZAKVIND_BUILD, 0, blas_count, tlas_count};
    marked m = marked_start(counter, state_of_1), b = m;
    const zakvind_submitted said = mark(&m, of_mark, 4, its_lists, lent), as_build = mark(&b, of_build, 4, its_lists, lent);
    must(said.number == number, "a mark's number");
    must(memcmp(&said, &as_build, sizeof said) == 0 && memcmp(&m, &b, sizeof m) == 0, "a mark is a Build of its lists");
}

static void marks_built(void)
{
    static const uint16_t its_lists[] = {0, 0, 1, 0};
    static const uint32_t first[] = {ZAKVIND_MARK_BUILT, 0, 1, 1, ZAKVIND_USE_TLAS, 0, 0, 0};
    static const uint32_t then[] = {ZAKVIND_MARK_BLAS, 0, 0, 0, ZAKVIND_USE_TLAS, 0, 0, 0};
    static const uint32_t old[] = {ZAKVIND_MARK_TLAS, 0, 0, 0, ZAKVIND_MARK_BLAS, 0, 0, 0, ZAKVIND_USE_TLAS, 0, 0, 0};
    marked m = marked_start(5, 0);
    zakvind_submitted s = mark(&m, first, 8, its_lists, 4);
    must(s.number == 0 && m.indices.next_acceleration_structure_build_command_index == 6 && m.indices.active_submission_index == 3,
         "a mark of a Tlas over a Blas");
    s = mark(&m, then, 8, its_lists, 0);
    must(s.number == ZAKVIND_BLAS_NEWER_THAN_TLAS && s.action == 1 && s.f0 == 0 && s.f1 == 0, "a marked Tlas over a Blas marked after it");
    must(m.indices.next_acceleration_structure_build_command_index == 7, "the counter after it");
    s = mark(&m, old, 12, its_lists, 0);
    must(s.number == 0 && m.counts[0] == 0, "the old mark over a Blas marked after it");
    marks_as_build(5, 2, 2, 0, 12, 0);
    marks_as_build(5, 2, 2, 2, 12, 0);
    marks_as_build(UINT64_MAX, 1, 2, 2, 12, 0);
    marks_as_build(5, 0, 0, 0, 0, 0);
    marks_as_build(5, 0, 0, 1, 12, ZAKVIND_USED_UNBUILT_BLAS);
    marks_as_build(5, 0, 1, 2, 12, ZAKVIND_INVALID_RESOURCE);
    marks_as_build(5, 0, 2, 2, 8, ZAKVIND_INVALID_VALUE);
    marks_as_build(5, 0, 0, UINT32_MAX, 12, ZAKVIND_INVALID_VALUE);
    marks_as_build(5, 0, UINT32_MAX, 0, 12, ZAKVIND_INVALID_VALUE);
    marks_as_build(0, 3, 12, 0, 12, ZAKVIND_INVALID_RESOURCE);
    marks_as_build(0, 3, 2, 2, 12, ZAKVIND_COUNTER_EXHAUSTED);
    marks_as_build(5, 3, 2, 2, 12, ZAKVIND_BUILD_OF_COMPACTED_BLAS);
    for (uint32_t kind = 6; kind != 0; kind <<= 1) {
        const uint32_t cells[] = {kind, 0, 0, 0};
        m = marked_start(5, 0);
        const marked before = m;
        s = mark(&m, cells, 4, its_lists, 4);
        must(s.number == ZAKVIND_INVALID_VALUE && memcmp(&m, &before, sizeof m) == 0, "a kind above it");
    }
    uint8_t said[ZAKVIND_LONGEST_WORDS];
    static const char expected[] = "refused 42: Blas without number, mark as built at action 2, Blas 8, Tlas 9\n";
    const zakvind_reported r =
        zakvind_words(ZAKVIND_CALL_SUBMISSION, ZAKVIND_USED_UNBUILT_BLAS, 2, ZAKVIND_MARK_BUILT, 8, 9, 0, said, sizeof said);
    must(r.number == 0 && r.written == sizeof expected - 1 && memcmp(said, expected, sizeof expected - 1) == 0, "the words of a mark's 42");
}

/* ---- a sheet written anew */

static uint8_t anew[ZAKVIND_LONGEST_SHEET + 8], again[ZAKVIND_LONGEST_SHEET];

/* one of so many bytes, the last of which are an action */
static void written(uint8_t *sheet, size_t n)
{
    uint8_t *last = sheet + n - 3;
    memset(anew, 0x5a, sizeof anew);
    zakvind_written w = zakvind_write_sheet(sheet, n, anew, n - 1);
    must(w.number == ZAKVIND_OUTPUT_TOO_SHORT && w.place == 0 && w.written == 0, "a sheet with a byte less of room");
    must(all(anew, sizeof anew, 0x5a), "nothing is written without room");
    last[0] = 5;
    w = zakvind_write_sheet(sheet, n, anew, 0);
    must(w.number == ZAKVIND_INVALID_VALUE && w.place == n - 3 && w.written == 0, "the reader's refusal comes first");
    w = zakvind_write_sheet(sheet, n, anew, sizeof anew);
    must(w.number == ZAKVIND_INVALID_VALUE && all(anew, sizeof anew, 0x5a), "nothing is written of a refused sheet");
    last[0] = 2;
    w = zakvind_write_sheet(sheet, n, anew, sizeof anew);
    must(w.number == 0 && w.place == 0 && w.written == n, "a sheet written");
    must(all(anew + n, sizeof anew - n, 0x5a), "what is past the sheet is kept");
    must(memcmp(anew, sheet, n) != 0, "this one has another order and leftovers");
    const zakvind_sheet before = zakvind_read_sheet(sheet, n), after = zakvind_read_sheet(anew, n);
    must(memcmp(&before, &after, sizeof before) == 0, "what is written is read, and has the same version and sections");
    must(after.version == sheet[0], "its version is the one that was read");
    const uint8_t *d = anew + after.sections[2].start;
    for (size_t i = 1; i < ZAKVIND_MOST_DECLARED; i++, d += ZAKVIND_DECLARED_BYTES)
        must(zakvind_unpack_declared(d).blas <= zakvind_unpack_declared(d + ZAKVIND_DECLARED_BYTES).blas, "declared geometries by Blas");
    for (size_t i = 0; i < ZAKVIND_MOST_SLOTS; i++) {
        const uint8_t *slot = anew + after.sections[7].start + i * ZAKVIND_SLOT_BYTES;
        must(slot[0] || all(slot, ZAKVIND_SLOT_BYTES, 0), "an absent slot is zero");
    }
    w = zakvind_write_sheet(anew, n, again, n);
    must(w.number == 0 && memcmp(again, anew, n) == 0, "written once more it is the same");
    /* an absent slot's leftovers count for nothing, a present one's bytes do */
    sheet[before.sections[7].start + 7] ^= 1;
    w = zakvind_write_sheet(sheet, n, again, n);
    must(w.number == 0 && memcmp(again, anew, n) == 0, "another leftover is written the same");
    sheet[before.sections[7].start + 7] ^= 1;
    sheet[before.sections[7].start + ZAKVIND_SLOT_BYTES + 7] ^= 1;
    w = zakvind_write_sheet(sheet, n, again, n);
    must(w.number == 0 && memcmp(again, anew, n) != 0, "another bit that is used is written otherwise");
    sheet[before.sections[7].start + ZAKVIND_SLOT_BYTES + 7] ^= 1;
}

/* ---- a sheet of each version converted to the other */

enum { AROUND = 8 };
static uint8_t converted[AROUND + ZAKVIND_LONGEST_SHEET + 2000];

/* Into so much room, by one way or the other: what is past the sheet is kept, and all where it is refused. */
static zakvind_written converts(int to, const uint8_t *from, size_t n, size_t room)
{
    memset(converted, 0x5a, sizeof converted);
    const zakvind_written w = (to == 2 ? zakvind_to_version_2 : zakvind_to_version_1)(from, n, converted + AROUND, room);
    must(!w.number || w.written == 0, "a refusal writes nothing");
    must(w.written <= room && all(converted, AROUND, 0x5a), "what is before the sheet is kept");
    must(all(converted + AROUND + w.written, sizeof converted - AROUND - w.written, 0x5a), "what is past the sheet is kept");
    return w;
}

static int refused_by(zakvind_written w, uint64_t number, uint64_t place) { return w.number == number && w.place == place; }

static int becomes(int to, const uint8_t *from, size_t n, size_t room, const uint8_t *expected, size_t m)
{
    const zakvind_written w = converts(to, from, n, room);
    return refused_by(w, 0, 0) && w.written == m && memcmp(converted + AROUND, expected, m) == 0;
}

/* A sheet as the reader refuses it is refused the same by the converter of its version, and by 1 by the other, with no room too. */
static void refused_as_read(const uint8_t *from, size_t n)
{
    const zakvind_sheet r = zakvind_read_sheet(from, n);
    const int other = from[0] == 1 ? 1 : 2, to = 3 - other;
    const size_t rooms[] = {0, n, ZAKVIND_ROOM_VERSION_2(n)};
    must(r.number != 0, "the reader refuses it");
    for (size_t i = 0; i < sizeof rooms / sizeof *rooms; i++) {
        must(refused_by(converts(to, from, n, rooms[i]), r.number, r.place), "the reader's refusal, at its place");
        must(refused_by(converts(other, from, n, rooms[i]), ZAKVIND_UNKNOWN_VERSION, 0), "of the other way's version by 1");
    }
}

static uint8_t *first_of(size_t i)
{
    static size_t start;
    if (!start)
        start = (size_t)zakvind_read_sheet(wide_sheet, sizeof wide_sheet).sections[5].start;
    return wide_sheet + start + i * ZAKVIND_WIDE_GEOMETRY_BYTES + 5;
}

static void both_ways(void)
{
    const size_t n = sizeof sheet, m = sizeof wide_sheet;
    const uint64_t far = (uint64_t)1 << 32;
    must(m == ZAKVIND_ROOM_VERSION_2(n) && m == n + 1024, "no sheet needs more room than is said");
    /* the longest, leftovers in its unused fields, with exactly their room and more */
    must(becomes(2, sheet, n, m, wide_sheet, m) && becomes(2, sheet, n, m + 900, wide_sheet, m), "a sheet as version 2");
    must(becomes(1, wide_sheet, m, n, sheet, n) && becomes(1, wide_sheet, m, m, sheet, n), "and back");
    for (size_t less = 1; less < 2000; less += 37) {
        must(refused_by(converts(2, sheet, n, m - less), ZAKVIND_OUTPUT_TOO_SHORT, 0), "version 2 with less room");
        must(refused_by(converts(1, wide_sheet, m, n - less), ZAKVIND_OUTPUT_TOO_SHORT, 0), "version 1 with less room");
    }
    must(refused_by(converts(2, sheet, n, 0), ZAKVIND_OUTPUT_TOO_SHORT, 0), "version 2 without room");
    must(refused_by(converts(1, wide_sheet, m, 0), ZAKVIND_OUTPUT_TOO_SHORT, 0), "version 1 without room");
    /* the other way's version, before the room */
    must(refused_by(converts(2, wide_sheet, m, 0), ZAKVIND_UNKNOWN_VERSION, 0), "version 2 as version 2");
    must(refused_by(converts(1, sheet, n, 0), ZAKVIND_UNKNOWN_VERSION, 0), "version 1 as version 1");

    /* one byte: a version alone, and what is none */
    for (int version = 0; version < 256; version++) {
        const uint8_t one = (uint8_t)version;
        const zakvind_written to_2 = converts(2, &one, 1, m), to_1 = converts(1, &one, 1, m);
        must(refused_by(to_2, version == 1 ? ZAKVIND_TRUNCATED : ZAKVIND_UNKNOWN_VERSION, version == 1), "a version to 2");
        must(refused_by(to_1, version == 2 ? ZAKVIND_TRUNCATED : ZAKVIND_UNKNOWN_VERSION, version == 2), "a version to 1");
        const uint64_t number = zakvind_read_sheet(&one, 1).number;
        must(number == (version == 1 || version == 2 ? ZAKVIND_TRUNCATED : ZAKVIND_UNKNOWN_VERSION), "a version read");
    }
    must(refused_by(converts(2, sheet, 0, m), ZAKVIND_TRUNCATED, 0) && refused_by(converts(1, sheet, 0, m), ZAKVIND_TRUNCATED, 0), "no byte");

    /* what the reader refuses: cut short, left over, too many, a value; before a first that does not fit */
    for (int far_too = 0; far_too < 2; far_too++) {
        for (size_t cut = 1; cut < n; cut += 997) {
            refused_as_read(sheet, cut);
            refused_as_read(wide_sheet, cut);
        }
        memcpy(again, sheet, n);
        again[n] = 0;
        refused_as_read(again, n + 1);
        again[14] = 9;
        refused_as_read(again, n);
        again[14] = sheet[14];
        again[n - 3] = 5;
        refused_as_read(again, n);
        wide_sheet[m - 3] = 5;
        refused_as_read(wide_sheet, m);
        wide_sheet[m - 3] = 2;
        zakvind_put(first_of(0), 8, far);
    }
    zakvind_put(first_of(0), 8, 0);

    /* the first geometry that does not fit, whatever its kind and before the room */
    for (size_t i = 0; i < ZAKVIND_MOST_GEOMETRIES; i++) {
        const uint64_t was = zakvind_get_u64(first_of(i)), place = (uint64_t)(first_of(i) - wide_sheet);
        const uint64_t firsts[] = {far, far + was, (uint64_t)1 << 63, UINT64_MAX};
        zakvind_put(first_of(ZAKVIND_MOST_GEOMETRIES - 1), 8, far);
        for (size_t k = 0; k < sizeof firsts / sizeof *firsts; k++) {
            zakvind_put(first_of(i), 8, firsts[k]);
            must(zakvind_read_sheet(wide_sheet, m).number == 0, "it is read");
            must(refused_by(converts(1, wide_sheet, m, k % 2 ? m : 0), ZAKVIND_TOO_FAR, place), "the first that does not fit");
        }
        zakvind_put(first_of(ZAKVIND_MOST_GEOMETRIES - 1), 8, 8 * (ZAKVIND_MOST_GEOMETRIES - 1));
        zakvind_put(first_of(i), 8, far - 1);
        must(converts(1, wide_sheet, m, m).number == 0, "2^32 - 1 fits");
        memcpy(again, converted + AROUND, n);
        must(becomes(2, again, n, m, wide_sheet, m), "and is the same in version 2");
        zakvind_put(first_of(i), 8, was);
    }
    must(becomes(1, wide_sheet, m, n, sheet, n), "all is as it was");
}

/* ---- groups */

static uint8_t groups[2 + ZAKVIND_MOST_GROUPS * 2 + (ZAKVIND_MOST_SLOTS + 1) * ZAKVIND_SLOT_BYTES + 1000];
static uint8_t opened[ZAKVIND_MOST_SLOTS * ZAKVIND_SLOT_BYTES + 8];
static size_t groups_len;

static void begin_groups(uint16_t count)
{
    zakvind_put(groups, 2, count);
    groups_len = 2;
}

static void put_group(uint16_t items)
{
    zakvind_put(groups + groups_len, 2, items);
    groups_len += 2;
}

/* a present slot is an item as it is */
static void put_slot(uint16_t blas)
{
    zakvind_slot r = zakvind_slot_default();
    r.present = 1;
    r.blas = blas;
    r.mask = 255;
    zakvind_pack_slot(groups + groups_len, &r);
    groups_len += ZAKVIND_SLOT_BYTES;
}

static void put_name(uint16_t group)
{
    groups[groups_len] = 2;
    zakvind_put(groups + groups_len + 1, 2, group);
    groups_len += 3;
}

static zakvind_opened opens(size_t room)
{
    memset(opened, 0x5a, sizeof opened);
    const zakvind_opened a = zakvind_open_groups(groups, groups_len, opened, room);
    must(all(opened + a.written, sizeof opened - a.written, 0x5a), "what is past the slots is kept, and all where they are refused");
    must(!a.number || a.written == 0, "a refusal writes nothing");
    return a;
}

static int refused(zakvind_opened a, uint64_t number, uint64_t place, uint64_t group, uint64_t item)
{
    return a.number == number && a.place == place && a.group == group && a.item == item;
}

static void opened_groups(void)
{
    static const uint16_t order[] = {1, 3, 1, 2};
    begin_groups(2);
    put_group(1);
    put_slot(1);
    put_group(4);
    put_name(0);
    put_slot(3);
    put_name(0);
    put_slot(2);
    const size_t four = 4 * ZAKVIND_SLOT_BYTES;
    zakvind_opened a = opens(four);
    must(refused(a, 0, 0, 0, 0) && a.written == four, "groups with exactly their room");
    for (size_t i = 0; i < 4; i++) {
        const zakvind_slot r = zakvind_unpack_slot(opened + i * ZAKVIND_SLOT_BYTES);
        must(r.present == 1 && r.blas == order[i] && r.mask == 255, "slots in written order");
    }
    must(opens(sizeof opened).written == four, "groups with more room");
    must(refused(opens(four - 1), ZAKVIND_OUTPUT_TOO_SHORT, 0, 0, 0), "groups with a byte less of room");
    groups_len--;
    must(refused(opens(0), ZAKVIND_TRUNCATED, groups_len - 3, 0, 0), "groups cut short");
    groups_len += 2;
    groups[groups_len - 1] = 0;
    must(refused(opens(four), ZAKVIND_TRAILING_BYTES, groups_len - 1, 0, 0), "bytes left over");
    begin_groups(ZAKVIND_MOST_GROUPS + 1);
    must(refused(opens(four), ZAKVIND_TOO_MANY, 0, 0, 0), "too many groups");
    begin_groups(0);
    must(refused(opens(four), ZAKVIND_INVALID_GROUP, 0, 0, 0), "no group");
    begin_groups(2);
    put_group(2);
    put_slot(1);
    groups[groups_len++] = 3;
    must(refused(opens(four), ZAKVIND_INVALID_VALUE, groups_len - 1, 0, 0), "another item byte");
    groups_len--;
    put_name(0);
    must(refused(opens(four), ZAKVIND_INVALID_GROUP, 0, 0, 1), "a group that names itself");
    begin_groups(2);
    put_group(1);
    put_slot(1);
    put_group(0);
    must(refused(opens(four), ZAKVIND_INVALID_GROUP, 0, 1, 0), "a group of nothing");
    /* as many slots as there may be, and one more, written out and named */
    for (uint16_t more = 0; more < 2; more++) {
        begin_groups(1);
        put_group((uint16_t)(ZAKVIND_MOST_SLOTS + more));
        for (uint16_t i = 0; i < ZAKVIND_MOST_SLOTS + more; i++)
            put_slot(i);
        a = opens(ZAKVIND_MOST_SLOTS * ZAKVIND_SLOT_BYTES);
        must(more ? refused(a, ZAKVIND_TOO_MANY_SLOTS, 0, 0, ZAKVIND_MOST_SLOTS) : a.written == ZAKVIND_MOST_SLOTS * ZAKVIND_SLOT_BYTES,
             "512 slots and 513");
        must(more || memcmp(opened, groups + 4, ZAKVIND_MOST_SLOTS * ZAKVIND_SLOT_BYTES) == 0, "slots as they are written");
    }
}

/* 64 groups, each of which names the one before so often */
static void nest(uint16_t times)
{
    begin_groups(ZAKVIND_MOST_GROUPS);
    put_group(1);
    put_slot(7);
    for (uint16_t group = 1; group < ZAKVIND_MOST_GROUPS; group++) {
        put_group(times);
        for (uint16_t i = 0; i < times; i++)
            put_name((uint16_t)(group - 1));
    }
}

/* ---- a refused append */

static void refused_append(void)
{
    uint8_t fields[ZAKVIND_INSTANCE_FIELDS_BYTES] = {0}, out[4 * ZAKVIND_INSTANCE_BYTES];
    uint64_t used = 0;
    for (int i = 0; i < 6; i++) {
        fields[5] = i == 2 ? 1 : 0; /* custom data 2^24: refused */
        memset(out + used, i, sizeof out - used);
        const zakvind_appended a =
            zakvind_append_instance(tlases, sizeof tlases, blases, sizeof blases, 0, fields, out, sizeof out, used);
        must(a.number == (i == 2 ? ZAKVIND_TLAS_INVALID_CUSTOM_INDEX : i == 5 ? ZAKVIND_OUTPUT_TOO_SHORT : 0), "an append");
        must(a.used == used + (i == 2 || i == 5 ? 0 : ZAKVIND_INSTANCE_BYTES), "the bytes in use after an append");
        used = a.used;
    }
    must(used == sizeof out, "all instances stand one after the other");
}

/* ---- many instances in one call */

enum { ITEM = ZAKVIND_INSTANCE_FIELDS_BYTES, ONE = ZAKVIND_INSTANCE_BYTES };

static uint8_t items[ZAKVIND_MOST_SLOTS * ITEM + ITEM - 1], many[ZAKVIND_MOST_SLOTS * ONE + 128], singly[sizeof many];
static uint8_t returning[2 * ZAKVIND_TLAS_BYTES], both_sorts[2 * ZAKVIND_BLAS_BYTES];

/* instances of any bits, of Blases below a number */
static void put_items(uint16_t below)
{
    for (size_t i = 0; i < sizeof items; i++)
        items[i] = random_byte();
    for (size_t i = 0; i < ZAKVIND_MOST_SLOTS; i++) {
        zakvind_put(items + i * ITEM, 2, random_byte() % below);
        items[i * ITEM + 5] = 0; /* the custom data's last */
    }
}

/* Two Tlases, of which the second returns vertices, over two Blases, of which the second does. */
static zakvind_appended appends_some(uint16_t tlas, size_t bytes, size_t room, uint64_t used)
{
    memset(many, 0x5a, sizeof many);
    const zakvind_appended a = zakvind_append_instances(returning, sizeof returning, both_sorts, sizeof both_sorts, tlas, items, bytes, many,
                                                        room, used);
    must(a.f0 == 0 && a.f1 == 0 && a.f2 == 0, "there are no figures");
    must(!a.number || (a.used == used && all(many, sizeof many, 0x5a)), "a refusal writes nothing, and what is in use is as before");
    must(a.number || (a.e0 == 0 && a.e1 == 0 && a.used == used + bytes / ITEM * ONE), "64 bytes more for each are in use");
    return a;
}

static int refused_at(zakvind_appended a, uint64_t number, uint64_t position)
{
    return a.number == number && a.e0 == 0 && a.e1 == position;
}

static void many_as_one_by_one(void)
{
    static const size_t counts[] = {0, 1, 2, 40, ZAKVIND_MOST_SLOTS};
    static const size_t before[] = {0, 64, 3};
    put_items(ZAKVIND_MOST_BLASES);
    for (size_t i = 0; i < sizeof counts / sizeof *counts; i++)
        for (size_t j = 0; j < sizeof before / sizeof *before; j++) {
            const size_t n = counts[i], room = before[j] + n * ONE;
            uint64_t used = before[j];
            memset(many, 0x5a, sizeof many);
            memset(singly, 0x5a, sizeof singly);
            for (size_t k = 0; k < n; k++)
                used = zakvind_append_instance(tlases, sizeof tlases, blases, sizeof blases, 31, items + k * ITEM, singly, room, used).used;
            const zakvind_appended a = zakvind_append_instances(tlases, sizeof tlases, blases, sizeof blases, 31, items, n * ITEM, many,
                                                                room, before[j]);
            must(used == room && refused_at(a, 0, 0) && a.used == used, "as many bytes in use as after one call for each");
            must(memcmp(many, singly, sizeof many) == 0, "the bytes of one call for each, and the others kept");
        }
}

static void many_refused(void)
{
    static const size_t positions[] = {0, 1, 17, 39};
    const size_t bytes = 40 * ITEM, most = sizeof many;
    zakvind_tlas tlas = zakvind_tlas_default();
    zakvind_blas blas = zakvind_blas_default();
    zakvind_pack_tlas(returning, &tlas);
    zakvind_pack_blas(both_sorts, &blas);
    tlas.flags = ZAKVIND_FLAGS_ALLOW_RAY_HIT_VERTEX_RETURN;
    blas.flags = ZAKVIND_FLAGS_ALLOW_RAY_HIT_VERTEX_RETURN;
    zakvind_pack_tlas(returning + ZAKVIND_TLAS_BYTES, &tlas);
    zakvind_pack_blas(both_sorts + ZAKVIND_BLAS_BYTES, &blas);

    /* the room, to the byte */
    put_items(2);
    must(refused_at(appends_some(0, bytes, 40 * ONE, 0), 0, 0), "exactly their room");
    must(refused_at(appends_some(0, bytes, 40 * ONE + 63, 63), 0, 0), "exactly their room after others");
    must(refused_at(appends_some(0, bytes, 40 * ONE - 1, 0), ZAKVIND_OUTPUT_TOO_SHORT, 0), "a byte less of room");
    must(refused_at(appends_some(0, bytes, 40 * ONE, 1), ZAKVIND_OUTPUT_TOO_SHORT, 0), "a byte more in use");
    must(refused_at(appends_some(0, bytes, 64, 65), ZAKVIND_OUTPUT_TOO_SHORT, 0), "more in use than there is room");
    /* sums that would be 2^64, and a little more */
    for (uint64_t past = 0; past < 2; past++) {
        must(refused_at(appends_some(0, bytes, most, 0 - (uint64_t)(40 * ONE) + past), ZAKVIND_OUTPUT_TOO_SHORT, 0), "2^64 bytes");
        must(refused_at(appends_some(0, ITEM, most, UINT64_MAX - 63 + past), ZAKVIND_OUTPUT_TOO_SHORT, 0), "2^64 bytes with one");
    }
    must(refused_at(appends_some(0, bytes, most, UINT64_MAX), ZAKVIND_OUTPUT_TOO_SHORT, 0), "as many in use as can be said");

    /* no items */
    must(refused_at(appends_some(0, 0, 0, 0), 0, 0) && all(many, most, 0x5a), "no items and no room");
    must(refused_at(appends_some(0, 0, 64, 64), 0, 0) && all(many, most, 0x5a), "no items, and all is in use");
    must(refused_at(appends_some(0, 0, 64, 65), ZAKVIND_OUTPUT_TOO_SHORT, 0), "no items, and more is in use than there is room");
    must(refused_at(appends_some(0, 0, most, UINT64_MAX), ZAKVIND_OUTPUT_TOO_SHORT, 0), "no items, and the most in use");
    must(refused_at(appends_some(2, 0, 64, 65), ZAKVIND_INVALID_RESOURCE, 0), "no items of a Tlas outside its table");

    /* a part of one, at the end: after each whole one, and before the room */
    for (size_t part = 1; part < ITEM; part++) {
        must(refused_at(appends_some(0, part, most, 0), ZAKVIND_INVALID_VALUE, 0), "a part alone");
        must(refused_at(appends_some(0, bytes + part, most, 0), ZAKVIND_INVALID_VALUE, 40), "a part after 40");
    }
    must(refused_at(appends_some(0, bytes + 1, 0, 1), ZAKVIND_INVALID_VALUE, 40), "a part before the room");
    must(refused_at(appends_some(0, sizeof items, most, 0), ZAKVIND_INVALID_VALUE, ZAKVIND_MOST_SLOTS), "a part after 512");
    must(refused_at(appends_some(2, bytes + 1, 0, 1), ZAKVIND_INVALID_RESOURCE, 0), "the Tlas before all");
    must(refused_at(appends_some(UINT16_MAX, bytes, most, 0), ZAKVIND_INVALID_RESOURCE, 0), "the greatest Tlas id");

    /* an instance, before a part and the room; of one the id comes first, then its custom data, then its vertices */
    for (size_t i = 0; i < sizeof positions / sizeof *positions; i++) {
        const size_t k = positions[i];
        uint8_t *at = items + k * ITEM;
        for (size_t j = 0; j < 40; j++)
            zakvind_put(items + j * ITEM, 2, 1);
        must(refused_at(appends_some(1, bytes, most, 0), 0, 0), "all return vertices");
        zakvind_put(at, 2, 0);
        must(refused_at(appends_some(0, bytes, most, 0), 0, 0), "a Tlas that does not ask for vertices");
        must(refused_at(appends_some(1, bytes, most, 0), ZAKVIND_TLAS_DEPENDENT_MISSING_VERTEX_RETURN, k), "no vertices");
        at[5] = 1;
        must(refused_at(appends_some(0, bytes, most, 0), ZAKVIND_TLAS_INVALID_CUSTOM_INDEX, k), "custom data of 2^24");
        must(refused_at(appends_some(1, bytes, most, 0), ZAKVIND_TLAS_INVALID_CUSTOM_INDEX, k), "custom data before vertices");
        must(refused_at(appends_some(1, bytes + 1, 0, 1), ZAKVIND_TLAS_INVALID_CUSTOM_INDEX, k), "custom data before a part and the room");
        zakvind_put(at, 2, 2);
        must(refused_at(appends_some(1, bytes + 1, 0, 1), ZAKVIND_INVALID_RESOURCE, k), "an id before custom data");
        must(refused_at(appends_some(2, bytes + 1, 0, 1), ZAKVIND_INVALID_RESOURCE, 0), "the Tlas before an id");
        must(refused_at(appends_some(1, k * ITEM, most, 0), 0, 0), "the ones before it are fine");
        must(refused_at(appends_some(1, k * ITEM + ITEM - 1, most, 0), ZAKVIND_INVALID_VALUE, k), "of a part nothing else is judged");
        at[5] = 0;
        if (k < 39) {
            at[5 + ITEM] = 1;
            zakvind_put(at, 2, 0);
            must(refused_at(appends_some(1, bytes, most, 0), ZAKVIND_TLAS_DEPENDENT_MISSING_VERTEX_RETURN, k), "the first of two");
            zakvind_put(at, 2, 1);
            must(refused_at(appends_some(1, bytes, most, 0), ZAKVIND_TLAS_INVALID_CUSTOM_INDEX, k + 1), "the second, as the first is fine");
            at[5 + ITEM] = 0;
        }
    }
}

/* ---- instances read back */

/* more Blases than have an id, and a part of one */
enum { PAST_IDS = 65541 };
static uint8_t addressed[PAST_IDS * ZAKVIND_BLAS_BYTES + ZAKVIND_BLAS_BYTES - 1];
static uint8_t stored[ZAKVIND_MOST_SLOTS * ONE], again_items[ZAKVIND_ROOM_ITEMS(sizeof stored) + AROUND];

static uint64_t address_of(size_t i) { return 0x7f0000000000 + 256 * (uint64_t)i; }
static void put_address(size_t i, uint64_t address) { zakvind_put(addressed + i * ZAKVIND_BLAS_BYTES + 12, 8, address); }

/* a record with such a u32 at byte 52 and such an address, all else any bits */
static void put_record(size_t k, uint32_t word, uint64_t address)
{
    uint8_t *at = stored + k * ONE;
    for (size_t i = 0; i < 52; i++)
        at[i] = random_byte();
    zakvind_put(at + 52, 4, word);
    zakvind_put(at + 56, 8, address);
}

/* So many bytes of records over so many bytes of Blases into so much room: what is past the items is kept, of a refusal all. */
static zakvind_instances_read reads_back(size_t bytes, size_t blas_bytes, size_t room)
{
    memset(again_items, 0x5a, sizeof again_items);
    const zakvind_instances_read a = zakvind_read_instances(stored, bytes, addressed, blas_bytes, again_items, room);
    must(a.e1 == 0 && a.written == (a.number ? 0 : ZAKVIND_ROOM_ITEMS(bytes)), "items for all records, or none");
    must(a.e0 == 0 || a.number == ZAKVIND_WORD_NOT_ZERO || a.number == ZAKVIND_NOT_ONE_BLAS, "a record of 49 and 50 only");
    must(a.written <= room && all(again_items + a.written, sizeof again_items - a.written, 0x5a), "what is past the items is kept");
    return a;
}

static int not_read(zakvind_instances_read a, uint64_t number, uint64_t record) { return a.number == number && a.e0 == record; }

/* One record with this address: its Blas, or 50. */
static int finds(size_t blas_bytes, uint64_t address, size_t blas)
{
    put_record(0, 0, address);
    return reads_back(ONE, blas_bytes, ITEM).number == 0 && zakvind_get_u16(again_items) == blas;
}
static int finds_none(size_t blas_bytes, uint64_t address)
{
    put_record(0, 0, address);
    return not_read(reads_back(ONE, blas_bytes, ITEM), ZAKVIND_NOT_ONE_BLAS, 0);
}

static zakvind_appended appends_items(uint16_t tlas, size_t blas_bytes, const uint8_t *from, size_t bytes)
{
    return zakvind_append_instances(returning, sizeof returning, addressed, blas_bytes, tlas, from, bytes, many, sizeof many, 0);
}

static void there_and_back(void)
{
    static const size_t counts[] = {0, 1, 2, 40, ZAKVIND_MOST_SLOTS}, tables[] = {1, 2, 127, 128, 129, 256};
    size_t without_vertices = 0;
    for (size_t i = 0; i < sizeof addressed; i++)
        addressed[i] = random_byte(); /* nothing of a Blas but its address is judged */
    for (size_t i = 0; i < PAST_IDS; i++)
        put_address(i, address_of(i));
    for (size_t i = 0; i < sizeof tables / sizeof *tables; i++)
        for (size_t j = 0; j < sizeof counts / sizeof *counts; j++) {
            const size_t n = tables[i] * ZAKVIND_BLAS_BYTES, bytes = counts[j] * ONE, room = counts[j] * ITEM;
            must(room == ZAKVIND_ROOM_ITEMS(bytes), "the room that is said");
            /* any records to items, and these to the same records */
            for (size_t k = 0; k < counts[j]; k++)
                put_record(k, 0, address_of(random_byte() % tables[i]));
            must(not_read(reads_back(bytes, n, room), 0, 0), "records with exactly their room");
            for (size_t k = 0; k < counts[j]; k++) {
                const uint8_t *item = again_items + k * ITEM, *from = stored + k * ONE;
                must(address_of(zakvind_get_u16(item)) == zakvind_get_u64(from + 56), "the Blas of its address");
                must(zakvind_get_u32(item + 2) == (zakvind_get_u32(from + 48) & 0xffffff), "24 bits of custom data");
                must(item[6] == from[51], "8 bits of mask");
                must(memcmp(item + 7, from, 48) == 0, "numbers by their bits");
            }
            must(appends_items(0, n, again_items, room).number == 0 && memcmp(many, stored, bytes) == 0, "the same records again");
            const uint64_t number = appends_items(1, n, again_items, room).number;
            const int missing = number == ZAKVIND_TLAS_DEPENDENT_MISSING_VERTEX_RETURN;
            must(missing || (number == 0 && memcmp(many, stored, bytes) == 0), "or 35");
            without_vertices += (size_t)missing;
            /* any items to records, and these to the same items */
            put_items((uint16_t)tables[i]);
            must(appends_items(0, n, items, room).number == 0, "items appended");
            memcpy(stored, many, bytes);
            must(not_read(reads_back(bytes, n, room + AROUND), 0, 0), "what was appended, with more room");
            must(memcmp(again_items, items, room) == 0, "the same items again");
            for (size_t less = 1; less <= room; less += less < ITEM ? 1 : 997)
                must(not_read(reads_back(bytes, n, room - less), ZAKVIND_OUTPUT_TOO_SHORT, 0), "less room");
        }
    must(without_vertices > 0, "35 was drawn too");
}

/* zeros, subnormals, normals, infinities, signalling and quiet NaNs, of both signs and in each place */
static void numbers_by_their_bits(void)
{
    static const uint32_t bits[] = {0,          1,          0x007fffff, 0x00800000, 0x3f800000, 0x7f7fffff, 0x7f800000, 0x7f800001,
                                    0x7f923456, 0x7fa00000, 0x7fbfffff, 0x7fc00000, 0x7fc00001, 0x7fe00000, 0x7fffffff};
    for (size_t i = 0; i < 2 * (sizeof bits / sizeof *bits); i++)
        for (size_t place = 0; place < 12; place++) {
            const uint32_t number = bits[i / 2] | (uint32_t)(i % 2) << 31;
            uint8_t slot[ZAKVIND_SLOT_BYTES] = {1}, packed[ZAKVIND_SLOT_BYTES];
            put_record(0, 0, address_of(1));
            zakvind_put(stored + 4 * place, 4, number);
            must(not_read(reads_back(ONE, 2 * ZAKVIND_BLAS_BYTES, ITEM), 0, 0), "a number of any bits");
            must(zakvind_get_u32(again_items + 7 + 4 * place) == number, "each by its bits");
            /* an item behind a byte 1 is a slot */
            memcpy(slot + 1, again_items, ITEM);
            const zakvind_slot r = zakvind_unpack_slot(slot);
            zakvind_pack_slot(packed, &r);
            must(memcmp(packed, slot, sizeof slot) == 0, "and so as a float");
        }
}

static void addresses_found(void)
{
    static const size_t tables[] = {127, 128, 129};
    const uint64_t ends[] = {0, UINT64_MAX}, far = 0xa5a5a5a5a5a5a5a5;
    for (size_t i = 0; i < sizeof tables / sizeof *tables; i++) {
        const size_t n = tables[i], bytes = n * ZAKVIND_BLAS_BYTES;
        for (size_t k = 0; k < n; k++)
            must(finds(bytes, address_of(k), k), "each of a table");
        must(finds_none(bytes, address_of(n)), "one that is past it");
        for (size_t k = 0; k < 2; k++) {
            const size_t other = n - 1 - 63 * k;
            must(finds_none(bytes, ends[k]), "0 and 2^64 - 1 of none");
            put_address(3, ends[k]);
            must(finds(bytes, ends[k], 3) && finds_none(bytes, address_of(3)), "0 and 2^64 - 1 of one");
            must(finds_none(bytes, ends[1 - k]), "and the other of none");
            put_address(other, ends[k]);
            must(finds_none(bytes, ends[k]), "0 and 2^64 - 1 of two");
            put_address(3, address_of(3));
            must(finds(bytes, ends[k], other) && finds(bytes, address_of(3), 3), "and of one again");
            put_address(other, address_of(other));
        }
        /* every bit of an address counts */
        put_address(3, far);
        for (int bit = 0; bit < 64; bit++) {
            const uint64_t near = far ^ (uint64_t)1 << bit;
            must(finds_none(bytes, near), "one that differs in a bit");
            put_address(n - 2, near);
            must(finds(bytes, near, n - 2) && finds(bytes, far, 3), "two that differ in a bit");
            put_address(n - 2, address_of(n - 2));
        }
        put_address(3, address_of(3));
        /* each one's once more: of the one beside it, of the last, of both */
        for (size_t k = 0; k + 1 < n; k++)
            for (int of = 1; of < 4; of++) {
                const size_t others[] = {k + 1, n - 1};
                for (size_t j = 0; j < 2; j++)
                    if (of >> j & 1)
                        put_address(others[j], address_of(k));
                must(finds_none(bytes, address_of(k)), "an address of two or three");
                must(finds_none(bytes, address_of(others[of > 1])), "and one of none");
                for (size_t j = 0; j < 2; j++)
                    put_address(others[j], address_of(others[j]));
            }
        /* a part of a Blas is none */
        for (size_t part = 1; part < ZAKVIND_BLAS_BYTES; part++) {
            must(finds_none(bytes - part, address_of(n - 1)), "a part alone");
            put_address(n, address_of(5));
            must(finds(bytes + ZAKVIND_BLAS_BYTES - part, address_of(5), 5), "a part beside a whole one");
            put_address(n, address_of(n));
        }
    }
    const size_t bytes = PAST_IDS * ZAKVIND_BLAS_BYTES;
    must(finds(bytes, address_of(0), 0) && finds(bytes, address_of(65535), 65535), "the first and the last id");
    must(finds_none(bytes, address_of(65536)) && finds_none(bytes, address_of(PAST_IDS - 1)), "past the last id");
    put_address(65540, address_of(5));
    must(finds_none(bytes, address_of(5)) && finds(bytes, address_of(6), 6), "of two, one of which has no id");
    must(finds(65540 * ZAKVIND_BLAS_BYTES, address_of(5), 5), "without the second");
    put_address(65540, address_of(65540));
}

static void not_read_back(void)
{
    static const size_t positions[] = {0, 1, 17, 39};
    const size_t n = 128 * ZAKVIND_BLAS_BYTES, bytes = 40 * ONE, room = 40 * ITEM;
    const uint64_t none = address_of(128);
    /* the length before all */
    put_record(0, 1, none);
    put_record(1, 0, none);
    for (size_t length = 1; length < 2 * ONE; length++) {
        const uint64_t number = length % ONE ? ZAKVIND_UNEVEN_LENGTH : ZAKVIND_WORD_NOT_ZERO;
        must(not_read(reads_back(length, n, 0), number, 0), "a length not in 64s");
        must(not_read(reads_back(length, n, room), number, 0), "with room too");
    }
    /* each record in turn, of one the u32 before the address, and the room last */
    for (size_t i = 0; i < sizeof positions / sizeof *positions; i++) {
        const size_t k = positions[i];
        for (size_t j = 0; j < 40; j++)
            put_record(j, 0, address_of(j));
        must(not_read(reads_back(bytes, n, room), 0, 0), "all are fine");
        for (int bit = 0; bit < 32; bit++) {
            put_record(k, (uint32_t)1 << bit, bit % 2 ? none : address_of(k));
            must(not_read(reads_back(bytes, n, bit % 3 ? 0 : room), ZAKVIND_WORD_NOT_ZERO, k), "each bit of the u32");
        }
        put_record(k, 0, none);
        must(not_read(reads_back(bytes, n, room), ZAKVIND_NOT_ONE_BLAS, k), "an address of none");
        must(not_read(reads_back(bytes, n, 0), ZAKVIND_NOT_ONE_BLAS, k), "before the room");
        must(not_read(reads_back(bytes - 1, n, 0), ZAKVIND_UNEVEN_LENGTH, 0), "after the length");
        must(not_read(reads_back(k * ONE, n, k * ITEM), 0, 0), "the ones before it are fine");
        if (k < 39) {
            put_record(k + 1, 1, none);
            must(not_read(reads_back(bytes, n, 0), ZAKVIND_NOT_ONE_BLAS, k), "the first of two");
            put_record(k, 0, address_of(k));
            must(not_read(reads_back(bytes, n, 0), ZAKVIND_WORD_NOT_ZERO, k + 1), "the second, as the first is fine");
        }
    }
    /* as many as there are slots, and items of the largest table, for the stack */
    for (size_t k = 0; k < ZAKVIND_MOST_SLOTS; k++)
        put_record(k, 0, address_of(k % ZAKVIND_MOST_BLASES));
    put_items(ZAKVIND_MOST_BLASES);
}

/* ---- words */

static uint8_t text[ZAKVIND_LONGEST_EXPLAINED];
static zakvind_reported told;

static void words(void)
{
    const char expected[] = "refused 23: region overruns buffer, entry 0, geometry 0, offset 0, region 960, size 959\n";
    told = zakvind_words(ZAKVIND_CALL_BUILD, 23, 0, 0, 0, 960, 959, text, sizeof text);
    must(told.number == 0 && told.written == sizeof expected - 1 && memcmp(text, expected, sizeof expected - 1) == 0, "words");
    told = zakvind_words(ZAKVIND_CALL_BUILD, 23, 0, 0, 0, 960, 959, text, sizeof expected - 2);
    must(told.number == ZAKVIND_OUTPUT_TOO_SHORT, "words without room");
    told = zakvind_words(ZAKVIND_CALL_SHEET, 0, 0, 0, 0, 0, 0, text, sizeof text);
    must(told.written == 19 && memcmp(text, "nothing is refused\n", 19) == 0, "the words of nothing");
    const char writes[] = "refused 39: lent output too short\n";
    told = zakvind_words(ZAKVIND_CALL_WRITE, ZAKVIND_OUTPUT_TOO_SHORT, 0, 0, 0, 0, 0, text, sizeof text);
    must(told.written == sizeof writes - 1 && memcmp(text, writes, sizeof writes - 1) == 0, "the words of a sheet without room");
    const char itself[] = "refused 45: count 0, or a group that is not an earlier one, group 3, item 4\n";
    told = zakvind_words(ZAKVIND_CALL_GROUPS, ZAKVIND_INVALID_GROUP, 3, 4, 0, 0, 0, text, sizeof text);
    must(told.written == sizeof itself - 1 && memcmp(text, itself, sizeof itself - 1) == 0, "the words of a group");
    static const struct {
        uint64_t number, position;
        const char *line;
    } of_many[] = {
        {ZAKVIND_INVALID_VALUE, 40, "refused 5: value outside its field, instance 40\n"},
        {ZAKVIND_INVALID_VALUE, 0, "refused 5: value outside its field, instance 0\n"},
        {ZAKVIND_INVALID_RESOURCE, 7, "refused 6: id outside its table, instance 7\n"},
        {ZAKVIND_INVALID_RESOURCE, 0, "refused 6: id outside its table, Tlas or instance 0\n"},
        {ZAKVIND_TLAS_INVALID_CUSTOM_INDEX, 0, "refused 34: custom data from 2^24 on, instance 0\n"},
        {ZAKVIND_TLAS_DEPENDENT_MISSING_VERTEX_RETURN, 511, "refused 35: Tlas returns vertices, Blas does not, instance 511\n"},
        {ZAKVIND_OUTPUT_TOO_SHORT, 0, "refused 39: lent output too short\n"},
    };
    for (size_t i = 0; i < sizeof of_many / sizeof *of_many; i++) {
        const size_t n = strlen(of_many[i].line);
        told = zakvind_words(ZAKVIND_CALL_APPEND_MANY, of_many[i].number, 0, of_many[i].position, 0, 0, 0, text, sizeof text);
        must(told.written == n && memcmp(text, of_many[i].line, n) == 0, "the words of many instances");
    }
    static const struct {
        uint64_t call, number;
        const char *line;
    } of_versions[] = {
        {ZAKVIND_CALL_SHEET, ZAKVIND_UNKNOWN_VERSION, "refused 1: version neither 1 nor 2, byte 70\n"},
        {ZAKVIND_CALL_WRITE, ZAKVIND_UNKNOWN_VERSION, "refused 1: version neither 1 nor 2, byte 70\n"},
        {ZAKVIND_CALL_TO_VERSION_2, ZAKVIND_UNKNOWN_VERSION, "refused 1: version not 1, byte 70\n"},
        {ZAKVIND_CALL_TO_VERSION_1, ZAKVIND_UNKNOWN_VERSION, "refused 1: version not 2, byte 70\n"},
        {ZAKVIND_CALL_TO_VERSION_2, ZAKVIND_TRUNCATED, "refused 2: sheet ends early, byte 70\n"},
        {ZAKVIND_CALL_TO_VERSION_1, ZAKVIND_TRAILING_BYTES, "refused 3: bytes after the sheet, byte 70\n"},
        {ZAKVIND_CALL_TO_VERSION_2, ZAKVIND_TOO_MANY, "refused 4: count above its limit, byte 70\n"},
        {ZAKVIND_CALL_TO_VERSION_1, ZAKVIND_INVALID_VALUE, "refused 5: value outside its field, byte 70\n"},
        {ZAKVIND_CALL_TO_VERSION_2, ZAKVIND_OUTPUT_TOO_SHORT, "refused 39: lent output too short\n"},
        {ZAKVIND_CALL_TO_VERSION_1, ZAKVIND_OUTPUT_TOO_SHORT, "refused 39: lent output too short\n"},
        {ZAKVIND_CALL_TO_VERSION_1, ZAKVIND_TOO_FAR, "refused 47: first vertex or primitive offset above 2^32 - 1, byte 70\n"},
        {ZAKVIND_CALL_TO_VERSION_2, ZAKVIND_TOO_FAR, "refused 47: no such cause\n"},
        {ZAKVIND_CALL_SHEET, ZAKVIND_TOO_FAR, "refused 47: no such cause\n"},
    };
    for (size_t i = 0; i < sizeof of_versions / sizeof *of_versions; i++) {
        const size_t n = strlen(of_versions[i].line);
        told = zakvind_words(of_versions[i].call, of_versions[i].number, 70, 0, 0, 0, 0, text, sizeof text);
        must(told.written == n && memcmp(text, of_versions[i].line, n) == 0, "the words of versions");
    }
    static const struct {
        uint64_t number, record;
        const char *line;
    } of_records[] = {
        {ZAKVIND_ACCEPTED, 7, "nothing is refused\n"},
        {ZAKVIND_UNEVEN_LENGTH, 7, "refused 48: length not in 64s\n"},
        {ZAKVIND_WORD_NOT_ZERO, 7, "refused 49: u32 at byte 52 not 0, record 7\n"},
        {ZAKVIND_NOT_ONE_BLAS, 0, "refused 50: address of no Blas or of several, record 0\n"},
        {ZAKVIND_NOT_ONE_BLAS, UINT64_MAX, "refused 50: address of no Blas or of several, record 18446744073709551615\n"},
        {ZAKVIND_OUTPUT_TOO_SHORT, 7, "refused 39: lent output too short\n"},
        {ZAKVIND_TOO_FAR, 7, "refused 47: no such cause\n"},
        {ZAKVIND_TLAS_DEPENDENT_MISSING_VERTEX_RETURN, 7, "refused 35: no such cause\n"},
        {51, 7, "refused 51: no such cause\n"},
    };
    for (size_t i = 0; i < sizeof of_records / sizeof *of_records; i++) {
        const size_t n = strlen(of_records[i].line);
        told = zakvind_words(ZAKVIND_CALL_READ_INSTANCES, of_records[i].number, of_records[i].record, 0, 0, 0, 0, text,
                             sizeof text);
        must(told.written == n && memcmp(text, of_records[i].line, n) == 0, "the words of records");
    }
    static const struct {
        uint64_t e0, f0;
        const char *line;
    } of_scratch[] = {
        {63, 1, "refused 37: scratch 2^64 - 1, entry 63\n"},
        {0, 1, "refused 37: scratch 2^64 - 1, entry 0\n"},
        {31, 2, "refused 37: scratch 2^64 - 1, package 31\n"},
        {7, 0, "refused 37: scratch 2^64 - 1, entry or package 7\n"},
        {7, 3, "refused 37: scratch 2^64 - 1, entry or package 7\n"},
        {UINT64_MAX, UINT64_MAX, "refused 37: scratch 2^64 - 1, entry or package 18446744073709551615\n"},
    };
    for (size_t i = 0; i < sizeof of_scratch / sizeof *of_scratch; i++) {
        const size_t n = strlen(of_scratch[i].line);
        told = zakvind_words(ZAKVIND_CALL_BUILD, ZAKVIND_OUT_OF_MEMORY, of_scratch[i].e0, 0, of_scratch[i].f0, 0, 0, text, sizeof text);
        must(told.written == n && memcmp(text, of_scratch[i].line, n) == 0, "the words of an entry or a package");
    }
    for (uint64_t call = 0; call < 12; call++)
        for (uint64_t number = 0; number < 53; number++)
            for (uint64_t e = 0; e < 6; e++) {
                const uint64_t top = UINT64_MAX;
                must(zakvind_words(call, number, top, e, top, top, top, text, ZAKVIND_LONGEST_WORDS).number == 0, "the longest words");
                must(zakvind_words(call, number, top, top, e, top, top, text, ZAKVIND_LONGEST_WORDS).number == 0, "the longest words");
            }
}

/* ---- the stack: each call on one that was painted */

enum { STACK = 1 << 20 };

static void reads(void)
{
    must(zakvind_read_sheet(sheet, sizeof sheet).number == 0, "the longest sheet of version 1");
    must(zakvind_read_sheet(wide_sheet, sizeof wide_sheet).number == 0, "the longest sheet");
}
static void writes(void)
{
    must(zakvind_write_sheet(sheet, sizeof sheet, anew, sizeof anew).number == 0, "the longest sheet of version 1 written");
    must(zakvind_write_sheet(wide_sheet, sizeof wide_sheet, anew, sizeof anew).number == 0, "the longest sheet written");
}
static void widens(void) { must(zakvind_to_version_2(sheet, sizeof sheet, anew, sizeof anew).number == 0, "the longest sheet to version 2"); }
static void narrows(void)
{
    must(zakvind_to_version_1(wide_sheet, sizeof wide_sheet, anew, sizeof anew).number == 0, "the longest sheet to version 1");
}
static void builds_wide(void)
{
    width = widths + 1;
    build();
    width = widths;
    must(built.number == 0, "the largest wide build");
}
static void opens_deep(void) { must(opens(sizeof opened).written == ZAKVIND_SLOT_BYTES, "64 groups, each inside the next"); }
static void opens_many(void)
{
    must(refused(opens(sizeof opened), ZAKVIND_TOO_MANY_SLOTS, 0, 0, 0), "64 groups that each name the one before twice");
}
static void reports(void)
{
    told = zakvind_report(sheet, sizeof sheet, text, sizeof text);
    told = zakvind_report(wide_sheet, sizeof wide_sheet, text, sizeof text);
}

static void submits(void)
{
    static uint16_t counts[ZAKVIND_MOST_TLASES], dependencies[ZAKVIND_MOST_TLASES * ZAKVIND_TLAS_ROOM];
    zakvind_command_indices indices = {0, 5};
    const uint32_t cells[] = {ZAKVIND_BUILD, 0, ZAKVIND_MOST_ENTRIES, ZAKVIND_MOST_PACKAGES, ZAKVIND_USE_TLAS, 0, 0, 0,
                              ZAKVIND_MARK_BLAS, 0, 0, 0, ZAKVIND_MARK_TLAS, 0, 0, 0,
                              ZAKVIND_MARK_BUILT, 0, ZAKVIND_MOST_ENTRIES, ZAKVIND_MOST_PACKAGES};
    const zakvind_submitted s = zakvind_submit(&indices, blases, sizeof blases, tlases, sizeof tlases, counts, ZAKVIND_MOST_TLASES,
                                               dependencies, sizeof dependencies / sizeof *dependencies, cells, 20, lists, room.lists);
    must(s.number == 0, "the largest Build");
}

static void appends(void)
{
    must(zakvind_append_instance(tlases, sizeof tlases, blases, sizeof blases, 0, slots + 1, instances, sizeof instances, 0).number == 0,
         "an instance");
}

static void appends_many(void)
{
    const zakvind_appended a = zakvind_append_instances(tlases, sizeof tlases, blases, sizeof blases, 0, items, ZAKVIND_MOST_SLOTS * ITEM,
                                                        many, sizeof many, 0);
    must(a.number == 0 && a.used == ZAKVIND_MOST_SLOTS * ONE, "512 instances");
}

/* over the most Blases that a sheet has, and over one more */
static void reads_many(void)
{
    for (size_t n = ZAKVIND_MOST_BLASES; n <= ZAKVIND_MOST_BLASES + 1; n++)
        must(not_read(reads_back(sizeof stored, n * ZAKVIND_BLAS_BYTES, sizeof again_items), 0, 0), "512 records");
}

static void explains(void)
{
    told = zakvind_explain(sheet, sizeof sheet, text, sizeof text);
    told = zakvind_explain(wide_sheet, sizeof wide_sheet, text, sizeof text);
}
static void speaks(void) { told = zakvind_words(ZAKVIND_CALL_BUILD, 26, 1, 2, 3, 4, 5, text, sizeof text); }
static void rests(void) {}

static void *run(void *call)
{
    (*(void (**)(void))call)();
    return NULL;
}

static size_t stack_of(void (*call)(void))
{
    uint8_t *stack = (uint8_t *)mmap(NULL, STACK, PROT_READ | PROT_WRITE, MAP_PRIVATE | MAP_ANONYMOUS, -1, 0);
    must(stack != (uint8_t *)MAP_FAILED, "there is memory for a stack");
    memset(stack, 0xa5, STACK);
    pthread_attr_t attributes;
    pthread_t thread;
    must(pthread_attr_init(&attributes) == 0 && pthread_attr_setstack(&attributes, stack, STACK) == 0, "a stack can be given");
    must(pthread_create(&thread, &attributes, run, &call) == 0 && pthread_join(thread, NULL) == 0, "a thread can be run");
    size_t untouched = 0;
    while (untouched < STACK && stack[untouched] == 0xa5)
        untouched++;
    must(munmap(stack, STACK) == 0, "the stack can be given back");
    return STACK - untouched;
}

static void stacks(void)
{
    static const struct {
        const char *name;
        void (*call)(void);
        size_t most;
    } calls[] = {
        {"read_sheet", reads, ZAKVIND_STACK_BYTES},
        {"write_sheet", writes, ZAKVIND_STACK_BYTES},
        {"to_version_2", widens, ZAKVIND_STACK_BYTES},
        {"to_version_1", narrows, ZAKVIND_STACK_BYTES},
        {"open_groups", opens_deep, ZAKVIND_GROUPS_STACK_BYTES},
        {"build", build, ZAKVIND_STACK_BYTES},
        {"build_wide", builds_wide, ZAKVIND_STACK_BYTES},
        {"submit", submits, ZAKVIND_STACK_BYTES},
        {"append_instance", appends, ZAKVIND_STACK_BYTES},
        {"append_instances", appends_many, ZAKVIND_STACK_BYTES},
        {"read_instances", reads_many, ZAKVIND_STACK_BYTES},
        {"report", reports, ZAKVIND_TEXT_STACK_BYTES},
        {"explain", explains, ZAKVIND_TEXT_STACK_BYTES},
        {"words", speaks, ZAKVIND_STACK_BYTES},
    };
    const size_t thread = stack_of(rests);
    nest(1);
    printf("C: stack in bytes:");
    for (size_t i = 0; i < sizeof calls / sizeof *calls; i++) {
        const size_t used = stack_of(calls[i].call) - thread;
        printf(" %s %zu", calls[i].name, used);
#ifndef OTHER_LIBRARY
        must(used <= calls[i].most, "the stack that is said");
#endif
    }
    putchar('\n');
    nest(2);
    opens_many();
}

/* ---- divisions: a build is run instruction by instruction, and those that divide are counted */

#if defined(__x86_64__) && defined(__linux__) && !defined(OTHER_LIBRARY)
#include <signal.h>
#include <ucontext.h>

static volatile size_t steps, divided;

/* Before each instruction: `div` and `idiv` are f6 or f7, 6 or 7 in the byte behind it, after any prefixes. */
static void before_instruction(int number, siginfo_t *info, void *context)
{
    (void)number, (void)info;
    const uint8_t *at = (const uint8_t *)((const ucontext_t *)context)->uc_mcontext.gregs[REG_RIP];
    while (*at == 0x2e || *at == 0x3e || (*at >= 0x64 && *at <= 0x67) || *at == 0xf0 || *at == 0xf2 || *at == 0xf3)
        at++;
    if (*at >= 0x40 && *at <= 0x4f)
        at++;
    steps++;
    divided += (*at == 0xf6 || *at == 0xf7) && (at[1] >> 3 & 7) >= 6;
}

/* The trap flag, below what the compiler may keep under the stack pointer. */
#define TRAP(change) __asm__ volatile("lea -128(%%rsp), %%rsp; pushfq; " change ", (%%rsp); popfq; lea 128(%%rsp), %%rsp" ::: "memory", "cc")

static size_t divisions_of(void (*call)(void))
{
    steps = divided = 0;
    TRAP("orq $0x100");
    call();
    TRAP("andq $~0x100");
    return divided;
}

/* Entries without geometries and packages without slots: little but their scratch. */
enum { ROUNDED = 4 };
static uint8_t bare_entries[ROUNDED * ZAKVIND_ENTRY_BYTES], bare_packages[ROUNDED * ZAKVIND_PACKAGE_BYTES];

static void build_bare(void)
{
    built = width->build(alignment, buffers, 0, blases, ROUNDED * ZAKVIND_BLAS_BYTES, declared, 0, tlases, ROUNDED * ZAKVIND_TLAS_BYTES,
                         bare_entries, sizeof bare_entries, geometries, 0, bare_packages, sizeof bare_packages, slots, 0,
                         blas_offsets, room.blas_offsets, tlas_offsets, room.tlas_offsets, staging_ranges, room.staging_ranges,
                         instances, 0, init_ranges, 0, compactable, room.compactable, lists, room.lists);
}

static volatile uint64_t dividend = 1000, divisor = 7, quotient;
static void divides_thrice(void) { quotient = dividend / divisor + dividend % (divisor + 1) + (uint32_t)dividend / (uint32_t)divisor; }

static void count_divisions(void)
{
    static const uint32_t others[] = {3, 6, 7, 255, 257, 0x80000001, 0xffffffff};
    for (size_t i = 0; i < ROUNDED; i++) {
        const zakvind_entry e = {(uint16_t)i, i % 4 == 3, 0};
        const zakvind_package p = {(uint16_t)i, 0};
        zakvind_pack_entry(bare_entries + i * ZAKVIND_ENTRY_BYTES, &e);
        zakvind_pack_package(bare_packages + i * ZAKVIND_PACKAGE_BYTES, &p);
    }
    alignment = 1;
    const size_t least = divisions_of(build_bare), instructions = steps;
    for (int k = 0; k < 32; k++) {
        alignment = (uint32_t)1 << k;
        must(divisions_of(build_bare) == least && built.recorded == 1, "by a power of two no size is divided");
    }
    for (size_t i = 0; i < sizeof others / sizeof *others; i++) {
        alignment = others[i];
        must(divisions_of(build_bare) == least + 2 * 2 * ROUNDED && built.recorded == 1, "by another alignment each size is");
    }
    printf("C: %zu of a %s's %zu instructions divide, and %zu where the alignment is no power of two\n", least,
           width == widths ? "build" : "wide build", instructions, (size_t)divided);
    alignment = 256;
}

/* A size is rounded once for the total and once for its offset. By a power of two no division is made for it; what still divides counts
 * records, whatever the alignment. */
static void divisions(void)
{
    const struct sigaction act = {.sa_sigaction = before_instruction, .sa_flags = SA_SIGINFO};
    struct sigaction was;
    must(sigaction(SIGTRAP, &act, &was) == 0, "a trap can be taken");
    const size_t three = divisions_of(divides_thrice);
    if (steps == 0) {
        puts("C: this machine does not stop at each instruction: divisions were not counted");
    } else {
        must(three == 3, "divisions are counted");
        for (width = widths; width < widths + 2; width++)
            count_divisions();
        width = widths;
    }
    must(sigaction(SIGTRAP, &was, NULL) == 0, "the trap can be given back");
}
#else
static void divisions(void) {}
#endif

int main(void)
{
    records();
    fill();
    make_sheets();
    for (width = widths; width < widths + 2; width++) {
        room_fits();
        scratch();
    }
    as_narrow();
    far_builds();
    nothing();
    marks_built();
    written(sheet, sizeof sheet);
    written(wide_sheet, sizeof wide_sheet);
    both_ways();
    opened_groups();
    refused_append();
    many_as_one_by_one();
    many_refused();
    there_and_back();
    numbers_by_their_bits();
    addresses_found();
    not_read_back();
    words();
    stacks();
    divisions();
    puts("C: records, room, scratch, wide builds, empty tables, marks, written and converted sheets, opened groups, appends, instances "
         "read back and stack are as is said");
    return 0;
}
