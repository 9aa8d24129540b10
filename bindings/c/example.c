/* A triangle Blas and a Tlas over it, from C (or C++): built, submitted, used, made stale by a mark, and refused. Every answer
 * is held against what it must be. */
#include <zakvind.h>

#include <stdio.h>
#include <stdlib.h>
#include <string.h>

static void must(int holds, const char *what)
{
    if (!holds) {
        printf("C: not as it must be: %s\n", what);
        exit(1);
    }
}

int main(void)
{
    uint8_t buffers[ZAKVIND_BUFFER_BYTES], blases[ZAKVIND_BLAS_BYTES], declared[ZAKVIND_DECLARED_BYTES];
    uint8_t tlases[ZAKVIND_TLAS_BYTES], entries[ZAKVIND_ENTRY_BYTES], geometries[ZAKVIND_GEOMETRY_BYTES];
    uint8_t packages[ZAKVIND_PACKAGE_BYTES], slots[ZAKVIND_SLOT_BYTES];

    zakvind_buffer buffer = zakvind_buffer_default();
    buffer.size = 36;
    buffer.marks = ZAKVIND_MARKS_BLAS_INPUT;
    zakvind_pack_buffer(buffers, &buffer);

    zakvind_blas blas = zakvind_blas_default();
    blas.build_scratch_size = 300;
    blas.handle = 0xb1a5;
    zakvind_pack_blas(blases, &blas);

    zakvind_declared size = zakvind_declared_default();
    size.count = 3;
    size.vertex_format = 1;
    size.min_vertex_stride = 12;
    size.stride_alignment = 4;
    zakvind_pack_declared(declared, &size);

    zakvind_tlas tlas = zakvind_tlas_default();
    tlas.build_scratch_size = 100;
    tlas.max_instance_count = 1;
    zakvind_pack_tlas(tlases, &tlas);

    zakvind_entry entry = zakvind_entry_default();
    entry.geometry_count = 1;
    zakvind_pack_entry(entries, &entry);

    zakvind_geometry geometry = zakvind_geometry_default();
    geometry.count = 3;
    geometry.stride = 12;
    geometry.vertex_format = 1;
    zakvind_pack_geometry(geometries, &geometry);

    zakvind_package package = zakvind_package_default();
    package.slot_count = 1;
    zakvind_pack_package(packages, &package);

    zakvind_slot slot = zakvind_slot_default();
    slot.present = 1;
    slot.custom_data = 7;
    slot.mask = 255;
    slot.transform[0] = slot.transform[5] = slot.transform[10] = 1;
    zakvind_pack_slot(slots, &slot);

    const zakvind_room room = zakvind_room_for(blases, sizeof blases, entries, sizeof entries, geometries, sizeof geometries,
                                               packages, sizeof packages, slots, sizeof slots);
    uint64_t blas_offsets[1], tlas_offsets[1], staging_ranges[2], init_ranges[3];
    uint8_t instances[ZAKVIND_INSTANCE_BYTES];
    uint16_t lists[4];
    must(room.blas_offsets == 1 && room.tlas_offsets == 1 && room.staging_ranges == 2 && room.instances == 64, "the room");
    must(room.init_ranges == 3 && room.compactable == 0 && room.lists == 4, "the room");
    zakvind_built b = zakvind_build(256, buffers, sizeof buffers, blases, sizeof blases, declared, sizeof declared, tlases,
                                    sizeof tlases, entries, sizeof entries, geometries, sizeof geometries, packages,
                                    sizeof packages, slots, sizeof slots, blas_offsets, 1, tlas_offsets, 1, staging_ranges, 2,
                                    instances, sizeof instances, init_ranges, 3, ZAKVIND_NONE(uint16_t), 0, lists, 4);
    must(b.number == ZAKVIND_ACCEPTED && b.recorded == 1 && b.scratch_size == 512, "the build");
    must(b.blas_offsets == 1 && b.tlas_offsets == 1 && b.staging_ranges == 2 && b.instances == 64, "what it wrote");
    must(b.init_ranges == 3 && b.compactable == 0 && b.lists == 4, "what it wrote");
    must(blas_offsets[0] == 0 && tlas_offsets[0] == 0 && staging_ranges[0] == 0 && staging_ranges[1] == 64, "offsets");
    must(init_ranges[0] == 0 && init_ranges[1] == 0 && init_ranges[2] == 36, "the initialisation range");
    must(instances[48] == 7 && instances[51] == 255 && instances[56] == 0xa5 && instances[57] == 0xb1, "the instance");

    /* the same instance, appended */
    uint8_t appended[ZAKVIND_INSTANCE_BYTES];
    zakvind_appended a = zakvind_append_instance(tlases, sizeof tlases, blases, sizeof blases, 0, slots + 1, appended, sizeof appended, 0);
    must(a.number == 0 && a.used == 64 && memcmp(appended, instances, 64) == 0, "appending");
    a = zakvind_append_instance(tlases, sizeof tlases, blases, sizeof blases, 0, slots + 1, appended, sizeof appended, 64);
    must(a.number == ZAKVIND_OUTPUT_TOO_SHORT, "appending without room");

    /* and twice, by one call */
    uint8_t items[2 * ZAKVIND_INSTANCE_FIELDS_BYTES], two[2 * ZAKVIND_INSTANCE_BYTES];
    memcpy(items, slots + 1, ZAKVIND_INSTANCE_FIELDS_BYTES);
    memcpy(items + ZAKVIND_INSTANCE_FIELDS_BYTES, slots + 1, ZAKVIND_INSTANCE_FIELDS_BYTES);
    a = zakvind_append_instances(tlases, sizeof tlases, blases, sizeof blases, 0, items, sizeof items, two, sizeof two, 0);
    must(a.number == 0 && a.used == 128 && memcmp(two, instances, 64) == 0 && memcmp(two + 64, instances, 64) == 0, "appending two");
    items[ZAKVIND_INSTANCE_FIELDS_BYTES] = 1; /* a Blas that is not there */
    a = zakvind_append_instances(tlases, sizeof tlases, blases, sizeof blases, 0, items, sizeof items, two, sizeof two, 0);
    must(a.number == ZAKVIND_INVALID_RESOURCE && a.e0 == 0 && a.e1 == 1 && a.used == 0, "the second one refused");

    /* both read back: the Blas by its address */
    uint8_t again[ZAKVIND_ROOM_ITEMS(sizeof two)];
    zakvind_instances_read i = zakvind_read_instances(two, sizeof two, blases, sizeof blases, again, sizeof again);
    must(i.number == 0 && i.written == sizeof again, "reading back");
    must(memcmp(again, slots + 1, 55) == 0 && memcmp(again + 55, slots + 1, 55) == 0, "as they were");
    two[64 + 56] = 0; /* another address */
    i = zakvind_read_instances(two, sizeof two, blases, sizeof blases, again, sizeof again);
    must(i.number == ZAKVIND_NOT_ONE_BLAS && i.e0 == 1 && i.written == 0, "an address of no Blas");

    /* what was recorded, and a use */
    zakvind_command_indices indices = {0, 5};
    uint16_t dependency_counts[1] = {0}, dependencies[ZAKVIND_TLAS_ROOM] = {0};
    const uint32_t recorded[] = {ZAKVIND_BUILD, 0, 1, 1, ZAKVIND_USE_TLAS, 0, 0, 0};
    zakvind_submitted s = zakvind_submit(&indices, blases, sizeof blases, tlases, sizeof tlases, dependency_counts, 1, dependencies,
                                         ZAKVIND_TLAS_ROOM, recorded, 8, lists, 4);
    must(s.number == 0 && indices.next_acceleration_structure_build_command_index == 6, "the submission");
    must(zakvind_unpack_blas(blases).built_index == 5 && zakvind_unpack_tlas(tlases).built_index == 5, "the numbers");
    must(dependency_counts[0] == 1 && dependencies[0] == 0, "what it left");

    /* the Blas marked as built again: the Tlas is older */
    const uint32_t stale[] = {ZAKVIND_MARK_BLAS, 0, 0, 0, ZAKVIND_USE_TLAS, 0, 0, 0};
    s = zakvind_submit(&indices, blases, sizeof blases, tlases, sizeof tlases, dependency_counts, 1, dependencies,
                       ZAKVIND_TLAS_ROOM, stale, 8, ZAKVIND_NONE(uint16_t), 0);
    must(s.number == ZAKVIND_BLAS_NEWER_THAN_TLAS && s.action == 1 && s.f0 == 0 && s.f1 == 0, "the stale use");
    must(indices.next_acceleration_structure_build_command_index == 7, "the counter");

    /* a sheet */
    const uint8_t sheet[] = {1, 0, 1, 0, 0, 9, 0, 0, 0, 0, 0, 0, 0, 0, 0, 0, 0, 0, 0, 0, 0, 0, 0, 0, 0, 0, 0, 0, 0, 0, 0};
    zakvind_sheet r = zakvind_read_sheet(sheet, sizeof sheet);
    must(r.number == 0 && r.alignment == 256 && r.counter == 9 && r.sections[8].start == 31 && r.sections[8].count == 0, "the sheet");
    r = zakvind_read_sheet(sheet, 14);
    must(r.number == ZAKVIND_TRUNCATED && r.place == 13, "the cut sheet");
    uint8_t text[ZAKVIND_LONGEST_REPORT];
    zakvind_reported t = zakvind_report(sheet, sizeof sheet, text, sizeof text);
    must(t.number == 0 && t.written == 40 && memcmp(text, "build 0 0 0 0 0 0\nsubmit 0 0 0 0\nnext 9\n", 40) == 0, "its text");

    puts("C: all as it must be");
    return 0;
}
