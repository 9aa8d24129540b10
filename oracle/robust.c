/* Bytes in and out of every exported function. For libFuzzer: each lent array ends at, or begins after, a page that can't be
 * touched, so that a read or write past it faults; what must be kept is compared after each call; answers that were not given
 * before count as coverage, since the library's machine code has no counters of its own. With -DALONE it reads a file of inputs,
 * each after its length as a u32, and lends heap blocks of the exact size, to be run under valgrind. */
#define _GNU_SOURCE
#include "zakvind.h"

#include <stdio.h>
#include <stdlib.h>
#include <string.h>
#include <sys/mman.h>

enum { AREAS = 18, AREA = 1 << 21, PAGE = 4096 };

static void must(int holds, const char *what)
{
    if (!holds) {
        fprintf(stderr, "must hold: %s\n", what);
        abort();
    }
}

/* ---- what is lent */

typedef struct {
    uint8_t *at;
    size_t bytes;
    uint8_t *before; /* what it held before the call */
} lent;

static lent lents[AREAS];
static int count;

#ifdef ALONE
static void *area(size_t bytes) { return malloc(bytes ? bytes : 1); }
#else
static uint8_t *areas[AREAS];
static int from_the_front;

static void *area(size_t bytes)
{
    if (!areas[count]) {
        uint8_t *p = mmap(NULL, AREA + 2 * PAGE, PROT_NONE, MAP_PRIVATE | MAP_ANONYMOUS, -1, 0);
        must(p != MAP_FAILED, "there is memory");
        must(mprotect(p + PAGE, AREA, PROT_READ | PROT_WRITE) == 0, "pages can be guarded");
        areas[count] = p + PAGE;
    }
    return from_the_front ? areas[count] : areas[count] + AREA - bytes;
}
#endif

/* Lends `bytes` bytes, the first `given` of them from the input. An output has a pattern, or, alone, nothing yet: valgrind
 * then tells whether something is read of it. */
static void *lend(size_t bytes, const uint8_t *from, size_t given, int output)
{
    uint8_t *p = area(bytes);
    if (output) {
#ifndef ALONE
        for (size_t i = 0; i < bytes; i++)
            p[i] = (uint8_t)(i * 37 + 11);
#endif
    } else {
        memcpy(p, from, given);
        memset(p + given, 0, bytes - given);
    }
    lents[count] = (lent){p, bytes, NULL};
#ifdef ALONE
    if (!output)
#endif
    {
        lents[count].before = malloc(bytes ? bytes : 1);
        memcpy(lents[count].before, p, bytes);
    }
    count++;
    return p;
}

/* From `from` bytes on it holds what it held. */
static void kept(int k, size_t from, const char *what)
{
    if (lents[k].before && from < lents[k].bytes)
        must(memcmp(lents[k].at + from, lents[k].before + from, lents[k].bytes - from) == 0, what);
}

/* Looks at every written byte, so that valgrind tells of one that was never set. */
static void seen(int k, size_t bytes)
{
    unsigned sum = 0;
    must(bytes <= lents[k].bytes, "no more is written than was lent");
    for (size_t i = 0; i < bytes; i++)
        sum = sum * 31 + lents[k].at[i];
    if (sum == 0xdeadbeef)
        puts("a rare sum");
}

/* Takes back what was lent from number k on. */
static void done_from(int k)
{
    while (count > k) {
        count--;
        free(lents[count].before);
#ifdef ALONE
        free(lents[count].at);
#endif
    }
}

/* ---- answers as coverage */

#ifndef ALONE
__attribute__((section("__libfuzzer_extra_counters"))) static uint8_t counters[1 << 13];
#else
static uint8_t counters[1 << 13];
#endif
static uint64_t numbers[64];

static void given(unsigned call, const uint64_t *answer, size_t fields)
{
    unsigned h = call;
    for (size_t i = 0; i < fields; i++) {
        uint64_t v = answer[i];
        unsigned small = v < 8 ? (unsigned)v : 8u + (v > 64) + (v > 4096) + (v > 1u << 31) + (v > (uint64_t)1 << 60);
        h = h * 31 + (i == 0 ? (unsigned)v : small);
        if (i < 3)
            counters[(h * 2654435761u) >> 19] = 1;
    }
    if (answer[0] < 64)
        numbers[answer[0]]++;
    must(answer[0] <= 50, "a number of the table");
}

/* ---- the input */

typedef struct {
    const uint8_t *at;
    size_t left;
} input;

static uint64_t number(input *in, size_t width)
{
    uint64_t v = 0;
    for (size_t i = 0; i < width && in->left; i++, in->left--)
        v |= (uint64_t)*in->at++ << 8 * i;
    return v;
}

/* Lends n elements of `size` bytes from what is left; what is missing is 0, or left away where `cut`. */
static void *take(input *in, size_t *n, size_t size, int cut)
{
    size_t bytes = *n * size, there = bytes < in->left ? bytes : in->left;
    if (cut) {
        *n = there / size;
        bytes = there = *n * size;
    }
    void *p = lend(bytes, in->at, there, 0);
    in->at += there;
    in->left -= there;
    return p;
}

/* The words of an answer, with room for them and with a byte less. */
static void speak(uint64_t call, uint64_t answer, uint64_t e0, uint64_t e1, uint64_t f0, uint64_t f1, uint64_t f2)
{
    const int k = count;
    uint8_t *out = lend(ZAKVIND_LONGEST_WORDS, NULL, 0, 1);
    zakvind_reported t = zakvind_words(call, answer, e0, e1, f0, f1, f2, out, ZAKVIND_LONGEST_WORDS);
    given(5, (const uint64_t *)&t, 2);
    must(t.number == 0 && t.written > 0 && out[t.written - 1] == '\n', "words are a line");
    kept(k, t.written, "what is past the words is kept");
    seen(k, t.written);
    uint8_t *less = lend(t.written - 1, NULL, 0, 1);
    t = zakvind_words(call, answer, e0, e1, f0, f1, f2, less, t.written - 1);
    must(t.number == 39 && t.written == 0, "words that don't fit");
    kept(k + 1, 0, "words that don't fit are not written");
}

/* The sheet written anew into its own length, which is enough; into a byte less, into `room`, and what is written once more. */
static void write_anew(const uint8_t *sheet, size_t n, size_t room, const zakvind_sheet *r)
{
    const int k = count;
    const size_t rooms[4] = {n, n ? n - 1 : 0, room, n + 3};
    uint8_t *out[4];
    for (int i = 0; i < 4; i++) {
        out[i] = lend(rooms[i], NULL, 0, 1);
        zakvind_written w = zakvind_write_sheet(sheet, n, out[i], rooms[i]);
        given(7, (const uint64_t *)&w, 3);
        const uint64_t refused = r->number ? r->number : rooms[i] < n ? ZAKVIND_OUTPUT_TOO_SHORT : 0;
        must(w.number == refused && w.place == r->place, "the reader's refusal, then 39");
        must(w.written == (refused ? 0 : n), "a sheet is written whole or not");
        kept(k + i, w.written, "what is past the sheet is kept, and all where it is refused");
        seen(k + i, w.written);
        must(refused || memcmp(out[i], out[0], n) == 0, "the same bytes whatever the room");
        speak(5, w.number, w.place, 0, 0, 0, 0);
        done_from(k + i + 1);
    }
    if (r->number)
        return;
    uint8_t *again = lend(n, NULL, 0, 1);
    zakvind_sheet s = zakvind_read_sheet(out[0], n);
    zakvind_written w = zakvind_write_sheet(out[0], n, again, n);
    must(memcmp(&s, r, sizeof s) == 0, "what is written is read, with the same sections");
    must(w.number == 0 && memcmp(again, out[0], n) == 0, "written once more it is the same");
}

typedef zakvind_written converter(const uint8_t *sheet, size_t sheet_len, uint8_t *out, size_t out_len);

/* The place of the first offset from 2^32 on of a sheet of version 2, or 0. */
static uint64_t too_far(const uint8_t *sheet, const zakvind_sheet *r)
{
    for (uint64_t i = 0; i < r->sections[5].count; i++) {
        const uint64_t place = r->sections[5].start + i * ZAKVIND_WIDE_GEOMETRY_BYTES + 5;
        input in = {sheet + place, 8};
        if (number(&in, 8) >> 32)
            return place;
    }
    return 0;
}

/* The sheet in version `to`, into as much room as is needed, into a byte less and into `room`; what is written is read, says the same lines
 * and comes back as the same bytes. */
static void convert(uint64_t to, const uint8_t *sheet, size_t n, size_t room, const zakvind_sheet *r)
{
    converter *there = to == 2 ? zakvind_to_version_2 : zakvind_to_version_1, *back = to == 2 ? zakvind_to_version_1 : zakvind_to_version_2;
    const size_t wider = r->number ? 0 : r->sections[5].count * (ZAKVIND_WIDE_GEOMETRY_BYTES - ZAKVIND_GEOMETRY_BYTES);
    const size_t needed = to == 2 ? n + wider : n - wider;
    const int k = count;
    uint64_t number = r->number, place = r->place;
    if (n && sheet[0] != 3 - to)
        number = ZAKVIND_UNKNOWN_VERSION, place = 0;
    else if (!number && to == 1 && (place = too_far(sheet, r)))
        number = ZAKVIND_TOO_FAR;
    const size_t rooms[3] = {needed, needed ? needed - 1 : 0, room};
    uint8_t *out[3];
    for (int i = 0; i < 3; i++) {
        out[i] = lend(rooms[i], NULL, 0, 1);
        const zakvind_written w = there(sheet, n, out[i], rooms[i]);
        given(11 + (unsigned)to, (const uint64_t *)&w, 3);
        const uint64_t refused = number ? number : rooms[i] < needed ? ZAKVIND_OUTPUT_TOO_SHORT : 0;
        must(w.number == refused && w.place == place, "1 for another version, the reader's refusal, 47, then 39");
        must(w.written == (refused ? 0 : needed), "a sheet is converted whole or not");
        kept(k + i, w.written, "what is past the sheet is kept, and all where it is refused");
        seen(k + i, w.written);
        must(refused || memcmp(out[i], out[0], needed) == 0, "the same bytes whatever the room");
        speak(to == 2 ? 8 : 9, w.number, w.place, 0, 0, 0, 0);
        done_from(k + i + 1);
    }
    if (number)
        return;
    const zakvind_sheet s = zakvind_read_sheet(out[0], needed);
    must(s.number == 0 && s.version == to && s.alignment == r->alignment && s.counter == r->counter, "a converted sheet is read");
    for (int i = 0; i < 9; i++)
        must(s.sections[i].count == r->sections[i].count, "as many records in each section");
    done_from(k + 1);
    uint8_t *again = lend(n, NULL, 0, 1);
    const zakvind_written w = back(out[0], needed, again, n);
    must(w.number == 0 && w.written == n && memcmp(again, sheet, n) == 0, "there and back the same bytes");
    uint8_t *lines = lend(room, NULL, 0, 1), *same = lend(room, NULL, 0, 1);
    const zakvind_reported a = zakvind_report(sheet, n, lines, room), b = zakvind_report(out[0], needed, same, room);
    must(a.number == b.number && a.written == b.written && memcmp(lines, same, a.written) == 0, "a converted sheet says the same lines");
    done_from(k);
}

static void call_sheet(input *in)
{
    size_t room = number(in, 2), n = in->left;
    uint8_t *sheet = take(in, &n, 1, 1), *out = lend(room, NULL, 0, 1);
    zakvind_sheet r = zakvind_read_sheet(sheet, n), again = zakvind_read_sheet(sheet, n);
    given(0, (const uint64_t *)&r, 23);
    must(memcmp(&r, &again, sizeof r) == 0, "the same answer again");
    must(r.number <= 5 && r.place <= n, "a sheet's refusal");
    zakvind_reported t = zakvind_report(sheet, n, out, room);
    given(1, (const uint64_t *)&t, 2);
    must(t.number == 0 || (t.number == 39 && t.written == 0), "a report's refusal");
    kept(0, 0, "the sheet is kept");
    kept(1, t.written, "what is past the text is kept");
    seen(1, t.written);
    must(t.written == 0 || out[t.written - 1] == '\n', "a text ends with its line");
    must(t.number == 39 || (r.number != 0) == (out[0] == 's'), "reader and report agree");
    uint8_t *words = lend(room, NULL, 0, 1);
    zakvind_reported w = zakvind_explain(sheet, n, words, room);
    given(6, (const uint64_t *)&w, 2);
    must(w.number == 0 || (w.number == 39 && w.written == 0), "an explanation's refusal");
    kept(2, w.written, "what is past the explanation is kept");
    seen(2, w.written);
    must(w.number == 39 || (w.written > t.written && memcmp(words, out, t.written) == 0), "an explanation begins as its report");
    speak(1, r.number, r.place, 0, 0, 0, 0);
    write_anew(sheet, n, room, &r);
    done_from(3);
    convert(2, sheet, n, room, &r);
    done_from(3);
    convert(1, sheet, n, room, &r);
    kept(0, 0, "the sheet is kept");
}

/* With geometries of 44 bytes, or wide ones of 48. */
static void call_build(input *in, int wide)
{
    static const size_t width[7] = {8, 8, 8, 1, 8, 2, 2};
    uint32_t alignment = (uint32_t)number(in, 4);
    size_t n[8], m[7];
    const uint8_t *t[8];
    void *o[7];
    for (int i = 0; i < 8; i++)
        n[i] = number(in, 2);
    for (int i = 0; i < 7; i++)
        m[i] = number(in, 2);
    for (int i = 0; i < 8; i++)
        t[i] = take(in, &n[i], 1, 1);
    for (int i = 0; i < 7; i++)
        o[i] = lend(m[i] * width[i], NULL, 0, 1);
    zakvind_built b = (wide ? zakvind_build_wide : zakvind_build)(
        alignment, t[0], n[0], t[1], n[1], t[2], n[2], t[3], n[3], t[4], n[4], t[5], n[5], t[6], n[6], t[7], n[7], o[0], m[0], o[1], m[1],
        o[2], m[2], o[3], m[3], o[4], m[4], o[5], m[5], o[6], m[6]);
    given(wide ? 14 : 2, (const uint64_t *)&b, 15);
    const uint64_t written[7] = {b.blas_offsets, b.tlas_offsets, b.staging_ranges, b.instances, b.init_ranges, b.compactable, b.lists};
    for (int i = 0; i < 8; i++)
        kept(i, 0, "the tables are kept");
    for (int i = 0; i < 7; i++) {
        must(written[i] <= m[i], "no more is written than was lent");
        must(b.number == 0 || written[i] == 0, "a refusal writes nothing");
        kept(8 + i, written[i] * width[i], "what is past the plan is kept");
        seen(8 + i, written[i] * width[i]);
    }
    must(b.number == 0 || (b.recorded == 0 && b.scratch_size == 0), "a refusal records nothing");
    const zakvind_room room = (wide ? zakvind_room_for_wide : zakvind_room_for)(t[1], n[1], t[4], n[4], t[5], n[5], t[6], n[6], t[7], n[7]);
    const size_t rooms[7] = {room.blas_offsets, room.tlas_offsets, room.staging_ranges, room.instances,
                             room.init_ranges, room.compactable, room.lists};
    int fits = 1;
    for (int i = 0; i < 7; i++) {
        must(!b.recorded || written[i] == rooms[i], "the room is what is written");
        fits = fits && rooms[i] <= m[i];
    }
    must(b.number != 39 || !fits, "with its room no build is refused by 39");
    speak(2, b.number, b.e0, b.e1, b.f0, b.f1, b.f2);
}

static void call_submit(input *in)
{
    zakvind_command_indices i = {number(in, 8), number(in, 8)}, was = i;
    size_t b = number(in, 2), t = number(in, 2), c = number(in, 2), d = number(in, 2), a = number(in, 2), l = number(in, 2);
    uint8_t *blases = take(in, &b, 1, 1), *tlases = take(in, &t, 1, 1);
    uint32_t *actions = take(in, &a, 4, 1);
    uint16_t *lists = take(in, &l, 2, 1), *counts = take(in, &c, 2, 0), *dependencies = take(in, &d, 2, 0);
    zakvind_submitted s = zakvind_submit(&i, blases, b, tlases, t, counts, c, dependencies, d, actions, a, lists, l);
    given(3, (const uint64_t *)&s, 4);
    kept(2, 0, "the actions are kept");
    kept(3, 0, "the lists are kept");
    must(i.active_submission_index == was.active_submission_index, "the submission index never moves");
    must(s.number == 0 || s.action <= a / 4, "the refused action is one of them");
    speak(3, s.number, s.action, s.action < a / 4 ? actions[4 * s.action] : 0, s.f0, s.f1, 0);
    if (i.next_acceleration_structure_build_command_index == was.next_acceleration_structure_build_command_index) {
        kept(0, 0, "without a Build the Blases are kept");
        kept(1, 0, "without a Build the Tlases are kept");
        kept(4, 0, "without a Build the counts are kept");
        kept(5, 0, "without a Build the lists of Tlases are kept");
    }
}

static void call_append(input *in)
{
    size_t t = number(in, 2), b = number(in, 2), room, n = 55;
    uint16_t tlas = (uint16_t)number(in, 2);
    room = number(in, 2);
    uint64_t used = number(in, 8);
    uint8_t *instance = take(in, &n, 1, 0), *tlases = take(in, &t, 1, 1), *blases = take(in, &b, 1, 1);
    uint8_t *instances = lend(room, NULL, 0, 1);
    zakvind_appended r = zakvind_append_instance(tlases, t, blases, b, tlas, instance, instances, room, used);
    given(4, (const uint64_t *)&r, 7);
    for (int k = 0; k < 3; k++)
        kept(k, 0, "the tables and the instance are kept");
    speak(4, r.number, r.e0, r.e1, r.f0, r.f1, r.f2);
    if (r.number) {
        kept(3, 0, "a refusal writes nothing");
        must(r.used == used, "a refusal hands back the bytes in use as they were");
        return;
    }
    must(r.used == used + 64 && r.used <= room, "64 bytes are appended");
    kept(3, r.used, "what is past them is kept");
    must(!lents[3].before || memcmp(instances, lents[3].before, used) == 0, "what was in use is kept");
}

/* Lends the Blases of the input after `before` others, all of whose addresses are different. */
static const uint8_t *take_blases(input *in, size_t before, size_t *bytes)
{
    const size_t there = *bytes < in->left ? *bytes : in->left;
    *bytes = before * ZAKVIND_BLAS_BYTES + there;
    uint8_t *all = calloc(*bytes + 1, 1);
    must(all != NULL, "there is memory");
    for (size_t i = 0; i < before; i++) {
        const uint64_t address = (i + 1) * UINT64_C(0x9e3779b97f4a7c15);
        for (int k = 0; k < 8; k++)
            all[i * ZAKVIND_BLAS_BYTES + 12 + k] = (uint8_t)(address >> 8 * k);
    }
    memcpy(all + before * ZAKVIND_BLAS_BYTES, in->at, there);
    in->at += there;
    in->left -= there;
    const uint8_t *p = lend(*bytes, all, *bytes, 0);
    free(all);
    return p;
}

/* The index of the one Blas with an address, or 65,536 where there is none, or none with an id, or several. */
static size_t the_one(const uint8_t *blases, size_t bytes, uint64_t address)
{
    size_t found = 65536, times = 0;
    for (size_t i = 0; i < bytes / ZAKVIND_BLAS_BYTES; i++) {
        input in = {blases + i * ZAKVIND_BLAS_BYTES + 12, 8};
        if (number(&in, 8) == address)
            found = i, times++;
    }
    return times == 1 && found < 65536 ? found : 65536;
}

/* What `whole` records are refused by, and which, by a scan of the Blases for each; else their items go to `items`. */
static uint64_t judged(const uint8_t *records, size_t whole, const uint8_t *blases, size_t b, uint8_t *items, uint64_t *record)
{
    for (*record = 0; *record < whole; ++*record) {
        const uint8_t *r = records + *record * ZAKVIND_INSTANCE_BYTES;
        uint8_t *item = items + *record * ZAKVIND_INSTANCE_FIELDS_BYTES;
        input word = {r + 52, 4}, address = {r + 56, 8};
        const size_t id = the_one(blases, b, number(&address, 8));
        if (number(&word, 4))
            return ZAKVIND_WORD_NOT_ZERO;
        if (id == 65536)
            return ZAKVIND_NOT_ONE_BLAS;
        item[0] = (uint8_t)(id % 256);
        item[1] = (uint8_t)(id / 256);
        memcpy(item + 2, r + 48, 3);
        item[5] = 0;
        item[6] = r[51];
        memcpy(item + 7, r, 48);
    }
    *record = 0;
    return 0;
}

/* Records into `room`, into exactly as much as is needed and into a byte less, held to a scan of the Blases for each; what is
 * accepted is appended, and gives the same bytes. After a 255 the Blases stand after 65,535 others. */
static void call_instances(input *in)
{
    enum { ITEM = ZAKVIND_INSTANCE_FIELDS_BYTES, BYTES = ZAKVIND_INSTANCE_BYTES };
    const size_t before = number(in, 1) == 255 ? 65535 : 0;
    size_t b = number(in, 2), n = number(in, 2);
    const size_t room = number(in, 2);
    const uint8_t *blases = take_blases(in, before, &b);
    /* so many Blases are looked through for a few alone */
    if (before && n > 4 * BYTES)
        n = 4 * BYTES + n % BYTES;
    const uint8_t *records = take(in, &n, 1, 1);
    const size_t needed = n / BYTES * ITEM;
    uint8_t *expected = malloc(needed ? needed : 1);
    uint64_t record, refused = judged(records, n / BYTES, blases, b, expected, &record);
    if (n % BYTES)
        refused = ZAKVIND_UNEVEN_LENGTH, record = 0;
    const size_t rooms[3] = {room, needed, needed ? needed - 1 : 0};
    for (int i = 0; i < 3; i++) {
        uint8_t *items = lend(rooms[i], NULL, 0, 1);
        const zakvind_instances_read a = zakvind_read_instances(records, n, blases, b, items, rooms[i]);
        given(15, (const uint64_t *)&a, 4);
        const uint64_t why = refused ? refused : rooms[i] < needed ? ZAKVIND_OUTPUT_TOO_SHORT : 0;
        must(a.number == why && a.e0 == record && a.e1 == 0, "48 before all, 49 and 50 of the first bad record, then 39");
        must(a.written == (why ? 0 : needed), "items are written whole or not");
        kept(2, a.written, "what is past the items is kept, and all where they are refused");
        seen(2, a.written);
        must(why || memcmp(items, expected, needed) == 0, "they are the records' by their bits, whatever the room");
        speak(10, a.number, a.e0, a.e1, 0, 0, 0);
        done_from(2);
    }
    if (!refused) {
        /* a Tlas that returns no vertices */
        static const uint8_t zeros[ZAKVIND_TLAS_BYTES];
        const uint8_t *tlases = lend(sizeof zeros, zeros, sizeof zeros, 0), *items = lend(needed, expected, needed, 0);
        uint8_t *again = lend(n, NULL, 0, 1);
        const zakvind_appended a = zakvind_append_instances(tlases, sizeof zeros, blases, b, 0, items, needed, again, n, 0);
        must(a.number == 0 && a.used == n && memcmp(again, records, n) == 0, "what is accepted is written as it was");
    }
    free(expected);
    kept(0, 0, "the Blases are kept");
    kept(1, 0, "the records are kept");
}

/* What was written of items, read back: as it was where each address stands once. */
static void read_back(const uint8_t *written, size_t n, const uint8_t *blases, size_t b, const uint8_t *items)
{
    const size_t needed = n / ZAKVIND_INSTANCE_BYTES * ZAKVIND_INSTANCE_FIELDS_BYTES;
    const int k = count;
    uint8_t *expected = malloc(needed ? needed : 1);
    uint64_t record;
    const uint64_t refused = judged(written, n / ZAKVIND_INSTANCE_BYTES, blases, b, expected, &record);
    const uint8_t *records = lend(n, written, n, 0);
    uint8_t *back = lend(needed, NULL, 0, 1);
    const zakvind_instances_read a = zakvind_read_instances(records, n, blases, b, back, needed);
    given(15, (const uint64_t *)&a, 4);
    must(refused == 0 || refused == ZAKVIND_NOT_ONE_BLAS, "what is written is refused for its addresses alone");
    must(a.number == refused && a.e0 == record && a.written == (refused ? 0 : needed), "what was written is read");
    must(refused || memcmp(back, items, needed) == 0, "it comes back as it was");
    free(expected);
    done_from(k);
}

/* An instance alone, with room for it; where it is accepted its bytes go to `bytes`. */
static zakvind_appended alone(const uint8_t *tlases, size_t t, const uint8_t *blases, size_t b, uint16_t tlas, const uint8_t *item,
                              uint8_t *bytes)
{
    const int k = count;
    uint8_t *room = lend(ZAKVIND_INSTANCE_BYTES, NULL, 0, 1);
    const zakvind_appended r = zakvind_append_instance(tlases, t, blases, b, tlas, item, room, ZAKVIND_INSTANCE_BYTES, 0);
    given(11, (const uint64_t *)&r, 7);
    if (r.number == 0)
        memcpy(bytes, room, ZAKVIND_INSTANCE_BYTES);
    done_from(k);
    return r;
}

/* Many instances into `room`, into exactly as much as is needed, and into a byte less, held to what each of them comes to alone; and none
 * of them, and an end past 2^64. */
static void call_many(input *in)
{
    enum { ITEM = ZAKVIND_INSTANCE_FIELDS_BYTES, BYTES = ZAKVIND_INSTANCE_BYTES };
    size_t t = number(in, 2), b = number(in, 2), n = number(in, 2);
    const size_t room = number(in, 2);
    const uint16_t tlas = (uint16_t)number(in, 2);
    const uint64_t used = number(in, 8);
    const uint8_t *tlases = take(in, &t, 1, 1), *blases = take(in, &b, 1, 1), *items = take(in, &n, 1, 1);
    uint8_t *instances = lend(room, NULL, 0, 1);
    const size_t whole = n / ITEM, needed = whole * BYTES;
    const int outside = tlas >= t / ZAKVIND_TLAS_BYTES;
    const uint64_t wraps = (uint64_t)0 - needed;
    const zakvind_appended none = zakvind_append_instances(tlases, t, blases, b, tlas, items, 0, instances, room, used);
    must(none.number == (outside ? ZAKVIND_INVALID_RESOURCE : used > room ? ZAKVIND_OUTPUT_TOO_SHORT : 0) && none.used == used,
         "no items are judged for the Tlas and the room");
    const zakvind_appended past = zakvind_append_instances(tlases, t, blases, b, tlas, items, n, instances, room, wraps);
    must(needed == 0 || (past.number && past.used == wraps), "an end past 2^64 is in no room");
    kept(3, 0, "neither writes");
    const zakvind_appended r = zakvind_append_instances(tlases, t, blases, b, tlas, items, n, instances, room, used);
    given(10, (const uint64_t *)&r, 7);
    for (int k = 0; k < 3; k++)
        kept(k, 0, "the tables and the items are kept");
    speak(7, r.number, r.e0, r.e1, r.f0, r.f1, r.f2);
    done_from(4);
    uint8_t *each = malloc(needed ? needed : 1);
    zakvind_appended one = {0};
    size_t good = 0;
    while (good < whole && (one = alone(tlases, t, blases, b, tlas, items + good * ITEM, each + good * BYTES)).number == 0)
        good++;
    uint64_t refused = 0, position = 0;
    if (outside)
        refused = ZAKVIND_INVALID_RESOURCE;
    else if (good < whole)
        refused = one.number, position = good;
    else if (n % ITEM)
        refused = ZAKVIND_INVALID_VALUE, position = whole;
    else if (used > room || needed > room - used)
        refused = ZAKVIND_OUTPUT_TOO_SHORT;
    must(r.number == refused, "6 for the Tlas, the first bad one's number alone, 5 for a part of one, 39");
    must(r.e0 == 0 && r.e1 == position && r.f0 == 0 && r.f1 == 0 && r.f2 == 0, "E is 0 and the position, with no figures");
    if (refused) {
        kept(3, 0, "a refusal writes nothing");
        must(r.used == used, "a refusal hands back the bytes in use as they were");
    } else {
        must(r.used == used + needed, "64 bytes are appended for each");
        must(memcmp(instances + used, each, needed) == 0, "they are those of each alone, one after the other");
        read_back(each, needed, blases, b, items);
        kept(3, r.used, "what is past them is kept");
        must(!lents[3].before || memcmp(instances, lents[3].before, used) == 0, "what was in use is kept");
    }
    const int all_good = refused == 0 || (refused == ZAKVIND_OUTPUT_TOO_SHORT && used < 1 << 16);
    for (size_t less = 0; all_good && less < 2 && less <= used + needed; less++) {
        const size_t exact = used + needed - less;
        uint8_t *out = lend(exact, NULL, 0, 1);
        const zakvind_appended a = zakvind_append_instances(tlases, t, blases, b, tlas, items, n, out, exact, used);
        given(10, (const uint64_t *)&a, 7);
        must(a.number == (less ? ZAKVIND_OUTPUT_TOO_SHORT : 0) && a.used == (less ? used : used + needed), "room to the byte");
        must(less || memcmp(out + used, each, needed) == 0, "the same bytes whatever the room");
        must(!lents[4].before || memcmp(out, lents[4].before, less ? exact : used) == 0, "what was in use is kept");
        done_from(4);
    }
    free(each);
}

/* Groups opened into `room`, into as much as is always enough, into exactly as much as is needed, and into a byte less. */
static void call_groups(input *in)
{
    enum { ALL = ZAKVIND_MOST_SLOTS * ZAKVIND_SLOT_BYTES };
    const size_t room = number(in, 2);
    size_t n = in->left;
    const uint8_t *groups = take(in, &n, 1, 1);
    uint8_t *all = lend(ALL, NULL, 0, 1);
    const zakvind_opened a = zakvind_open_groups(groups, n, all, ALL), again = zakvind_open_groups(groups, n, all, ALL);
    given(8, (const uint64_t *)&a, 5);
    must(memcmp(&a, &again, sizeof a) == 0, "the same answer again");
    must(a.number != ZAKVIND_OUTPUT_TOO_SHORT, "room that is always enough");
    must(a.place <= n && (a.place == 0 || a.number <= ZAKVIND_INVALID_VALUE), "the place is one of the bytes");
    must(a.group < ZAKVIND_MOST_GROUPS && (a.number >= ZAKVIND_INVALID_GROUP || (a.group == 0 && a.item == 0)), "the group is one of them");
    must(a.number ? a.written == 0 : a.written > 0 && a.written % ZAKVIND_SLOT_BYTES == 0, "slots are written whole, and some are");
    kept(1, a.written, "what is past the slots is kept, and all where they are refused");
    seen(1, a.written);
    for (size_t i = 0; i < a.written; i += ZAKVIND_SLOT_BYTES)
        must(all[i] == 1, "a slot is present");
    speak(6, a.number, a.number >= ZAKVIND_INVALID_GROUP ? a.group : a.place, a.item, 0, 0, 0);
    done_from(2);
    const size_t rooms[3] = {a.written, a.written ? a.written - 1 : 0, room};
    for (int i = 0; i < 3; i++) {
        uint8_t *slots = lend(rooms[i], NULL, 0, 1);
        const zakvind_opened b = zakvind_open_groups(groups, n, slots, rooms[i]);
        given(9, (const uint64_t *)&b, 5);
        if (a.number || rooms[i] >= a.written)
            must(memcmp(&a, &b, sizeof a) == 0 && memcmp(slots, all, a.written) == 0, "the same answer and bytes with any room that is enough");
        else
            must(b.number == ZAKVIND_OUTPUT_TOO_SHORT && b.place == 0 && b.group == 0 && b.item == 0 && b.written == 0, "39 alone");
        kept(2, b.written, "what is past the slots is kept, and all where they are refused");
        seen(2, b.written);
        speak(6, b.number, b.number >= ZAKVIND_INVALID_GROUP ? b.group : b.place, b.item, 0, 0, 0);
        done_from(2);
    }
    kept(0, 0, "the groups are kept");
}

int LLVMFuzzerTestOneInput(const uint8_t *data, size_t size)
{
    input in = {data, size};
    unsigned head = (unsigned)number(&in, 1);
    if (size < 1 || size > 1 << 17)
        return 0;
#ifndef ALONE
    from_the_front = head >> 7;
#endif
    switch (head % 8) {
    case 0: call_sheet(&in); break;
    case 1: call_build(&in, 0); break;
    case 2: call_submit(&in); break;
    case 3: call_append(&in); break;
    case 4: call_groups(&in); break;
    case 5: call_many(&in); break;
    case 6: call_build(&in, 1); break;
    default: call_instances(&in); break;
    }
    done_from(0);
    return 0;
}

#ifdef ALONE
int main(int argc, char **argv)
{
    FILE *f = argc == 2 ? fopen(argv[1], "rb") : NULL;
    if (!f) {
        fprintf(stderr, "usage: robust FILE\n");
        return 2;
    }
    static uint8_t data[1 << 17];
    uint8_t length[4];
    size_t inputs = 0;
    while (fread(length, 1, 4, f) == 4) {
        size_t n = length[0] | length[1] << 8 | length[2] << 16;
        if (n > sizeof data || fread(data, 1, n, f) != n)
            return 2;
        LLVMFuzzerTestOneInput(data, n);
        inputs++;
    }
    fclose(f);
    printf("%zu inputs; answers by number:", inputs);
    for (int i = 0; i < 64; i++)
        if (numbers[i])
            printf(" %d: %llu", i, (unsigned long long)numbers[i]);
    puts("");
    return 0;
}
#endif
