/* How much stack a call may take: stack [KIB], 512 unless told otherwise.
 *
 * The calls run in a thread with this much stack, over types with as many nodes one in another as a valid type has (16), and over texts that are
 * nested far deeper, which are refused. Where it isn't enough, the program ends by a signal. */
#define _POSIX_C_SOURCE 200809L
#include "octets.h"
#include "xt.h"
#include <pthread.h>

enum { LEVELS = 14, DEEP = 100000 };

static uint8_t room[1 << 16];
static size_t needed;
static unsigned wrongs, types_tried;

static void expect(const char *what, const char *of, uint32_t status, uint32_t wanted) {
    if (status == wanted) return;
    printf("wrong: %s of %s: status %u, %.*s\n", what, of, (unsigned)status, needed <= sizeof room ? (int)needed : 0, (const char *)room);
    wrongs++;
}

/* ---- types, and values of theirs as JSON: each level stands inside the next, and T is the outermost */

struct family {
    const char *name;
    int levels;
    const char *innermost, *level, *outermost;
    const char *value_begin, *value_end, *level_begin, *level_end, *value;
};

/* Each %d is the number of a level: in `level` its own and that below, where a typedef has them the other way round. */
static const struct family families[] = {
    {"structures", LEVELS - 1, "@final struct L%d { @key string s; sequence<octet> o; };", "@final struct L%d { @key L%d a; };",
     "@final struct T { @key L%d a; };", "{\"a\":", "}", "{\"a\":", "}", "{\"s\":\"x\",\"o\":[1,2]}"},
    {"appendable structures", LEVELS - 1, "@appendable struct L%d { @key string s; sequence<octet> o; };",
     "@appendable struct L%d { @key L%d a; @optional long b; };", "@appendable struct T { @key L%d a; };", "{\"a\":", "}", "{\"b\":1,\"a\":", "}",
     "{\"s\":\"x\",\"o\":[1,2]}"},
    {"mutable structures", LEVELS - 1, "@mutable struct L%d { @key string s; sequence<octet> o; };",
     "@mutable struct L%d { @key L%d a; @optional long b; };", "@mutable struct T { @key L%d a; };", "{\"a\":", "}", "{\"b\":1,\"a\":", "}",
     "{\"s\":\"x\",\"o\":[1,2]}"},
    {"optional members", LEVELS, "@appendable struct L%d { @optional string s; };", "@appendable struct L%d { @optional L%d a; };",
     "@appendable struct T { @optional L%d a; };", "{\"a\":", "}", "{\"a\":", "}", "{\"s\":\"x\"}"},
    {"unions", LEVELS, "@final union L%d switch (long) { case 1: string s; };", "@final union L%d switch (long) { case 1: L%d a; };",
     "@final struct T { L%d a; };", "{\"a\":", "}", "{\"d\":1,\"v\":", "}", "{\"d\":1,\"v\":\"x\"}"},
    {"appendable unions", LEVELS, "@appendable union L%d switch (long) { case 1: string s; };",
     "@appendable union L%d switch (long) { case 1: L%d a; };", "@appendable struct T { L%d a; };", "{\"a\":", "}", "{\"d\":1,\"v\":", "}",
     "{\"d\":1,\"v\":\"x\"}"},
    {"arrays", LEVELS / 2, "typedef octet L%d[1];", "typedef L%d L%d[1];", "@final struct T { L%d a; };", "{\"a\":", "}", "[", "]", "[1]"},
};

static void put_number(struct octets *all, const char *text, int first, int second) {
    char line[256];
    if (second < 0) snprintf(line, sizeof line, text, first);
    else snprintf(line, sizeof line, text, first, second);
    put_text(all, line);
}

static void put_types(struct octets *idl, const struct family *f) {
    int is_alias = !strncmp(f->level, "typedef", 7);
    put_number(idl, f->innermost, 1, -1);
    for (int k = 2; k <= f->levels; k++) put_number(idl, f->level, is_alias ? k - 1 : k, is_alias ? k : k - 1);
    put_number(idl, f->outermost, f->levels, -1);
}

static void put_value(struct octets *json, const struct family *f) {
    put_text(json, f->value_begin);
    for (int k = 2; k <= f->levels; k++) put_text(json, f->level_begin);
    put_text(json, f->value);
    for (int k = 2; k <= f->levels; k++) put_text(json, f->level_end);
    put_text(json, f->value_end);
}

/* Collections in collections, in one definition. */
static void put_times(struct octets *all, const char *text, int times) {
    while (times--) put_text(all, text);
}

static void put_collections(struct octets *idl, struct octets *json, const char *open, const char *close, const char *begin, const char *end) {
    put_text(idl, "@final struct T { ");
    put_times(idl, open, LEVELS);
    put_text(idl, "octet");
    put_times(idl, close, LEVELS);
    put_text(idl, " a; };");
    put_text(json, "{\"a\":");
    put_times(json, begin, LEVELS);
    put_text(json, "1");
    put_times(json, end, LEVELS);
    put_text(json, "}");
}

/* A structure with as many bases, one over the other, as there may be. */
static void put_bases(struct octets *idl, struct octets *json) {
    put_number(idl, "@mutable struct L%d { @key long m%d; };", 1, 1);
    put_text(json, "{\"m1\":1,\"t\":1");
    for (int k = 2; k <= LEVELS; k++) {
        char line[64];
        put_number(idl, "@mutable struct L%d : ", k, -1);
        put_number(idl, "L%d { @key long m%d; };", k - 1, k);
        snprintf(line, sizeof line, ",\"m%d\":%d", k, k);
        put_text(json, line);
    }
    put_number(idl, "@mutable struct T : L%d { long t; };", LEVELS, -1);
    put_text(json, "}");
}

/* ---- the calls */

static void try_samples(const char *name, xt_reader *reader, uint32_t rep, const struct octets *json) {
    struct octets sample = {0};
    expect("write", name, xt_write(reader, json->at, json->size, rep, 0, room, sizeof room, &needed), XT_OK);
    put(&sample, room, needed);
    expect("read", name, xt_read(reader, sample.at, sample.size, 0, room, sizeof room, &needed), XT_OK);
    expect("key hash", name, xt_key_hash(reader, sample.at, sample.size, room, sizeof room, &needed), XT_OK);
    expect("conversion", name, xt_convert(reader, sample.at, sample.size, 3 - rep, room, sizeof room, &needed), XT_OK);
    expect("read with numbers", name, xt_read(reader, sample.at, sample.size, XT_NUMBERS, room, sizeof room, &needed), XT_OK);
    expect("write with numbers", name, xt_write(reader, json->at, json->size, rep, XT_NUMBERS, room, sizeof room, &needed), XT_OK);
    for (size_t cut = 0; cut < sample.size; cut++) xt_read(reader, sample.at, cut, 0, room, sizeof room, &needed);
    for (size_t cut = 0; cut < json->size; cut++) xt_write(reader, json->at, cut, rep, 0, room, sizeof room, &needed);
    free_octets(&sample);
}

static void try_types(const char *name, const struct octets *idl, const struct octets *json) {
    xt_types types = XT_NULL;
    xt_reader reader = XT_NULL;
    struct octets bundle = {0};
    put_record(&bundle, IDL, idl->at, idl->size);
    put_record(&bundle, IDL, idl->at, idl->size);
    expect("types", name, xt_types_open(&types, bundle.at, bundle.size, room, sizeof room, &needed), XT_OK);
    expect("text", name, xt_print_all(&types, room, sizeof room, &needed), XT_OK);
    expect("text of T", name, xt_print(&types, OCTETS("T"), room, sizeof room, &needed), XT_OK);
    expect("identifier", name, xt_type_id(&types, OCTETS("T"), room, sizeof room, &needed), XT_OK);
    expect("minimal identifier", name, xt_minimal_id(&types, OCTETS("T"), room, sizeof room, &needed), XT_OK);
    for (uint32_t rep = XT_XCDR1; rep <= XT_XCDR2; rep++) {
        expect("verdict", name, xt_judge(&types, OCTETS("0/T"), OCTETS("1/T"), rep, XT_STRING_BOUNDS, room, sizeof room, &needed), XT_OK);
        expect("reader", name, xt_reader_open(&reader, &types, OCTETS("0/T"), OCTETS("1/T"), rep, 0, room, sizeof room, &needed), XT_OK);
        if (reader.at) try_samples(name, &reader, rep, json);
    }
    xt_reader_close(&reader);
    xt_types_close(&types);
    free_octets(&bundle);
    types_tried++;
}

static void try_families(void) {
    for (size_t k = 0; k < sizeof families / sizeof *families; k++) {
        struct octets idl = {0}, json = {0};
        put_types(&idl, &families[k]);
        put_value(&json, &families[k]);
        try_types(families[k].name, &idl, &json);
        free_octets(&idl);
        free_octets(&json);
    }
}

static void try_collections(void) {
    static const struct {
        const char *name, *open, *close, *begin, *end;
    } all[] = {{"sequences", "sequence<", ">", "[", "]"}, {"maps", "map<short, ", ">", "[[1,", "]]"}};
    for (size_t k = 0; k < sizeof all / sizeof *all; k++) {
        struct octets idl = {0}, json = {0};
        put_collections(&idl, &json, all[k].open, all[k].close, all[k].begin, all[k].end);
        try_types(all[k].name, &idl, &json);
        free_octets(&idl);
        free_octets(&json);
    }
}

static void try_bases(void) {
    struct octets idl = {0}, json = {0};
    put_bases(&idl, &json);
    try_types("bases", &idl, &json);
    free_octets(&idl);
    free_octets(&json);
}

/* ---- what is nested far deeper */

static void try_deep_text(const char *open) {
    xt_types types = XT_NULL;
    struct octets idl = {0}, bundle = {0};
    put_text(&idl, strchr(open, '<') ? "struct T { " : "");
    put_times(&idl, open, DEEP / (int)strlen(open));
    put_record(&bundle, IDL, idl.at, idl.size);
    expect("types", open, xt_types_open(&types, bundle.at, bundle.size, room, sizeof room, &needed), XT_TYPES);
    free_octets(&idl);
    free_octets(&bundle);
}

static void try_deep_json(const char *open) {
    xt_types types = XT_NULL;
    xt_reader reader = XT_NULL;
    struct octets bundle = {0}, json = {0};
    put_idl(&bundle, "@final struct T { sequence<octet> a; };");
    put_text(&json, "{\"a\":");
    put_times(&json, open, DEEP / (int)strlen(open));
    expect("types", open, xt_types_open(&types, bundle.at, bundle.size, room, sizeof room, &needed), XT_OK);
    expect("reader", open, xt_reader_open(&reader, &types, OCTETS("T"), OCTETS("T"), XT_XCDR2, 0, room, sizeof room, &needed), XT_OK);
    expect("write", open, xt_write(&reader, json.at, json.size, XT_XCDR2, 0, room, sizeof room, &needed), XT_JSON);
    expect("write with numbers", open, xt_write(&reader, json.at, json.size, XT_XCDR2, XT_NUMBERS, room, sizeof room, &needed), XT_JSON);
    xt_reader_close(&reader);
    xt_types_close(&types);
    free_octets(&bundle);
    free_octets(&json);
}

static void *try_all(void *nothing) {
    try_families();
    try_collections();
    try_bases();
    try_deep_text("module m { ");
    try_deep_text("sequence<");
    try_deep_text("map<short, ");
    try_deep_json("[");
    try_deep_json("{\"a\":");
    return nothing;
}

int main(int count, char **words) {
    size_t kib = count > 1 ? strtoul(words[1], NULL, 10) : 512;
    pthread_attr_t with;
    pthread_t thread;
    if (pthread_attr_init(&with) || pthread_attr_setstacksize(&with, 1024 * kib) || pthread_create(&thread, &with, try_all, NULL)) {
        printf("no thread has %zu KiB of stack\n", kib);
        return 2;
    }
    pthread_join(thread, NULL);
    pthread_attr_destroy(&with);
    printf("%zu KiB of stack, %u types; %u wrong\n", kib, types_tried, wrongs);
    return wrongs != 0;
}
