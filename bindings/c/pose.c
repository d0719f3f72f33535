/* A vehicle publishes its pose while the type changes: the library from C.
 *
 *   cc -std=c11 -Iinclude bindings/c/pose.c out/libxt.a -o pose
 *
 * What it prints is in pose.out, which the callers in C++, Python and Rust print too. */
#include "xt.h"
#include <stdio.h>
#include <stdlib.h>
#include <string.h>

#define OCTETS(text) (const uint8_t *)(text), strlen(text)

/* Three versions of a type. The second appends a member; the third has wider numbers. And a type with floats. */
static const char *const versions[] = {
    "module geo { @appendable struct Pose { @key string<32> vehicle; long east; long north; }; };",
    "module geo { @appendable struct Pose { @key string<32> vehicle; long east; long north; @optional long heading; }; };",
    "module geo { @appendable struct Pose { @key string<32> vehicle; long long east; long long north; }; };",
    "module geo { @final struct Fix { double height; float speed; }; };",
};

static const char older[] = "{\"vehicle\":\"rover-7\",\"east\":12500,\"north\":-300}";
static const char newer[] = "{\"vehicle\":\"rover-7\",\"east\":12500,\"north\":-300,\"heading\":90}";

/* An answer: its status, and its text or octets. None of those asked here is longer. */
struct answer {
    uint32_t status;
    size_t size;
    uint8_t octets[512];
};

/* An IDL record of a bundle: its kind, the length of its text in four octets, the highest first, and the text. */
static size_t put_idl(uint8_t *bundle, const char *idl) {
    size_t size = strlen(idl);
    const uint8_t head[5] = {3, (uint8_t)(size >> 24), (uint8_t)(size >> 16), (uint8_t)(size >> 8), (uint8_t)size};
    memcpy(bundle, head, sizeof head);
    memcpy(bundle + sizeof head, idl, size);
    return sizeof head + size;
}

static void open_types(xt_types *types) {
    static uint8_t bundle[1024];
    struct answer a;
    size_t size = 0;
    for (size_t k = 0; k < sizeof versions / sizeof *versions; k++) size += put_idl(bundle + size, versions[k]);
    a.status = xt_types_open(types, bundle, size, a.octets, sizeof a.octets, &a.size);
    if (a.status == XT_OK) return;
    fprintf(stderr, "the types: %u %.*s\n", (unsigned)a.status, (int)a.size, (const char *)a.octets);
    exit(1);
}

static struct answer open_reader(xt_reader *reader, xt_types *types, const char *reads, const char *writes) {
    struct answer a;
    a.status = xt_reader_open(reader, types, OCTETS(reads), OCTETS(writes), XT_XCDR2, 0, a.octets, sizeof a.octets, &a.size);
    return a;
}

static struct answer read_sample(xt_reader *reader, const uint8_t *sample, size_t size) {
    struct answer a;
    a.status = xt_read(reader, sample, size, 0, a.octets, sizeof a.octets, &a.size);
    return a;
}

static struct answer judge(xt_types *types, const char *reads, const char *writes) {
    struct answer a;
    a.status = xt_judge(types, OCTETS(reads), OCTETS(writes), XT_XCDR2, 0, a.octets, sizeof a.octets, &a.size);
    return a;
}

static struct answer write_value(xt_reader *reader, const char *json) {
    struct answer a;
    a.status = xt_write(reader, OCTETS(json), XT_XCDR2, 0, a.octets, sizeof a.octets, &a.size);
    return a;
}

static struct answer write_numbers(xt_reader *reader, const char *json) {
    struct answer a;
    a.status = xt_write(reader, OCTETS(json), XT_XCDR2, XT_NUMBERS, a.octets, sizeof a.octets, &a.size);
    return a;
}

static void show(const char *what, struct answer a) {
    if (a.status == XT_OK) printf("%s: %.*s\n", what, (int)a.size, (const char *)a.octets);
    else if (a.size == 0) printf("%s: refused %u\n", what, (unsigned)a.status);
    else printf("%s: refused %u, %.*s\n", what, (unsigned)a.status, (int)a.size, (const char *)a.octets);
}

static void show_octets(const char *what, struct answer a) {
    if (a.status != XT_OK) {
        show(what, a);
        return;
    }
    printf("%s:", what);
    for (size_t i = 0; i < a.size; i++) printf(" %02x", a.octets[i]);
    printf("\n");
}

static void show_verdict(const char *what, struct answer a) {
    if (a.status == XT_OK) printf("%s: yes\n", what);
    else printf("%s: %.*s\n", what, (int)a.size, (const char *)a.octets);
}

static void show_types(xt_types *types) {
    struct answer a;
    a.status = xt_type_id(types, OCTETS("0/geo::Pose"), a.octets, sizeof a.octets, &a.size);
    show("complete identifier", a);
    a.status = xt_minimal_id(types, OCTETS("0/geo::Pose"), a.octets, sizeof a.octets, &a.size);
    show("minimal identifier", a);
    a.status = xt_print(types, OCTETS("0/geo::Pose"), a.octets, sizeof a.octets, &a.size);
    printf("%.*s", (int)a.size, (const char *)a.octets);
    show_verdict("the second reads the first", judge(types, "1/geo::Pose", "0/geo::Pose"));
    show_verdict("the third reads the first", judge(types, "2/geo::Pose", "0/geo::Pose"));
}

/* A sample of the first version, read by the second. */
static void show_older(xt_reader *first, xt_reader *second) {
    struct answer sample = write_value(first, older), a;
    show_octets("written", sample);
    show("read by the second", read_sample(second, sample.octets, sample.size));
    a.status = xt_key_hash(first, sample.octets, sample.size, a.octets, sizeof a.octets, &a.size);
    show_octets("key hash", a);
    a.status = xt_convert(first, sample.octets, sample.size, XT_XCDR1, a.octets, sizeof a.octets, &a.size);
    show_octets("converted", a);
    show("a cut sample", read_sample(first, sample.octets, sample.size - 3));
}

/* And the other way round. */
static void show_newer(xt_reader *first, xt_reader *second) {
    struct answer sample = write_value(second, newer);
    show("read by the first", read_sample(first, sample.octets, sample.size));
    show("a text for a number", write_value(first, "{\"vehicle\":\"rover-7\",\"east\":\"far\",\"north\":-300}"));
    show("no JSON", write_value(first, "{"));
}

/* A sample with floats, as numbers and as their bits. */
static void show_floats(xt_types *types) {
    xt_reader fixes = XT_NULL;
    struct answer sample, a;
    open_reader(&fixes, types, "geo::Fix", "geo::Fix");
    sample = write_numbers(&fixes, "{\"height\":12.5,\"speed\":0.1}");
    show_octets("floats", sample);
    show("as bits", read_sample(&fixes, sample.octets, sample.size));
    a.status = xt_read(&fixes, sample.octets, sample.size, XT_NUMBERS, a.octets, sizeof a.octets, &a.size);
    show("as numbers", a);
    show("too large for a float", write_numbers(&fixes, "{\"height\":1e39,\"speed\":1e39}"));
    xt_reader_close(&fixes);
}

int main(void) {
    xt_types types = XT_NULL;
    xt_reader first = XT_NULL, second = XT_NULL;
    open_types(&types);
    show_types(&types);
    show("no such type", open_reader(&first, &types, "geo::Plan", "geo::Pose"));
    open_reader(&first, &types, "0/geo::Pose", "1/geo::Pose");
    open_reader(&second, &types, "1/geo::Pose", "0/geo::Pose");
    show_floats(&types);
    xt_types_close(&types);
    show_older(&first, &second);
    show_newer(&first, &second);
    xt_reader_close(&second);
    xt_reader_close(&first);
    show("a closed reader", read_sample(&first, NULL, 0));
    return 0;
}
