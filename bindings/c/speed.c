/* How fast the calls are, and whether memory stays: speed [SAMPLES], 1,000,000 unless told otherwise.
 *
 * One thread, by processor time: a pose of 32 octets read, converted and written, and one of six doubles with floats as bits and as numbers, types
 * and readers opened, a front of 2,000 types, and a megabyte of octets. It fails where the memory of the process grows between the first 1,000
 * samples and the last. */
#define _POSIX_C_SOURCE 200809L
#include "octets.h"
#include "xt.h"
#include <time.h>

static const char older[] = "module geo { @appendable struct Pose { @key string<32> vehicle; long east; long north; }; };";
static const char newer[] = "module geo { @appendable struct Pose { @key string<32> vehicle; long east; long north; @optional long heading; }; };";
static const char floats[] = "module geo { @final struct Place { double east, north, height, roll, pitch, yaw; }; };";
static const char place[] = "{\"east\":12500.25,\"north\":-300.5,\"height\":0.1,\"roll\":1e-3,\"pitch\":-0.0,\"yaw\":3.141592653589793}";
static const char value[] = "{\"vehicle\":\"rover-7\",\"east\":12500,\"north\":-300}";

enum { MANY_TYPES = 2000, MEGABYTE = 1000000, MAY_GROW_KIB = 128 };

static uint8_t sample[64], place_sample[64], text[1024];
static size_t sample_size, place_size, needed;
static xt_types types = XT_NULL;
static xt_reader reader = XT_NULL, places = XT_NULL;

static double now(void) {
    struct timespec t;
    clock_gettime(CLOCK_PROCESS_CPUTIME_ID, &t);
    return (double)t.tv_sec + 1e-9 * (double)t.tv_nsec;
}

/* A line of /proc/self/status, in KiB; 0 where there is none. */
static long memory(const char *name) {
    char line[256];
    long kib = 0;
    FILE *file = fopen("/proc/self/status", "r");
    if (!file) return 0;
    while (fgets(line, sizeof line, file))
        if (!strncmp(line, name, strlen(name))) kib = strtol(line + strlen(name), NULL, 10);
    fclose(file);
    return kib;
}

static void must(uint32_t status, const char *what) {
    if (status == XT_OK) return;
    fprintf(stderr, "%s: status %u\n", what, (unsigned)status);
    exit(1);
}

/* ---- a small sample */

static void read_one(void) { must(xt_read(&reader, sample, sample_size, 0, text, sizeof text, &needed), "read"); }
static void convert_one(void) { must(xt_convert(&reader, sample, sample_size, XT_XCDR1, text, sizeof text, &needed), "convert"); }
static void write_one(void) { must(xt_write(&reader, OCTETS(value), XT_XCDR2, 0, text, sizeof text, &needed), "write"); }

static void read_bits(void) { must(xt_read(&places, place_sample, place_size, 0, text, sizeof text, &needed), "read bits"); }
static void read_numbers(void) { must(xt_read(&places, place_sample, place_size, XT_NUMBERS, text, sizeof text, &needed), "read numbers"); }
static void write_numbers(void) { must(xt_write(&places, OCTETS(place), XT_XCDR2, XT_NUMBERS, text, sizeof text, &needed), "write numbers"); }

static void open_one(void) {
    static struct octets bundle;
    if (!bundle.size) {
        put_idl(&bundle, older);
        put_idl(&bundle, newer);
    }
    must(xt_types_open(&types, bundle.at, bundle.size, text, sizeof text, &needed), "types");
}

static void open_reader(void) {
    must(xt_reader_open(&reader, &types, OCTETS("1/geo::Pose"), OCTETS("0/geo::Pose"), XT_XCDR2, 0, text, sizeof text, &needed), "reader");
}

struct timed {
    const char *what;
    void (*call)(void);
};

static const struct timed of_samples[] = {
    {"poses read into JSON", read_one}, {"poses converted to XCDR1", convert_one}, {"poses written from JSON", write_one},
    {"six doubles read into JSON, as bits", read_bits}, {"as numbers", read_numbers}, {"six doubles written from numbers", write_numbers}};
static const struct timed of_openings[] = {{"fronts of two types opened", open_one}, {"readers opened", open_reader}};

static void time_calls(const struct timed *all, size_t count, long times) {
    for (size_t k = 0; k < count; k++) {
        double begun = now();
        for (long i = 0; i < times; i++) all[k].call();
        printf("%s: %.0f a second\n", all[k].what, (double)times / (now() - begun));
    }
}

static void time_all(long samples, long openings) {
    printf("%ld samples, %ld openings\n", samples, openings);
    time_calls(of_samples, sizeof of_samples / sizeof *of_samples, samples);
    time_calls(of_openings, sizeof of_openings / sizeof *of_openings, openings);
}

/* Whether memory is after all samples what it was after the first 1,000. */
static int keeps_memory(long samples) {
    time_all(1000, 100);
    long rss = memory("VmRSS:"), most = memory("VmHWM:");
    time_all(samples, samples / 100);
    long rss_grew = memory("VmRSS:") - rss, most_grew = memory("VmHWM:") - most;
    printf("memory: %ld KiB, at most %ld KiB; it grew by %ld and %ld KiB\n", memory("VmRSS:"), memory("VmHWM:"), rss_grew, most_grew);
    return rss_grew <= MAY_GROW_KIB && most_grew <= MAY_GROW_KIB;
}

/* ---- many types, and much of one sample */

static void time_many_types(void) {
    struct octets idl = {0}, bundle = {0};
    xt_types many = XT_NULL;
    for (int k = 0; k < MANY_TYPES; k++) {
        char line[128];
        snprintf(line, sizeof line, "@appendable struct Type%d { @key string<32> vehicle; long east%d; long north; };\n", k, k);
        put_text(&idl, line);
    }
    put_record(&bundle, IDL, idl.at, idl.size);
    double begun = now();
    must(xt_types_open(&many, bundle.at, bundle.size, text, sizeof text, &needed), "many types");
    printf("a front of %d types opened: %.1f ms\n", MANY_TYPES, 1e3 * (now() - begun));
    begun = now();
    must(xt_type_id(&many, OCTETS("Type1999"), text, sizeof text, &needed), "an identifier among many");
    printf("the identifier of its last type: %.3f ms\n", 1e3 * (now() - begun));
    xt_types_close(&many);
    free_octets(&idl);
    free_octets(&bundle);
}

/* A sample of a megabyte: its encapsulation header, the count of its octets, and these. */
static void put_megabyte(struct octets *all) {
    static uint8_t octets[MEGABYTE];
    const uint8_t head[8] = {0, 7, 0, 0, MEGABYTE & 0xff, MEGABYTE >> 8 & 0xff, MEGABYTE >> 16 & 0xff, MEGABYTE >> 24};
    for (size_t i = 0; i < sizeof octets; i++) octets[i] = (uint8_t)i;
    put(all, head, sizeof head);
    put(all, octets, sizeof octets);
}

static void time_megabyte(void) {
    struct octets bundle = {0}, all = {0};
    xt_types large = XT_NULL;
    xt_reader reads = XT_NULL;
    put_idl(&bundle, "@final struct Large { sequence<octet> octets; };");
    put_megabyte(&all);
    must(xt_types_open(&large, bundle.at, bundle.size, text, sizeof text, &needed), "types");
    must(xt_reader_open(&reads, &large, OCTETS("Large"), OCTETS("Large"), XT_XCDR2, 0, text, sizeof text, &needed), "reader");
    size_t size = 4 * MEGABYTE;
    uint8_t *out = malloc(size);
    if (!out) exit(2);
    double begun = now();
    must(xt_read(&reads, all.at, all.size, 0, out, size, &needed), "read a megabyte");
    printf("a megabyte of octets read into %.1f of JSON: %.1f ms\n", 1e-6 * (double)needed, 1e3 * (now() - begun));
    begun = now();
    must(xt_convert(&reads, all.at, all.size, XT_XCDR1, out, size, &needed), "convert a megabyte");
    printf("a megabyte of octets converted: %.1f ms\n", 1e3 * (now() - begun));
    free(out);
    xt_reader_close(&reads);
    xt_types_close(&large);
    free_octets(&bundle);
    free_octets(&all);
}

static void open_places(void) {
    struct octets bundle = {0};
    xt_types of_places = XT_NULL;
    put_idl(&bundle, floats);
    must(xt_types_open(&of_places, bundle.at, bundle.size, text, sizeof text, &needed), "types");
    must(xt_reader_open(&places, &of_places, OCTETS("geo::Place"), OCTETS("geo::Place"), XT_XCDR2, 0, text, sizeof text, &needed), "reader");
    must(xt_write(&places, OCTETS(place), XT_XCDR2, XT_NUMBERS, place_sample, sizeof place_sample, &place_size), "write");
    xt_types_close(&of_places);
    free_octets(&bundle);
}

int main(int count, char **words) {
    long samples = count > 1 ? strtol(words[1], NULL, 10) : 1000000;
    open_one();
    open_reader();
    open_places();
    must(xt_write(&reader, OCTETS(value), XT_XCDR2, 0, sample, sizeof sample, &sample_size), "write");
    int kept = keeps_memory(samples);
    time_many_types();
    time_megabyte();
    xt_reader_close(&places);
    xt_reader_close(&reader);
    xt_types_close(&types);
    if (!kept) printf("wrong: memory grew\n");
    return !kept;
}
