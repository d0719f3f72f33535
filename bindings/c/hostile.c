/* Calls with anything: hostile [ROUNDS [SEED]], 100,000 rounds unless told otherwise.
 *
 * Damaged samples, bundles and JSON, random words, rooms too small, null pointers where a length is 0, closed and reopened handles. Of each call:
 * its status is one that the call has; octets behind the room or the answer are as they were; a handle answers the same after a refusal. The
 * rounds follow from the seed. The last line counts the calls by their statuses. */
#include "octets.h"
#include "xt.h"

static unsigned wrongs;

static void wrong(const char *what, const char *call, unsigned status) {
    if (wrongs++ < 20) printf("wrong: %s: %s (status %u)\n", call, what, status);
}

/* ---- numbers by a seed (splitmix64) */

static uint64_t state;

static uint64_t drawn(void) {
    uint64_t z = state += 0x9e3779b97f4a7c15;
    z = (z ^ (z >> 30)) * 0xbf58476d1ce4e5b9;
    z = (z ^ (z >> 27)) * 0x94d049bb133111eb;
    return z ^ (z >> 31);
}

static size_t below(size_t most) { return (size_t)(drawn() % most); }

/* ---- calls */

enum call { TYPES_OPEN, JUDGE, TYPE_ID, MINIMAL_ID, PRINT, PRINT_ALL, READER_OPEN, READ, CONVERT, KEY_HASH, WRITE, CALLS };

#define HAS(status) (1u << (status))
#define NAMED (HAS(XT_OK) | HAS(XT_WORDS) | HAS(XT_MEMORY) | HAS(XT_TYPES) | HAS(XT_NAME) | HAS(XT_CLOSED))
#define SAMPLED (HAS(XT_OK) | HAS(XT_MEMORY) | HAS(XT_CLOSED) | HAS(XT_ROOM) | HAS(XT_DISCARDED) | HAS(XT_MUST_UNDERSTAND) | HAS(XT_MALFORMED))

/* Each call with the statuses that it has. */
static const struct {
    const char *name;
    uint32_t statuses;
} calls[CALLS] = {
    [TYPES_OPEN] = {"xt_types_open", HAS(XT_OK) | HAS(XT_BUNDLE) | HAS(XT_MEMORY) | HAS(XT_TYPES)},
    [JUDGE] = {"xt_judge", NAMED | HAS(XT_NO)},
    [TYPE_ID] = {"xt_type_id", NAMED | HAS(XT_ROOM)},
    [MINIMAL_ID] = {"xt_minimal_id", NAMED | HAS(XT_ROOM)},
    [PRINT] = {"xt_print", NAMED | HAS(XT_ROOM)},
    [PRINT_ALL] = {"xt_print_all", HAS(XT_OK) | HAS(XT_MEMORY) | HAS(XT_CLOSED) | HAS(XT_ROOM)},
    [READER_OPEN] = {"xt_reader_open", NAMED | HAS(XT_NO)},
    [READ] = {"xt_read", SAMPLED | HAS(XT_WORDS)},
    [CONVERT] = {"xt_convert", SAMPLED | HAS(XT_WORDS) | HAS(XT_TOO_LARGE)},
    [KEY_HASH] = {"xt_key_hash", SAMPLED | HAS(XT_TOO_LARGE)},
    [WRITE] = {"xt_write", HAS(XT_OK) | HAS(XT_WORDS) | HAS(XT_MEMORY) | HAS(XT_JSON) | HAS(XT_CLOSED) | HAS(XT_ROOM)},
};

/* What is asked: `rep` is a representation, `flags` a policy where the call takes one. */
struct question {
    enum call call;
    xt_types *types;
    xt_reader *reader;
    const uint8_t *first;
    size_t first_size;
    const uint8_t *second;
    size_t second_size;
    uint32_t rep, flags;
};

static uint32_t ask(const struct question *q, uint8_t *room, size_t size, size_t *needed) {
    switch (q->call) {
    case TYPES_OPEN: return xt_types_open(q->types, q->first, q->first_size, room, size, needed);
    case JUDGE: return xt_judge(q->types, q->first, q->first_size, q->second, q->second_size, q->rep, q->flags, room, size, needed);
    case TYPE_ID: return xt_type_id(q->types, q->first, q->first_size, room, size, needed);
    case MINIMAL_ID: return xt_minimal_id(q->types, q->first, q->first_size, room, size, needed);
    case PRINT: return xt_print(q->types, q->first, q->first_size, room, size, needed);
    case PRINT_ALL: return xt_print_all(q->types, room, size, needed);
    case READER_OPEN:
        return xt_reader_open(q->reader, q->types, q->first, q->first_size, q->second, q->second_size, q->rep, q->flags, room, size, needed);
    case READ: return xt_read(q->reader, q->first, q->first_size, q->flags, room, size, needed);
    case CONVERT: return xt_convert(q->reader, q->first, q->first_size, q->rep, room, size, needed);
    case KEY_HASH: return xt_key_hash(q->reader, q->first, q->first_size, room, size, needed);
    case WRITE: return xt_write(q->reader, q->first, q->first_size, q->rep, q->flags, room, size, needed);
    case CALLS: break;
    }
    abort();
}

/* ---- the room of an answer, which is looked at behind each call */

enum { MOST_ROOM = 8192, BEHIND = 64, UNTOUCHED = 0xa5 };

static uint8_t room[MOST_ROOM + BEHIND];
static size_t needed;
static unsigned long counts[32];

static int is_untouched(size_t from, size_t to) {
    for (size_t i = from; i < to; i++)
        if (room[i] != UNTOUCHED) return 0;
    return 1;
}

static void check(const char *name, uint32_t statuses, uint32_t status, size_t size) {
    size_t written = needed <= size ? needed : 0;
    if (status >= 32 || !(statuses & HAS(status))) wrong("a status that the call doesn't have", name, status);
    else counts[status]++;
    if (status == XT_OK && needed > size) wrong("done, and yet it doesn't fit", name, status);
    if (status == XT_ROOM && needed <= size) wrong("it would fit", name, status);
    if ((status == XT_CLOSED || status == XT_MEMORY) && needed) wrong("a text where there is none", name, status);
    if (!is_untouched(written, size + BEHIND)) wrong("octets behind the answer were written", name, status);
}

static uint32_t asked(const struct question *q, size_t size) {
    memset(room, UNTOUCHED, size + BEHIND);
    needed = SIZE_MAX;
    uint8_t *at = size || below(2) ? room : NULL;
    uint32_t status = ask(q, at, size, &needed);
    check(calls[q->call].name, calls[q->call].statuses, status, size);
    return status;
}

static size_t any_room(void) {
    switch (below(4)) {
    case 0: return 0;
    case 1: return below(64);
    case 2: return below(1024);
    default: return MOST_ROOM;
    }
}

/* Asks with any room, and where the answer doesn't fit again with what it takes. */
static uint32_t asked_anyhow(const struct question *q) {
    uint32_t status = asked(q, any_room());
    size_t takes = needed;
    if (status != XT_ROOM || takes > MOST_ROOM) return status;
    status = asked(q, takes);
    if (status != XT_OK || needed != takes) wrong("another answer to the same question", calls[q->call].name, status);
    return status;
}

/* ---- types, readers, and samples of theirs */

static const char *const texts[] = {
    "module geo { @appendable struct Pose { @key string<32> vehicle; long east; long north; }; };",
    "module geo { @appendable struct Pose { @key string<32> vehicle; long east; long north; @optional long heading; }; };",
    "module geo { @mutable struct Track { @key @id(7) long long number; @id(2) sequence<long, 8> heights; @id(3) map<short, string<4>> names;"
    " @optional @id(4) octet colour[2][2]; }; @appendable union Shape switch (long) { case 1: long radius; case 2: case 3: string<8> name; };"
    " @final struct Scene { @key octet kind; Shape shape; sequence<Track> tracks; @optional double scale; boolean open; }; };",
};

/* The TypeObject of the first text's type, the complete one. */
static const uint8_t object[] = {
    0x70, 0, 0, 0, 0xf2, 0x51, 2, 0, 0x12, 0, 0, 0, 0, 0, 0, 0, 0x0a, 0, 0, 0, 'g', 'e', 'o', ':', ':', 'P', 'o', 's', 'e', 0, 0, 0,
    0x50, 0, 0, 0, 3, 0, 0, 0, 0x16, 0, 0, 0, 0, 0, 0, 0, 0x21, 0, 0x70, 0x20, 8, 0, 0, 0, 'v', 'e', 'h', 'i', 'c', 'l', 'e', 0,
    0, 0, 0, 0, 0x13, 0, 0, 0, 1, 0, 0, 0, 1, 0, 4, 0, 5, 0, 0, 0, 'e', 'a', 's', 't', 0, 0, 0, 0, 0x14, 0, 0, 0,
    2, 0, 0, 0, 1, 0, 4, 0, 6, 0, 0, 0, 'n', 'o', 'r', 't', 'h', 0, 0, 0};

static const struct {
    const char *reads, *writes, *json, *numbers;
} pairs[] = {
    {"1/geo::Pose", "0/geo::Pose", "{\"vehicle\":\"rover-7\",\"east\":12500,\"north\":-300,\"heading\":90}", "{}"},
    {"0/geo::Pose", "1/geo::Pose", "{\"vehicle\":\"rover-7\",\"east\":12500,\"north\":-300}", "{\"east\":1e2}"},
    {"geo::Track", "geo::Track", "{\"number\":7,\"heights\":[1,2,3],\"names\":[[1,\"a\"],[2,\"bc\"]],\"colour\":[1,2,3,4]}", "[]"},
    {"geo::Scene", "geo::Scene", "{\"kind\":1,\"shape\":{\"d\":2,\"v\":\"disc\"},\"tracks\":[{\"number\":1,\"heights\":[],\"names\":[]}],"
                                 "\"scale\":\"3ff0000000000000\",\"open\":true}",
     "{\"kind\":1,\"shape\":{\"d\":2,\"v\":\"disc\"},\"tracks\":[],\"scale\":-12.5e-3,\"open\":true}"},
};

enum { PAIRS = sizeof pairs / sizeof *pairs, READERS = 2 * PAIRS };

static struct octets bundle;
static xt_types types = XT_NULL;

/* A reader of each pair in each representation, with a sample and what it is as JSON. */
static struct {
    xt_reader reader;
    uint32_t rep;
    const char *json, *numbers;
    struct octets sample, text;
} readers[READERS];

static void keep(struct octets *kept) {
    kept->size = 0;
    put(kept, room, needed);
}

static void must(uint32_t status, const char *what) {
    if (status == XT_OK) return;
    printf("wrong: %s (status %u, %.*s)\n", what, (unsigned)status, needed <= MOST_ROOM ? (int)needed : 0, (const char *)room);
    exit(1);
}

static struct question of_types(enum call call, xt_types *handle, const uint8_t *word, size_t size) {
    return (struct question){.call = call, .types = handle, .first = word, .first_size = size};
}

static struct question of_reader(enum call call, size_t k, const uint8_t *octets, size_t size) {
    return (struct question){.call = call, .reader = &readers[k].reader, .first = octets, .first_size = size, .rep = readers[k].rep};
}

static struct question opening(xt_reader *reader, xt_types *handle, size_t k) {
    const char *reads = pairs[k % PAIRS].reads, *writes = pairs[k % PAIRS].writes;
    return (struct question){READER_OPEN, handle, reader, OCTETS(reads), OCTETS(writes), k < PAIRS ? XT_XCDR1 : XT_XCDR2, 0};
}

/* Where the pair isn't assignable in its representation, the reader's type reads itself. */
static void open_reader(size_t k) {
    struct question q = opening(&readers[k].reader, &types, k);
    readers[k].rep = q.rep;
    readers[k].json = pairs[k % PAIRS].json;
    readers[k].numbers = pairs[k % PAIRS].numbers;
    if (asked(&q, MOST_ROOM) == XT_NO) {
        q.second = q.first;
        q.second_size = q.first_size;
        must(asked(&q, MOST_ROOM), "a reader doesn't open");
    }
}

static void keep_sample(size_t k) {
    struct question q = of_reader(WRITE, k, OCTETS(readers[k].json));
    must(asked(&q, MOST_ROOM), "a value isn't written");
    keep(&readers[k].sample);
    q = of_reader(READ, k, readers[k].sample.at, readers[k].sample.size);
    must(asked(&q, MOST_ROOM), "a sample isn't read");
    keep(&readers[k].text);
}

static void open_all(void) {
    for (size_t k = 0; k < sizeof texts / sizeof *texts; k++) put_idl(&bundle, texts[k]);
    put_record(&bundle, OBJECT, object, sizeof object);
    struct question q = of_types(TYPES_OPEN, &types, bundle.at, bundle.size);
    must(asked(&q, MOST_ROOM), "the types don't open");
    for (size_t k = 0; k < READERS; k++) {
        open_reader(k);
        keep_sample(k);
    }
}

static void close_all(void) {
    xt_types_close(&types);
    for (size_t k = 0; k < READERS; k++) {
        xt_reader_close(&readers[k].reader);
        xt_reader_close(&readers[k].reader);
        free_octets(&readers[k].sample);
        free_octets(&readers[k].text);
    }
    free_octets(&bundle);
}

static void reads_the_same(size_t k) {
    struct question q = of_reader(READ, k, readers[k].sample.at, readers[k].sample.size);
    uint32_t status = asked(&q, MOST_ROOM);
    if (status != XT_OK || needed != readers[k].text.size || memcmp(room, readers[k].text.at, needed)) wrong("not as before", "xt_read", status);
}

/* What is read with floats as numbers is written as the sample again. */
static void comes_back(size_t k) {
    struct octets text = {0};
    struct question q = of_reader(READ, k, readers[k].sample.at, readers[k].sample.size);
    q.flags = XT_NUMBERS;
    must(asked(&q, MOST_ROOM), "a sample isn't read with numbers");
    keep(&text);
    q = of_reader(WRITE, k, text.at, text.size);
    q.flags = XT_NUMBERS;
    uint32_t status = asked(&q, MOST_ROOM);
    if (status != XT_OK || needed != readers[k].sample.size || memcmp(room, readers[k].sample.at, needed)) wrong("another sample", "xt_write", status);
    free_octets(&text);
}

static void names_the_same(void) {
    static const char id[] = "f2ee51fe8eaf794131137bbb7266ca";
    struct question q = of_types(TYPE_ID, &types, OCTETS("0/geo::Pose"));
    uint32_t status = asked(&q, MOST_ROOM);
    if (status != XT_OK || needed != strlen(id) || memcmp(room, id, needed)) wrong("not as before", "xt_type_id", status);
}

/* ---- damage. Octets that are handed over lie in memory of just their size, so that a reading behind them is seen. */

static void damage(struct octets *all) {
    for (size_t times = 1 + below(4); times; times--) switch (all->size ? below(6) : 5) {
        case 0: all->at[below(all->size)] ^= (uint8_t)(1 << below(8)); break;
        case 1: all->at[below(all->size)] = (uint8_t)drawn(); break;
        case 2: all->at[below(all->size)] = below(2) ? 0 : 0xff; break;
        case 3: all->size = below(all->size + 1); break;
        case 4: memmove(all->at, all->at + 1, --all->size); break;
        default: put(all, (uint8_t[]){(uint8_t)drawn()}, 1);
        }
}

static struct octets noise(void) {
    struct octets all = {0};
    for (size_t left = below(48); left; left--) put(&all, (uint8_t[]){(uint8_t)drawn()}, 1);
    return all;
}

static struct octets damaged(const void *octets, size_t size) {
    struct octets all = {0}, just = {0};
    put(&all, octets, size);
    damage(&all);
    put(&just, all.at, all.size);
    free_octets(&all);
    return just;
}

static uint32_t any_rep(void) { return below(16) ? (uint32_t)(1 + below(2)) : (uint32_t)drawn(); }
static uint32_t any_flags(void) { return below(32) ? (uint32_t)below(2) : (uint32_t)drawn(); }
static uint32_t any_policy(void) { return below(16) ? (uint32_t)below(16) : (uint32_t)drawn(); }

/* ---- rounds */

static void damaged_sample(void) {
    static const enum call asks[] = {READ, CONVERT, KEY_HASH};
    size_t k = below(READERS);
    struct octets sample = below(8) ? damaged(readers[k].sample.at, readers[k].sample.size) : noise();
    struct question q = of_reader(asks[below(3)], k, sample.at, sample.size);
    if (q.call == CONVERT) q.rep = any_rep();
    if (q.call == READ) q.flags = any_flags();
    uint32_t status = asked_anyhow(&q);
    if (q.flags > XT_NUMBERS && status != XT_WORDS) wrong("a flag without a meaning", calls[q.call].name, status);
    free_octets(&sample);
    reads_the_same(k);
    comes_back(k);
}

static void damaged_json(void) {
    size_t k = below(READERS);
    const char *whole = below(2) ? readers[k].json : readers[k].numbers;
    struct octets json = below(8) ? damaged(OCTETS(whole)) : noise();
    struct question q = of_reader(WRITE, k, json.at, json.size);
    q.rep = any_rep();
    q.flags = any_flags();
    uint32_t status = asked_anyhow(&q);
    if (q.flags > XT_NUMBERS && status != XT_WORDS) wrong("a flag without a meaning", calls[q.call].name, status);
    free_octets(&json);
    reads_the_same(k);
}

/* Opens a damaged bundle into a handle that holds types: where it is refused, the handle is null. */
static void damaged_bundle(void) {
    xt_types other = XT_NULL;
    struct octets octets = below(8) ? damaged(bundle.at, bundle.size) : noise();
    struct question good = of_types(TYPES_OPEN, &other, bundle.at, bundle.size), bad = of_types(TYPES_OPEN, &other, octets.at, octets.size);
    if (below(2)) must(asked(&good, MOST_ROOM), "the types don't open again");
    uint32_t status = asked_anyhow(&bad);
    if ((status == XT_OK) != (other.at != NULL)) wrong("a handle that holds what was refused", "xt_types_open", status);
    struct question q = of_types(PRINT_ALL, &other, NULL, 0);
    if ((asked_anyhow(&q) == XT_CLOSED) != (other.at == NULL)) wrong("a handle that answers otherwise", "xt_print_all", status);
    xt_types_close(&other);
    xt_types_close(&other);
    free_octets(&octets);
    names_the_same();
}

static struct octets any_word(void) {
    static const char *const words[] = {"geo::Pose", "0/geo::Pose", "1/geo::Pose", "2/geo::Track", "geo::Shape", "geo::Scene", "3/geo::Pose",
                                        "9/geo::Pose", "#f2ee51fe8eaf794131137bbb7266ca", "#f153cd5b445b09b409ba4b45228e6e", "geo::Plan", ""};
    const char *word = words[below(sizeof words / sizeof *words)];
    struct octets all = {0};
    if (below(8) == 0) return noise();
    if (below(2)) return damaged(OCTETS(word));
    put(&all, OCTETS(word));
    return all;
}

static void any_words(void) {
    static const enum call asks[] = {JUDGE, TYPE_ID, MINIMAL_ID, PRINT, READER_OPEN};
    struct octets first = any_word(), second = any_word();
    xt_reader other = XT_NULL;
    struct question q = {asks[below(5)], &types, &other, first.at, first.size, second.at, second.size, any_rep(), any_policy()};
    struct question before = opening(&other, &types, READERS - 1);
    if (q.call == READER_OPEN && below(2)) must(asked(&before, MOST_ROOM), "a reader doesn't open again");
    uint32_t status = asked_anyhow(&q);
    if ((other.at != NULL) != (q.call == READER_OPEN && status == XT_OK)) wrong("a handle that holds what was refused", calls[q.call].name, status);
    xt_reader_close(&other);
    xt_reader_close(&other);
    free_octets(&first);
    free_octets(&second);
    names_the_same();
}

/* Each call over null handles, with nothing at null pointers. */
static void closed_handles(void) {
    xt_types no_types = XT_NULL;
    xt_reader no_reader = XT_NULL;
    for (enum call call = JUDGE; call < CALLS; call++) {
        struct question q = {call, &no_types, &no_reader, NULL, 0, NULL, 0, XT_XCDR2, 0};
        uint32_t status = asked(&q, any_room());
        if (status != XT_CLOSED) wrong("a null handle that isn't closed", calls[call].name, status);
    }
}

/* A reader that is opened among no types is closed, whatever it held. */
static void opened_among_none(void) {
    xt_types none = XT_NULL;
    xt_reader other = XT_NULL;
    struct question before = opening(&other, &types, READERS - 1), q = opening(&other, &none, READERS - 1);
    must(asked(&before, MOST_ROOM), "a reader doesn't open again");
    if (asked(&q, any_room()) != XT_CLOSED || other.at) wrong("a reader among no types", "xt_reader_open", XT_CLOSED);
    xt_reader_close(&other);
}

/* Each call with nothing at null pointers; opening nothing gives no types. */
static void nothing_at_null(void) {
    xt_types none = XT_NULL;
    xt_reader other = XT_NULL;
    struct question q = of_types(TYPES_OPEN, &none, NULL, 0);
    must(asked(&q, 0), "a bundle of nothing doesn't open");
    xt_types_close(&none);
    for (enum call call = JUDGE; call < CALLS; call++) {
        xt_reader *reader = call == READER_OPEN ? &other : &readers[below(READERS)].reader;
        q = (struct question){call, &types, reader, NULL, 0, NULL, 0, XT_XCDR2, 0};
        uint32_t status = asked_anyhow(&q);
        if (status == XT_OK && call != PRINT_ALL) wrong("an answer to nothing", calls[call].name, status);
    }
}

/* A reader that is closed, and opened again into the same handle, answers as before; and so do readers whose types are closed. */
static void reopened_handles(void) {
    size_t k = below(READERS);
    struct question q = of_types(TYPES_OPEN, &types, bundle.at, bundle.size), read = of_reader(READ, k, readers[k].sample.at, readers[k].sample.size);
    if (below(2)) xt_types_close(&types);
    reads_the_same(k);
    must(asked(&q, MOST_ROOM), "the types don't open again");
    if (below(2)) {
        xt_reader_close(&readers[k].reader);
        if (asked(&read, any_room()) != XT_CLOSED) wrong("a closed handle that answers", "xt_read", XT_CLOSED);
    }
    open_reader(k);
    reads_the_same(k);
    names_the_same();
}

static void round_of(size_t number) {
    switch (number % 16) {
    case 0: closed_handles(); opened_among_none(); break;
    case 1: nothing_at_null(); break;
    case 2: reopened_handles(); break;
    case 3: case 4: damaged_bundle(); break;
    case 5: case 6: case 7: case 8: any_words(); break;
    case 9: case 10: case 11: damaged_json(); break;
    default: damaged_sample();
    }
}

static void say_counts(size_t rounds) {
    printf("%zu rounds, calls by status:", rounds);
    for (unsigned status = 0; status < 32; status++)
        if (counts[status]) printf(" %u: %lu", status, counts[status]);
    printf("; %u wrong\n", wrongs);
}

int main(int count, char **words) {
    size_t rounds = count > 1 ? strtoul(words[1], NULL, 10) : 100000;
    state = count > 2 ? strtoull(words[2], NULL, 10) : 1;
    open_all();
    for (size_t number = 0; number < rounds; number++) round_of(number);
    close_all();
    say_counts(rounds);
    return wrongs != 0;
}
