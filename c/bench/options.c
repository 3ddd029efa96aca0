/* The words of the programs. options.h says what each function is for. */
#include "options.h"
#include "words.h"
#include <math.h>
#include <stddef.h>
#include <stdio.h>
#include <stdlib.h>
#include <string.h>

typedef enum word_kind {
    A_FLAG,
    A_TEXT,
    A_COUNT,
    A_COUNT32,
    SOME_BYTES,
    A_NUMBER,
    A_DISTRIBUTION,
    SOME_SIZES,
    A_PATTERN,
    A_MIX,
    AN_AMOUNT
} word_kind;

/* Words of one group are refused together beside a word that makes them mean nothing. */
typedef enum word_group { OF_KEYS, OF_RUN, OF_CACHE, OF_SHAPE, OF_SERVER, OF_REPORT, OF_RIVALS, GROUPS } word_group;

static const char *const headings[GROUPS] = {"Keys and values",
                                             "The run",
                                             "The cache",
                                             "Its shape: all seven, in place of --flash and --memory",
                                             "A server in place of the cache",
                                             "The report",
                                             "The rivals"};

typedef struct word_row {
    const char *name, *value; /* value: what stands after it, NULL for a flag */
    word_group group;
    unsigned programs;
    word_kind kind;
    size_t place; /* in bench_options */
    double least, most;
    const char *field; /* of kangaroo_options, as the library names it */
    const char *help;
} word_row;

#define BOTH (THE_DRIVER | THE_RIVALS)
#define OPENED (THE_DRIVER | THE_OPENING)
#define AT(member) offsetof(bench_options, member)
enum { OBJECT_MOST = KANGAROO_KEY_MAX + KANGAROO_VALUE_MAX };

static const word_row rows[] = {
    {"--keys", "N", OF_KEYS, BOTH, A_COUNT, AT(keys), 2, 1e15, NULL, "how many keys there are; 1M if not given"},
    {"--distribution", "D", OF_KEYS, BOTH, A_DISTRIBUTION, AT(drawn), 0, 0, NULL,
     "uniform; zipf:EXPONENT, the exponent above 0 and up to 0.999; hot:KEYS:REQUESTS, shares of 1, as "
     "hot:0.1:0.9; zipf:0.9 if not given"},
    {"--key-bytes", "N", OF_KEYS, BOTH, A_COUNT32, AT(key_bytes), KEY_BYTES_LEAST, KEY_BYTES_MOST, NULL,
     "bytes of a key, 16 to 250; 16 if not given"},
    {"--mix", "G:P:R", OF_KEYS, BOTH, A_MIX, AT(percent), 0, 100, NULL,
     "per cent of gets, puts and removals; 100:0:0 if not given, and of plain 90:9:1. A look-aside load has no "
     "puts"},
    {"--expiry", "SECONDS", OF_KEYS, THE_DRIVER, A_COUNT, AT(expiry), 1, 2592000, NULL,
     "what is put expires after so many seconds; never if not given"},
    {"--sizes", "S", OF_RUN, BOTH, SOME_SIZES, AT(values), 0, 0, NULL,
     "bytes of values, fixed by key: fixed:N, uniform:A:B, lognormal:MEAN:SIGMA; fixed:100 if not given. A "
     "replay takes it where a line knows no size"},
    {"--pattern", "P", OF_RUN, BOTH, A_PATTERN, AT(is_plain), 0, 0, NULL,
     "lookaside (after a miss the value is filled in, with the miss's lease) or plain (a miss stays a miss); "
     "lookaside if not given"},
    {"--replay", "FILE", OF_RUN, BOTH, A_TEXT, AT(replay), 0, 0, NULL,
     "the calls of a trace, to its end: key,op,size,op_count,key_size (CacheLib) or time,key,key size,value "
     "size,client,operation,TTL (Twitter); - is the standard input. The trace's clock decides what has expired in a "
     "cache. Of several threads each takes some lines at a time, so calls may pass each other"},
    {"--threads", "N", OF_RUN, THE_DRIVER, A_COUNT32, AT(threads), 1, 256, NULL,
     "threads that call, 1 to 256; 1 if not given"},
    {"--seconds", "N", OF_RUN, THE_DRIVER, A_COUNT, AT(seconds), 1, 1e6, NULL, "ends after so many seconds"},
    {"--operations", "N", OF_RUN, BOTH | THE_CALLS, A_COUNT, AT(operations), 1, 1e15, NULL,
     "ends after so many gets, puts and removals; a fill belongs to its get"},
    {"--warmup", "N[s]", OF_RUN, BOTH, AN_AMOUNT, AT(warmup), 1, 1e15, NULL,
     "runs before all that so many operations (5M) or seconds (30s), which no figure of after the warm-up "
     "counts; none if not given"},
    {"--rate", "N", OF_RUN, THE_DRIVER, A_NUMBER, AT(rate), 0.001, 1e9, NULL,
     "operations a second, of all threads; latencies then count from the moment that a call was due. As fast as "
     "they go if not given"},
    {"--seed", "N", OF_RUN, BOTH, A_COUNT, AT(seed), 0, 1e18, NULL, "draws another stream; 1 if not given"},
    {"--folder", "FOLDER", OF_CACHE, OPENED | THE_CALLS, A_TEXT, AT(folder), 0, 0, NULL,
     "opens a cache in this folder, which is there; what its files held is lost"},
    {"--flash", "BYTES", OF_CACHE, BOTH | THE_OPENING, SOME_BYTES, AT(cache.flash_bytes), 12288, 1e18, "flash_bytes",
     "bytes of files; 1G if not given"},
    {"--memory", "BYTES", OF_CACHE, BOTH | THE_OPENING, SOME_BYTES, AT(cache.memory_bytes), 1024, 1e18, "memory_bytes",
     "bytes of memory; 128M if not given"},
    {"--object-bytes", "N", OF_CACHE, BOTH | THE_OPENING, A_COUNT32, AT(cache.object_bytes), 1, OBJECT_MOST, "object_bytes",
     "key and value of a typical object, 1 to 2303; if not given, --key-bytes and the mean of --sizes"},
    {"--cache-threads", "N", OF_CACHE, OPENED, A_COUNT32, AT(cache.threads), 1, 4096, "threads",
     "callers that the cache is laid out for, 1 to 4096; --threads if not given"},
    {"--threshold", "N", OF_CACHE, OPENED, A_COUNT32, AT(cache.threshold), 1, 32, "threshold",
     "the fewest objects that move to a set together, 1 to 32; worked out from --object-bytes if not given"},
    {"--admit", "PERCENT", OF_CACHE, BOTH, A_NUMBER, AT(admit), 0, 100, "admit",
     "how many of 100 objects that leave memory go to flash; 100 if not given"},
    {"--bring-back", "N", OF_CACHE, OPENED, A_COUNT32, AT(cache.bring_back), 0, UINT32_MAX, "bring_back",
     "of N hits on flash one has its object brought back into memory, 0 for none; 8 if not given"},
    {"--upkeep-threads", "N", OF_CACHE, OPENED, A_COUNT32, AT(cache.upkeep_threads), 0, 16, "upkeep_threads",
     "threads of the cache's own, 0 to 16; 1 if not given"},
    {"--lease-slots", "N", OF_CACHE, OPENED, A_COUNT32, AT(cache.lease_slots), 1, 1048576, "lease_slots",
     "lease slots of a lane, 1 to 1048576; worked out if not given"},
    {"--sparse", NULL, OF_CACHE, OPENED | THE_CALLS, A_FLAG, AT(is_sparse), 0, 0, "flags",
     "does not reserve the files' blocks"},
    {"--shards", "N", OF_SHAPE, OPENED, A_COUNT32, AT(cache.shards), 1, 1024, "shards",
     "groups of lanes, 1 to 1024"},
    {"--lanes", "N", OF_SHAPE, OPENED, A_COUNT32, AT(cache.lanes), 1, 16, "lanes", "lanes of a shard, 1 to 16"},
    {"--sets", "N", OF_SHAPE, OPENED, A_COUNT32, AT(cache.sets), 1, 65536, "sets", "sets of a lane, 1 to 65536"},
    {"--memory-objects", "N", OF_SHAPE, OPENED, A_COUNT32, AT(cache.memory_objects), 1, 1048576, "memory_objects",
     "objects of a lane in memory, 1 to 1048576"},
    {"--segments", "N", OF_SHAPE, OPENED, A_COUNT32, AT(cache.segments), 2, 256, "segments",
     "segments of a lane's log, 2 to 256"},
    {"--segment-pages", "N", OF_SHAPE, OPENED, A_COUNT32, AT(cache.segment_pages), 1, 64, "segment_pages",
     "pages of a segment, 1 to 64"},
    {"--log-objects", "N", OF_SHAPE, OPENED, A_COUNT32, AT(cache.log_objects), 1, 1048576, "log_objects",
     "objects that a lane's log can hold, 1 to 1048576"},
    {"--memcached", "SERVER", OF_SERVER, THE_DRIVER, A_TEXT, AT(server), 0, 0, NULL,
     "HOST:PORT or the PATH of a socket, which has a / in it: sends the same stream to a server of memcached's "
     "text protocol, a connection a thread. What it holds is lost, unless --keep is given. A fill after a miss "
     "is a set: the protocol has no lease"},
    {"--pipeline", "N", OF_SERVER, THE_DRIVER, A_COUNT32, AT(pipeline), 1, 256, NULL,
     "requests that a connection sends at once before it reads answers, 1 to 256; 1 if not given"},
    {"--keep", NULL, OF_SERVER, THE_DRIVER, A_FLAG, AT(keeps), 0, 0, NULL,
     "leaves what the server holds; an older value that another --sizes made is then a wrong hit. If not given, "
     "flush_all empties the server first"},
    {"--server-process", "PID", OF_SERVER, THE_DRIVER, A_COUNT, AT(server_process), 1, 4194304, NULL,
     "a server of this machine: its own memory is reported, and what it used of processors for each request"},
    {"--series", "FILE", OF_REPORT, THE_DRIVER, A_TEXT, AT(series), 0, 0, NULL,
     "writes a line of figures each second, with a first line of their names"},
    {"--json", NULL, OF_REPORT, BOTH, A_FLAG, AT(is_json), 0, 0, NULL, "prints the report as JSON"},
    {"--index-bits", "N", OF_RIVALS, THE_RIVALS, A_NUMBER, AT(index_bits), 1, 512, NULL,
     "memory of the log-structured cache for each object on flash; 30 if not given"},
    {"--filter-bits", "N", OF_RIVALS, THE_RIVALS, A_NUMBER, AT(filter_bits), 0, 512, NULL,
     "memory of the set-associative cache for each object on flash; 4 if not given"},
    {"--memory-overhead", "BYTES", OF_RIVALS, THE_RIVALS, A_COUNT32, AT(overhead), 0, 4096, NULL,
     "memory of an object in memory beside its key and value; 60 if not given"},
    {"--bring-back", NULL, OF_RIVALS, THE_RIVALS, A_FLAG, AT(brings_back), 0, 0, NULL,
     "a hit on flash brings the object back into memory; if not given it stays where it is"},
};

enum { ROWS = sizeof rows / sizeof rows[0] };
_Static_assert(ROWS <= 64, "bench_options.given has a bit for each word");

/* ------------------------------------------------------------------------------------------------------ reading one */

static bool is_given(const bench_options *of, const char *name) {
    for (int i = 0; i < ROWS; i++)
        if (strcmp(rows[i].name, name) == 0) return of->given >> i & 1;
    return false;
}

/* The first word of a group that was given, or NULL. */
static const char *given_of(const bench_options *of, word_group group) {
    for (int i = 0; i < ROWS; i++)
        if (rows[i].group == group && (of->given >> i & 1)) return rows[i].name;
    return NULL;
}

static bool read_amount(const char *word, amount *to) {
    char digits[32];
    size_t length = strlen(word);
    to->is_seconds = length > 1 && word[length - 1] == 's';
    if (!to->is_seconds) return read_count(word, &to->number);
    if (length >= sizeof digits) return false;
    memcpy(digits, word, length - 1);
    digits[length - 1] = 0;
    return read_count(digits, &to->number);
}

static bool read_pattern(const char *word, bool *is_plain) {
    *is_plain = strcmp(word, "plain") == 0;
    return *is_plain || strcmp(word, "lookaside") == 0;
}

static bool read_mix(const char *word, double percent[ACTS]) {
    return read_numbers(word, percent, ACTS) &&
           fabs(percent[ACT_GET] + percent[ACT_PUT] + percent[ACT_REMOVE] - 100) < 1e-9;
}

static bool is_within(const word_row *row, double number) { return number >= row->least && number <= row->most; }

static bool read_count_within(const word_row *row, const char *word, uint64_t *to) {
    bool is_read = row->kind == SOME_BYTES ? read_bytes(word, to) : read_count(word, to);
    return is_read && is_within(row, (double)*to);
}

static bool read_count32_within(const word_row *row, const char *word, uint32_t *to) {
    uint64_t number = 0;
    bool is_read = read_count(word, &number) && is_within(row, (double)number);
    *to = (uint32_t)number;
    return is_read;
}

/* Reads the value of a word into its place. */
static bool read_value(const word_row *row, const char *word, void *place) {
    switch (row->kind) {
        case A_FLAG: break; /* has no value */
        case A_TEXT: *(const char **)place = word; return word[0] != 0;
        case A_COUNT:
        case SOME_BYTES: return read_count_within(row, word, place);
        case A_COUNT32: return read_count32_within(row, word, place);
        case A_NUMBER: return read_number(word, place) && is_within(row, *(double *)place);
        case A_DISTRIBUTION: return read_distribution(word, place);
        case SOME_SIZES: return read_sizes(word, place);
        case A_PATTERN: return read_pattern(word, place);
        case A_MIX: return read_mix(word, place);
        case AN_AMOUNT: return read_amount(word, place) && is_within(row, (double)((amount *)place)->number);
    }
    return false;
}

/* The row of a word such as --keys or --keys=5, for a program that takes it. */
static const word_row *row_of(program who, const char *word, size_t length) {
    for (int i = 0; i < ROWS; i++)
        if ((rows[i].programs & who) && strlen(rows[i].name) == length && memcmp(rows[i].name, word, length) == 0)
            return &rows[i];
    return NULL;
}

/* Reads the word at a place, and its value; the place after both. */
static int read_word(program who, int at, int count, char **words, bench_options *to) {
    const char *word = words[at], *equals = strchr(word, '=');
    const word_row *row = row_of(who, word, equals != NULL ? (size_t)(equals - word) : strlen(word));
    if (row == NULL) refuse_words("%s is no option: --help names all", word);
    uint64_t bit = 1ull << (row - rows);
    if (to->given & bit) refuse_words("%s is given twice: leave one out", row->name);
    to->given |= bit;
    const char *value = equals != NULL ? equals + 1 : NULL;
    if (row->kind == A_FLAG) {
        if (value != NULL) refuse_words("%s takes no value: leave =%s out", row->name, value);
        *(bool *)((char *)to + row->place) = true;
        return at + 1;
    }
    if (value == NULL) {
        if (at + 1 == count)
            refuse_words("%s has no value: %s %s is wanted (%s)", row->name, row->name, row->value, row->help);
        value = words[++at];
    }
    if (!read_value(row, value, (char *)to + row->place))
        refuse_words("%s %s is wrong: %s", row->name, value, row->help);
    return at + 1;
}

/* ------------------------------------------------------------------------------------------------------------- help */

/* Prints a text in lines of at most 100 columns, each after so many blanks; the first is begun. */
static void print_wrapped(const char *text, int indent) {
    int column = indent;
    while (*text != 0) {
        int length = (int)strcspn(text, " ");
        if (column > indent && column + 1 + length > 100) column = indent + printf("\n%*s", indent, "") - 1 - indent;
        else if (column > indent) column += printf(" ");
        column += printf("%.*s", length, text);
        text += length;
        text += strspn(text, " ");
    }
    printf("\n");
}

static void print_rows(program who, word_group group) {
    enum { INDENT = 28 };
    for (int i = 0; i < ROWS; i++) {
        if (rows[i].group != group || !(rows[i].programs & who)) continue;
        int column = printf("  %s %s", rows[i].name, rows[i].value != NULL ? rows[i].value : "");
        printf("%*s", column < INDENT ? INDENT - column : 1, "");
        print_wrapped(rows[i].help, INDENT);
    }
}

static bool has_rows(program who, word_group group) {
    for (int i = 0; i < ROWS; i++)
        if (rows[i].group == group && (rows[i].programs & who)) return true;
    return false;
}

static const char driver_help[] =
    "usage: kangaroo-bench --folder FOLDER (--seconds N | --operations N | --replay FILE) [OPTION]..\n"
    "       kangaroo-bench --memcached SERVER (--seconds N | --operations N | --replay FILE) [OPTION]..\n"
    "       kangaroo-bench calls --folder FOLDER [OPTION]..     what single calls take; calls --help says how\n"
    "       kangaroo-bench memory --folder FOLDER [OPTION]..    what an opening takes; memory --help says how\n\n"
    "Measures a cache under a load: operations a second, hit ratio, bytes written to flash, memory, latencies.\n"
    "It checks each hit's bytes against its key. It prints the report at the end.\n\n"
    "  kangaroo-bench --folder /flash --flash 64G --memory 4G --keys 1G --distribution zipf:0.9 --threads 8 \\\n"
    "      --warmup 600s --seconds 60 --series run.csv --json > run.json\n"
    "  zstdcat cluster.zst | kangaroo-bench --folder /flash --flash 64G --memory 4G --replay -\n";
static const char calls_help[] =
    "usage: kangaroo-bench calls --folder FOLDER [OPTION]..\n\n"
    "Measures what calls take, through the header, and reads no clock for each: keys of 16 bytes, values of 100,\n"
    "256 MiB of files and 32 MiB of memory. First one thread: nanoseconds of a put, of a get by the tier that has\n"
    "the value, of a get of nothing, and of a removal. Then operations a second of 1, 2 and 4 threads: gets alone,\n"
    "and 70 gets, 28 puts and 2 removals of 100. Then the process's own memory before and after ten times as many\n"
    "operations. --operations is 1M if not given, and half as many keys are put.\n";
static const char opening_help[] =
    "usage: kangaroo-bench memory --folder FOLDER [OPTION]..\n\n"
    "Opens a cache, and prints the estimate of kangaroo_sizes_of, the memory of the process's own that the opening\n"
    "took, and both as bits for each object that the sets have room for. Two runs whose shapes differ in one number\n"
    "show what one set takes, or one place of a log's index. --object-bytes is 116 if not given, --cache-threads 1.\n";
static const char rivals_help[] =
    "usage: rivals (--operations N | --replay FILE) [OPTION]..\n\n"
    "Simulates two other designs on the stream that kangaroo-bench makes of the same words with one thread:\n"
    "hit ratio, and bytes written to flash for each byte stored. No device is touched.\n\n"
    "  set-associative   a memory cache (the least recently used leaves), and what leaves it goes at once to a\n"
    "                    page of 4,096 bytes by the key's hash, where the oldest objects make room: each object\n"
    "                    costs a page\n"
    "  log-structured    the same memory cache, and what leaves it goes to the end of a log of pages, which the\n"
    "                    oldest objects leave; its index in memory takes --index-bits an object, so with little\n"
    "                    memory it can use only a part of the flash. The index takes at most 90 of 100 bytes\n\n"
    "Simplified: an object on flash takes 12 bytes beside key and value, and a page has room for 4,078. Pages\n"
    "are counted, and not blocks of the device. Filters are free of false hits. Nothing expires. A removal, or\n"
    "a newer value that is not admitted, costs the set-associative cache a page if the set has the key. FIFO\n"
    "is by object.\n\n"
    "The program itself takes memory of up to a third of --flash, and with --replay three quarters: sizes may\n"
    "be small.\n";

static const char *help_of(program who) {
    switch (who) {
        case THE_DRIVER: return driver_help;
        case THE_CALLS: return calls_help;
        case THE_OPENING: return opening_help;
        case THE_RIVALS: break;
    }
    return rivals_help;
}

static _Noreturn void print_help(program who) {
    fputs(help_of(who), stdout);
    for (word_group group = OF_KEYS; group < GROUPS; group++) {
        if (!has_rows(who, group)) continue;
        printf("\n%s\n", headings[group]);
        print_rows(who, group);
    }
    printf("\n  --help                    prints this\n\n"
           "Counts take K, M and G after them for 10^3, 10^6 and 10^9; bytes take K, M, G and T for 2^10, 2^20, 2^30 "
           "and 2^40.\n"
           "--word=value is the same as --word value.\n");
    const char *refusing = who == THE_DRIVER ? ", the cache or the server" : who == THE_RIVALS ? "" : " or the cache";
    printf("Statuses: 0 right; %s2 bad words; 3 the system%s refused.\n", who == THE_DRIVER ? "1 a hit was wrong; " : "", refusing);
    exit(STATUS_RIGHT);
}

/* ------------------------------------------------------------------------------------------------------------ rules */

static void refuse_group(const bench_options *of, word_group group, const char *beside, const char *why) {
    const char *word = given_of(of, group);
    if (word != NULL) refuse_words("%s means nothing %s: %s; leave it out", word, beside, why);
}

static void check_target(program who, const bench_options *of) {
    if (of->folder == NULL && of->server == NULL)
        refuse_words("--folder is missing: name a folder for the cache%s", who == THE_DRIVER ? ", or a server by --memcached" : "");
    if (of->server == NULL) {
        refuse_group(of, OF_SERVER, "without --memcached", "it is of a connection");
        return;
    }
    refuse_group(of, OF_CACHE, "beside --memcached", "the server has its own options");
    refuse_group(of, OF_SHAPE, "beside --memcached", "the server has its own options");
}

static void check_limits(const bench_options *of) {
    if (of->replay != NULL) refuse_group(of, OF_KEYS, "beside --replay", "the trace brings it");
    if (of->seconds > 0 && of->operations > 0) refuse_words("--seconds and --operations are both given: leave one out");
    if (of->replay == NULL && of->seconds == 0 && of->operations == 0)
        refuse_words("nothing ends the run: give --operations, --replay or, to kangaroo-bench, --seconds");
}

static void check_load(bench_options *of) {
    if (!is_given(of, "--mix")) {
        of->percent[ACT_GET] = of->is_plain ? 90 : 100;
        of->percent[ACT_PUT] = of->is_plain ? 9 : 0;
        of->percent[ACT_REMOVE] = of->is_plain ? 1 : 0;
    }
    if (!of->is_plain && of->percent[ACT_PUT] > 0)
        refuse_words("--mix has puts, and a look-aside load has none: give --pattern plain, or 0 per cent of puts");
}

static uint32_t typical_object(const bench_options *of) {
    uint32_t bytes = of->key_bytes + (uint32_t)lround(mean_size(&of->values));
    return bytes < OBJECT_MOST ? bytes : OBJECT_MOST;
}

/* Of all programs but the rivals. */
static void check_cache(program who, bench_options *of) {
    check_target(who, of);
    if (given_of(of, OF_SHAPE) != NULL) {
        if (is_given(of, "--flash"))
            refuse_words("--flash means nothing beside %s: a shape says all; leave it out", given_of(of, OF_SHAPE));
        if (is_given(of, "--memory"))
            refuse_words("--memory means nothing beside %s: a shape says all; leave it out", given_of(of, OF_SHAPE));
    }
    if (!is_given(of, "--cache-threads")) of->cache.threads = of->threads;
    of->cache.admit = (uint32_t)lround(of->admit * 65536 / 100);
    if (of->is_sparse) of->cache.flags |= KANGAROO_SPARSE;
}

static void check_calls(bench_options *of) {
    if (!is_given(of, "--operations")) of->operations = 1000000;
    if (of->operations < 1000) refuse_words("--operations is below 1,000: that is too few for some of the figures");
}

static void check_rivals(const bench_options *of) {
    if (of->warmup.is_seconds)
        refuse_words("--warmup in seconds means nothing here: no time passes; give a number of operations");
    if (of->replay != NULL && strcmp(of->replay, "-") == 0)
        refuse_words("--replay - means nothing here: each design reads the trace from its start; give a file");
}

bench_options parse_options(program who, int count, char **words) {
    bench_options read = {.keys = 1000000,
                          .drawn = {.kind = IS_ZIPF, .exponent = 0.9},
                          .key_bytes = 16,
                          .seed = 1,
                          .threads = 1,
                          .values = {.kind = IS_FIXED, .least = 100, .most = 100},
                          .admit = 100,
                          .pipeline = 1,
                          .index_bits = 30,
                          .filter_bits = 4,
                          .overhead = 60};
    kangaroo_options_init(&read.cache, sizeof read.cache);
    for (int i = 1; i < count; i++)
        if (strcmp(words[i], "--help") == 0 || strcmp(words[i], "-h") == 0) print_help(who);
    for (int at = 1; at < count;) at = read_word(who, at, count, words, &read);
    if (who & BOTH) check_limits(&read);
    check_load(&read);
    if (!is_given(&read, "--object-bytes")) read.cache.object_bytes = typical_object(&read);
    if (who == THE_RIVALS) check_rivals(&read);
    else check_cache(who, &read);
    if (who == THE_CALLS) check_calls(&read);
    set_keys(&read.drawn, read.keys);
    return read;
}

const char *word_of_field(const char *field) {
    for (int i = 0; i < ROWS; i++)
        if (rows[i].field != NULL && strcmp(rows[i].field, field) == 0) return rows[i].name;
    return field;
}

const char *right_value(const char *word) {
    for (int i = 0; i < ROWS; i++)
        if (strcmp(rows[i].name, word) == 0) return rows[i].help;
    return "";
}
