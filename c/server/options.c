/* The command line: memcached's options where they mean the same, and the cache's own. A wrong one is named, with what to
 * do. Of memcached's other options, those that have no meaning here are taken with a line that says so, and an old command line
 * starts; those that would change what is promised are refused by name, so that nobody believes in them. */
#define _GNU_SOURCE
#include "server.h"
#include <ctype.h>
#include <getopt.h>
#include <stdarg.h>
#include <stdio.h>
#include <stdlib.h>
#include <string.h>

enum { OBJECT_BYTES_MAX = KANGAROO_KEY_MAX + KANGAROO_VALUE_MAX };

/* ------------------------------------------------------------------------------------------------------- what there is */

typedef enum kind { KIND_NUMBER, KIND_OCTAL, KIND_BYTES, KIND_TEXT, KIND_TEXTS, KIND_FLAG, KIND_LIST, KIND_HELP, KIND_VERSION } kind;

/* An option that is served. Those without a letter have a number above all letters. */
typedef struct served {
    const char *name;
    int letter;
    kind kind;
    size_t at; /* of its field in settings */
    uint64_t least, most;
    const char *value, *help;
} served;

#define AT(field) offsetof(settings, field)
enum { NO_LETTER = 256, FOLDER = NO_LETTER, FLASH, OBJECT_BYTES, ADMIT, THRESHOLD, BRING_BACK, UPKEEP_THREADS, SPARSE, PIN_THREADS, LOG_FILE, SLOW };
static const served options_served[] = {
    {"listen", 'l', KIND_TEXTS, AT(listen), 0, 0, "HOST[:PORT],..", "addresses (127.0.0.1); 0.0.0.0 is every IPv4 one"},
    {"port", 'p', KIND_NUMBER, AT(port), 1, 65535, "N", "TCP port (11211)"},
    {"unix-socket", 's', KIND_TEXT, AT(socket_path), 0, 0, "FILE", "a Unix socket in place of TCP"},
    {"unix-mask", 'a', KIND_OCTAL, AT(socket_mode), 0, 0777, "MODE", "the mode of its file, octal (0700)"},
    {"threads", 't', KIND_NUMBER, AT(threads), 1, 1024, "N", "threads that serve clients (4)"},
    {"conn-limit", 'c', KIND_NUMBER, AT(conns), 1, 1000000, "N", "clients at once (1024)"},
    {"listen-backlog", 'b', KIND_NUMBER, AT(backlog), 1, 65535, "N", "clients that wait to be accepted (1024)"},
    {"memory-limit", 'm', KIND_NUMBER, AT(memory_mib), 1, 1 << 24, "N", "MiB of memory for the cache (64)"},
    {"folder", FOLDER, KIND_TEXT, AT(folder), 0, 0, "DIR", "folder of the files on flash (the working one)"},
    {"flash", FLASH, KIND_BYTES, AT(flash_bytes), 0, 0, "N[KMGT]", "bytes of flash (1G)"},
    {"object-bytes", OBJECT_BYTES, KIND_NUMBER, AT(object_bytes), 1, OBJECT_BYTES_MAX, "N",
     "key and value of a typical object (100)"},
    {"admit", ADMIT, KIND_NUMBER, AT(admit), 0, 65536, "N", "of 65,536 objects that leave memory, N go to flash (65536)"},
    {"threshold", THRESHOLD, KIND_NUMBER, AT(threshold), 0, 32, "N",
     "fewest objects that move to a set together; 0: by --object-bytes (0)"},
    {"bring-back", BRING_BACK, KIND_NUMBER, AT(bring_back), 0, UINT32_MAX, "N",
     "copy one in N hits on flash back into memory; 0: never (8)"},
    {"upkeep-threads", UPKEEP_THREADS, KIND_NUMBER, AT(upkeep_threads), 0, 16, "N", "threads that write to flash (1)"},
    {"sparse", SPARSE, KIND_FLAG, AT(is_sparse), 0, 0, NULL, "do not reserve the files' blocks"},
    {"pin-threads", PIN_THREADS, KIND_FLAG, AT(pins_threads), 0, 0, NULL, "keep each thread that serves clients on a processor of its own"},
    {"log", LOG_FILE, KIND_TEXT, AT(log), 0, 0, "FILE", "file for what goes to standard error; SIGHUP opens it anew"},
    {"slow", SLOW, KIND_NUMBER, AT(slow_ms), 0, 3600000, "MS", "report requests that take longer, in milliseconds; 0: each (none)"},
    {"user", 'u', KIND_TEXT, AT(user), 0, 0, "NAME", "user to run as, required when started as root"},
    {"daemon", 'd', KIND_FLAG, AT(is_daemon), 0, 0, NULL, "run in the background, once clients are served"},
    {"pidfile", 'P', KIND_TEXT, AT(pid_file), 0, 0, "FILE", "file for the process's number"},
    {"disable-flush-all", 'F', KIND_FLAG, AT(no_flush), 0, 0, NULL, "refuse the command flush_all"},
    {"enable-shutdown", 'A', KIND_FLAG, AT(may_shut_down), 0, 0, NULL, "serve the command shutdown"},
    {"extended", 'o', KIND_LIST, 0, 0, 0, "idle_timeout=N", "close clients that were silent for N seconds (0: never)"},
    {"verbose", 'v', KIND_FLAG, AT(verbosity), 0, 0, NULL, "report what went wrong; twice: each connection and step too"},
    {"version", 'V', KIND_VERSION, 0, 0, 0, NULL, "print version, commit, toolchain, and whether the lanes are proved"},
    {"help", 'h', KIND_HELP, 0, 0, 0, NULL, "print this"},
};
enum { SERVED = sizeof options_served / sizeof *options_served };

/* What becomes of an option of memcached's that is not served. */
typedef enum fate {
    FATE_SO,     /* taken: it is so anyway */
    FATE_LINE,   /* taken, with a line that says why it has no effect */
    FATE_REFUSED /* the line says what to do */
} fate;

#define SLABS "there are no slabs"
#define PROXY_FOR_TLS "TLS is not served: put a proxy with TLS in front, and listen on 127.0.0.1"
#define LARGEST "a value has at most 2,039 bytes"

/* Such an option. One that is refused is taken if its value is among the words that are allowed. */
typedef struct foreign {
    const char *name;
    int letter;
    bool has_value;
    fate fate;
    const char *said, *allowed;
} foreign;

static const foreign options_foreign[] = {
    {"disable-dumping", 'X', false, FATE_SO, NULL, NULL},
    {"disable-watch", 'W', false, FATE_SO, NULL, NULL},
    {"slab-growth-factor", 'f', true, FATE_LINE, SLABS, NULL},
    {"slab-min-size", 'n', true, FATE_LINE, SLABS, NULL},
    {"enable-largepages", 'L', false, FATE_LINE, SLABS, NULL},
    {"max-item-size", 'I', true, FATE_LINE, LARGEST, NULL},
    {"disable-cas", 'C', false, FATE_LINE, "each item keeps its number", NULL},
    {"lock-memory", 'k', false, FATE_LINE, "memory is not locked, since the files on flash are mapped and would be locked too", NULL},
    {"enable-coredumps", 'r', false, FATE_LINE, "ulimit -c, or LimitCORE= of systemd, says how large a core dump may be", NULL},
    {"max-reqs-per-event", 'R', true, FATE_LINE, "a client has its turn for 16 KiB of requests", NULL},
    {"stat-delimiter", 'D', true, FATE_LINE, "there are no counts by prefix", NULL},
    {"napi-ids", 'N', true, FATE_LINE, "a new client goes to the thread that has the fewest", NULL},
    {"udp-port", 'U', true, FATE_REFUSED, "UDP is not served: leave it out", "0"},
    {"protocol", 'B', true, FATE_REFUSED, "the text protocol is served, and no binary one: leave it out, or give ascii or auto",
     "ascii auto"},
    {"enable-sasl", 'S', false, FATE_REFUSED,
     "SASL belongs to the binary protocol: use a Unix socket (-s) and its mode (-a), or a proxy", NULL},
    {"enable-ssl", 'Z', false, FATE_REFUSED, PROXY_FOR_TLS, NULL},
    {"auth-file", 'Y', true, FATE_REFUSED, "there are no passwords: use a Unix socket (-s) and its mode (-a), or a proxy", NULL},
    {"disable-evictions", 'M', false, FATE_REFUSED,
     "a cache on flash pushes objects out, and does not answer that it is full: leave it out", NULL},
    {"memory-file", 'e', true, FATE_REFUSED, "a cache starts empty, also after a restart: leave it out", NULL},
    {"license", 'i', false, FATE_REFUSED, "no license is printed: --version says what this is", NULL},
};
enum { FOREIGN = sizeof options_foreign / sizeof *options_foreign };

/* Words of memcached's -o that have one fate. A name before = needs a value. */
typedef struct foreign_words {
    const char *names;
    fate fate;
    const char *said;
} foreign_words;

static const foreign_words words_foreign[] = {
    {"maxconns_fast modern relaxed_privileges no_drop_privileges no_lru_crawler no_lru_maintainer no_slab_reassign no_slab_automove "
     "inline_ascii_resp no_inline_ascii_resp resp_obj_mem_limit", FATE_SO, NULL},
    {"slab_reassign slab_automove slab_automove_ratio= slab_automove_freeratio= slab_automove_window= slab_sizes= slab_chunk_max= "
     "no_chunked_items", FATE_LINE, SLABS},
    {"hashpower= hash_algorithm= no_hashexpand", FATE_LINE, "there is no hash table that grows"},
    {"lru_crawler lru_crawler_sleep= lru_crawler_tocrawl= lru_maintainer hot_lru_pct= warm_lru_pct= hot_max_factor= warm_max_factor= "
     "tail_repair_time=", FATE_LINE, "there is no LRU list, and nothing that walks it"},
    {"temporary_ttl=", FATE_LINE, "any item may be pushed out, whenever it expires"},
    {"watcher_logbuf_size= worker_logbuf_size=", FATE_LINE, "there is no command watch"},
    {"track_sizes", FATE_LINE, "sizes are not counted"},
    {"no_modern", FATE_LINE, "there is no older behaviour to go back to"},
    {"no_maxconns_fast", FATE_LINE, "a client over -c is told so and closed"},
    {"read_buf_mem_limit=", FATE_LINE, "what a client may cost is limited, and not what all cost together"},
    {"ext_path= ext_page_size= ext_wbuf_size= ext_threads= ext_io_depth= ext_item_size= ext_item_age= ext_low_ttl= ext_recache_rate= "
     "ext_compact_under= ext_drop_under= ext_max_sleep= ext_max_frag= ext_drop_unread", FATE_LINE,
     "give --folder and --flash for the files on flash"},
    {"ssl_chain_cert= ssl_key= ssl_keyformat= ssl_verify_mode= ssl_ciphers= ssl_ca_cert= ssl_wbuf_size= ssl_session_cache "
     "ssl_kernel_tls ssl_min_version=", FATE_REFUSED, PROXY_FOR_TLS},
    {"drop_privileges", FATE_REFUSED, "no call of the system is given up: use SystemCallFilter= of systemd"},
    {"sock_cookie_id=", FATE_REFUSED, "sockets are not marked: have the firewall filter by port or user"},
};

/* ------------------------------------------------------------------------------------------------------ what is wrong */

static void end_by_words(const char *format, ...) __attribute__((format(printf, 1, 2), noreturn));
static void end_by_words(const char *format, ...) {
    char text[512];
    va_list rest;
    va_start(rest, format);
    vsnprintf(text, sizeof text, format, rest);
    va_end(rest);
    tell(TELL_ERROR, "%s; --help lists the options", text);
    exit(ENDS_BY_WORDS);
}

/* How an option is written. */
static const char *spelled(const served *it) {
    static char text[64];
    if (it->letter < NO_LETTER) snprintf(text, sizeof text, "-%c", it->letter);
    else snprintf(text, sizeof text, "--%s", it->name);
    return text;
}

static void print_help(void) {
    puts("kangarood: serves a flash cache for small objects by memcached's text protocol");
    for (size_t i = 0; i < SERVED; i++) {
        const served *it = &options_served[i];
        char letter[8] = "   ", words[64];
        if (it->letter < NO_LETTER) snprintf(letter, sizeof letter, "-%c,", it->letter);
        snprintf(words, sizeof words, "--%s%s%s", it->name, it->value != NULL ? "=" : "", it->value != NULL ? it->value : "");
        printf("  %s %-28s %s\n", letter, words, it->help);
    }
    puts("memcached's other options are taken with a line that says why they have no effect, or refused by name");
}

/* ------------------------------------------------------------------------------------------------------------- values */

/* Reads digits of a base, and what stands after them. False: there are none, or too many. */
static bool read_digits(const char *text, unsigned base, uint64_t *to, const char **after) {
    uint64_t number = 0;
    const char *at = text;
    for (; *at >= '0' && *at < (char)('0' + base); at++) {
        if (__builtin_mul_overflow(number, base, &number)) return false;
        if (__builtin_add_overflow(number, (uint64_t)(*at - '0'), &number)) return false;
    }
    *to = number;
    *after = at;
    return at != text;
}

static uint64_t number_of(const served *it, const char *text) {
    uint64_t number;
    const char *after;
    unsigned base = it->kind == KIND_OCTAL ? 8 : 10;
    if (read_digits(text, base, &number, &after) && *after == 0 && number >= it->least && number <= it->most) return number;
    if (base == 8) end_by_words("%s %s: give an octal number up to %llo", spelled(it), text, (unsigned long long)it->most);
    end_by_words("%s %s: give a number from %llu to %llu", spelled(it), text, (unsigned long long)it->least,
                 (unsigned long long)it->most);
}

/* Reads bytes with a unit, as 512K, 100m, 64G. False: there are none, or too many. */
static bool read_bytes(const char *text, uint64_t *to) {
    static const char units[] = "KMGT";
    uint64_t number;
    const char *after;
    if (!read_digits(text, 10, &number, &after)) return false;
    const char *unit = *after == 0 ? NULL : strchr(units, toupper((unsigned char)*after));
    unsigned shift = unit == NULL ? 0 : 10 * (unsigned)(unit - units + 1);
    bool ends = unit == NULL ? *after == 0 : after[1] == 0;
    *to = number << shift;
    return ends && number <= UINT64_MAX >> shift;
}

static uint64_t bytes_of(const served *it, const char *text) {
    uint64_t bytes;
    if (!read_bytes(text, &bytes)) end_by_words("%s %s: give a number of bytes, as 512K, 100M, 64G or 2T", spelled(it), text);
    return bytes;
}

/* ------------------------------------------------------------------------------------------- memcached's other options */

/* Whether a list of names has this one; `needs_value` becomes whether it stands there before =. */
static bool has_name(const char *list, const char *name, bool *needs_value) {
    size_t length = strlen(name);
    if (length == 0 || strchr(name, ' ') != NULL) return false;
    for (const char *at = list; (at = strstr(at, name)) != NULL; at += length) {
        char after = at[length];
        *needs_value = after == '=';
        if ((at == list || at[-1] == ' ') && (after == 0 || after == ' ' || after == '=')) return true;
    }
    return false;
}

/* Takes what has this fate, or ends the program. */
static void meet(fate its, const char *written, const char *said) {
    if (its == FATE_REFUSED) end_by_words("%s: %s", written, said);
    if (its == FATE_LINE) tell(TELL_NOTE, "%s: taken, and without effect: %s", written, said);
}

/* memcached's -I has at least 1k. One that asks for values that are not stored is not taken. */
static void check_item_size(const char *value) {
    uint64_t bytes;
    if (read_bytes(value, &bytes) && bytes >= 1024 && bytes <= KANGAROO_VALUE_MAX) return;
    end_by_words("-I %s: give a size from 1k to 2k: " LARGEST, value);
}

static void take_foreign(const foreign *it, const char *value) {
    char written[64];
    bool ignored;
    if (it->letter == 'I') check_item_size(value);
    if (it->allowed != NULL && has_name(it->allowed, value, &ignored)) return;
    snprintf(written, sizeof written, "-%c, --%s", it->letter, it->name);
    meet(it->fate, written, it->said);
}

/* Takes a word of -o that is not served, or ends the program. */
static void take_foreign_word(const char *name, const char *value) {
    char written[128];
    snprintf(written, sizeof written, "-o %s", name);
    for (size_t i = 0; i < sizeof words_foreign / sizeof *words_foreign; i++) {
        const foreign_words *it = &words_foreign[i];
        bool needs_value;
        if (!has_name(it->names, name, &needs_value)) continue;
        if (needs_value && value == NULL) end_by_words("%s: it needs a value", written);
        meet(it->fate, written, it->said);
        return;
    }
    end_by_words("%s: there is no such word; -o takes idle_timeout=N, and memcached's words", written);
}

static void read_extended(char *list, settings *to) {
    static const served idle_seconds = {"extended idle_timeout", NO_LETTER, KIND_NUMBER, 0, 0, 1 << 24, NULL, NULL};
    for (char *value; (value = strsep(&list, ",")) != NULL;) {
        const char *name = strsep(&value, "=");
        if (strcmp(name, "idle_timeout") != 0) take_foreign_word(name, value);
        else if (value == NULL) end_by_words("-o %s: it needs a value", name);
        else to->idle_seconds = number_of(&idle_seconds, value);
    }
}

/* ------------------------------------------------------------------------------------------------------ what is served */

/* A list, or NULL, and a value more. The list's memory becomes that of the new one. */
static char *joined(char *list, const char *more) {
    size_t length = list == NULL ? 0 : strlen(list);
    char *both = realloc(list, length + strlen(more) + 2);
    if (both == NULL) {
        tell(TELL_ERROR, "-l %s: %s", more, strerror(errno));
        exit(ENDS_BY_SYSTEM);
    }
    if (length != 0) both[length++] = ',';
    strcpy(both + length, more);
    return both;
}

static void take_served(const served *it, char *value, settings *to) {
    void *field = (char *)to + it->at;
    if (it->value != NULL && *value == 0) end_by_words("%s: its value is empty; give %s", spelled(it), it->value);
    switch (it->kind) {
    case KIND_NUMBER: case KIND_OCTAL: *(uint64_t *)field = number_of(it, value); break;
    case KIND_BYTES: *(uint64_t *)field = bytes_of(it, value); break;
    case KIND_TEXT: *(const char **)field = value; break;
    case KIND_TEXTS: *(char **)field = joined(*(char **)field, value); break;
    case KIND_FLAG: ++*(uint64_t *)field; break;
    case KIND_LIST: read_extended(value, to); break;
    case KIND_HELP: print_help(); exit(ENDS_WELL);
    case KIND_VERSION: printf("kangarood %s\n", kangaroo_build()); exit(ENDS_WELL);
    }
}

/* -------------------------------------------------------------------------------------------------------- all words */

/* What getopt_long is to know, of options that are served and memcached's others. */
typedef struct known {
    struct option longs[SERVED + FOREIGN + 1];
    char letters[3 * (SERVED + FOREIGN) + 2];
} known;

static void know_letter(known *of, int letter, bool has_value) {
    size_t length = strlen(of->letters);
    if (letter >= NO_LETTER) return;
    snprintf(of->letters + length, sizeof of->letters - length, has_value ? "%c:" : "%c", letter);
}

static void know_all(known *of) {
    *of = (known){.letters = ":"}; /* getopt is to print nothing itself */
    for (size_t i = 0; i < SERVED; i++) {
        const served *it = &options_served[i];
        of->longs[i] = (struct option){it->name, it->value != NULL, NULL, it->letter};
        know_letter(of, it->letter, it->value != NULL);
    }
    for (size_t i = 0; i < FOREIGN; i++) {
        const foreign *it = &options_foreign[i];
        of->longs[SERVED + i] = (struct option){it->name, it->has_value, NULL, it->letter};
        know_letter(of, it->letter, it->has_value);
    }
}

static void take_option(int letter, char *value, settings *to) {
    for (size_t i = 0; i < SERVED; i++)
        if (options_served[i].letter == letter) {
            take_served(&options_served[i], value, to);
            return;
        }
    for (size_t i = 0; i < FOREIGN; i++)
        if (options_foreign[i].letter == letter) take_foreign(&options_foreign[i], value);
}

/* -l and -p with -s are taken without effect, as memcached takes them. */
static void check_pairs(const settings *of) {
    uint64_t most = of->pins_threads != 0 ? processors() : UINT64_MAX;
    if (most == 0) end_by_words("--pin-threads: nobody knows which processors there are: %s; leave it out", strerror(errno));
    if (of->threads > most)
        end_by_words("--pin-threads: %llu threads (-t), and %llu processors that this process may use: give -t %llu or less",
                     (unsigned long long)of->threads, (unsigned long long)most, (unsigned long long)most);
    if (of->socket_path != NULL && (of->listen != NULL || of->port != 0))
        meet(FATE_LINE, "-l, -p", "with -s a Unix socket stands in place of TCP");
    if (of->socket_path == NULL && of->socket_mode != UINT64_MAX)
        end_by_words("-a: this is the mode of a Unix socket: give -s too, or leave it out");
}

void read_words(int count, char **words, settings *to) {
    known all;
    know_all(&all);
    *to = (settings){.folder = ".", .socket_mode = UINT64_MAX, .backlog = 1024, .threads = 4, .conns = 1024, .memory_mib = 64,
                     .flash_bytes = (uint64_t)1 << 30, .object_bytes = 100, .admit = 65536, .bring_back = 8, .upkeep_threads = 1,
                     .slow_ms = NEVER_SLOW};
    opterr = 0;
    for (int letter; (letter = getopt_long(count, words, all.letters, all.longs, NULL)) != -1;) {
        const char *word = words[optind - 1];
        if (letter == ':') end_by_words("%s: it needs a value", word);
        if (letter == '?' && optopt != 0 && optopt < NO_LETTER && word[1] != '-') end_by_words("-%c: there is no such option", optopt);
        if (letter == '?') end_by_words("%s: there is no such option, or it takes no value", word);
        take_option(letter, optarg, to);
    }
    if (optind < count) end_by_words("%s: this is no option", words[optind]);
    check_pairs(to);
    if (to->port == 0) to->port = 11211;
    if (to->socket_mode == UINT64_MAX) to->socket_mode = 0700;
    if (to->listen == NULL) to->listen = "127.0.0.1";
    set_verbosity(to->verbosity > VERBOSITY_MOST ? VERBOSITY_MOST : (unsigned)to->verbosity);
}

/* ---------------------------------------------------------------------------------------------- options of the cache */

static void fill_options(const settings *from, kangaroo_options *to) {
    uint64_t object = from->object_bytes + ITEM_HEAD_BYTES;
    kangaroo_options_init(to, sizeof *to);
    to->flags = from->is_sparse != 0 ? KANGAROO_SPARSE : 0;
    to->flash_bytes = from->flash_bytes;
    to->memory_bytes = from->memory_mib << 20;
    to->object_bytes = (uint32_t)(object > OBJECT_BYTES_MAX ? OBJECT_BYTES_MAX : object);
    to->threads = (uint32_t)from->threads;
    to->upkeep_threads = (uint32_t)from->upkeep_threads;
    to->admit = (uint32_t)from->admit;
    to->threshold = (uint32_t)from->threshold;
    to->bring_back = (uint32_t)from->bring_back;
}

static bool is_enough(const settings *from, uint64_t memory_mib) {
    kangaroo_options tried;
    fill_options(from, &tried);
    tried.memory_bytes = memory_mib << 20;
    return kangaroo_options_resolve(&tried, NULL) == KANGAROO_OK;
}

/* The least -m that is enough for the flash, or 0 if none is. */
static uint64_t least_memory(const settings *from) {
    uint64_t below = 0, enough = (uint64_t)1 << 24;
    if (!is_enough(from, enough)) return 0;
    while (enough - below > 1) {
        uint64_t middle = below + (enough - below) / 2;
        if (is_enough(from, middle)) enough = middle;
        else below = middle;
    }
    return enough;
}

void options_of_cache(const settings *from, kangaroo_options *to) {
    const char *field = NULL;
    fill_options(from, to);
    kangaroo_status status = kangaroo_options_resolve(to, &field);
    if (status == KANGAROO_OK) return;
    unsigned long long flash = from->flash_bytes, memory = from->memory_mib, least = least_memory(from);
    if (field == NULL) end_by_words("the cache refuses its options: %s", kangaroo_strerror(status));
    if (strcmp(field, "flash_bytes") == 0)
        end_by_words("--flash %llu: at least 12,288 bytes, and no more than 1,024 shards can hold", flash);
    if (strcmp(field, "memory_bytes") == 0)
        end_by_words("-m %llu: too little memory for %llu bytes of flash; give -m %llu or more, or less --flash", memory, flash,
                     least);
    end_by_words("the cache refuses its option %s: give --%s another value", field, field);
}
