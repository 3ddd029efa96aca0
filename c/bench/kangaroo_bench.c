/* kangaroo-bench: measures a cache, or a server that speaks memcached's text protocol, under a load. --help says
 * how. */
#define _GNU_SOURCE
#include "calls.h"
#include "opening.h"
#include "report.h"
#include "series.h"
#include "words.h"
#include <errno.h>
#include <signal.h>
#include <stdlib.h>
#include <string.h>

/* The command, its words parted by blanks. */
static char *command_of(int count, char **words) {
    size_t length = sizeof "kangaroo-bench";
    for (int i = 1; i < count; i++) length += strlen(words[i]) + 1;
    char *command = take_memory(length, 1), *at = stpcpy(command, "kangaroo-bench");
    for (int i = 1; i < count; i++) at = stpcpy(stpcpy(at, " "), words[i]);
    return command;
}

static load load_of(const bench_options *of) {
    load made = {.values = of->values,
                 .drawn = of->drawn,
                 .key_bytes = of->key_bytes,
                 .lifetime = of->expiry * 1000,
                 .seed = of->seed};
    memcpy(made.percent, of->percent, sizeof made.percent);
    if (of->replay != NULL) made.replayed = open_trace(of->replay);
    return made;
}

static void stop_at_signal(int number) {
    (void)number;
    stop_soon();
}

/* At an interrupt the run ends early, and is reported; a second one ends the process. */
static void watch_signals(void) {
    struct sigaction action = {.sa_handler = stop_at_signal, .sa_flags = (int)SA_RESETHAND};
    sigaction(SIGINT, &action, NULL);
    sigaction(SIGTERM, &action, NULL);
}

/* Room for what a report needs, taken before the cache is opened. */
typedef struct room {
    snapshot *states; /* three: before, after the warm-up, at the end */
    histogram *between;
} room;

static room new_room(void) {
    return (room){take_memory(3, sizeof(snapshot)), take_memory(LATENCY_ROWS, sizeof(histogram))};
}

static void run_phases(run *of, series *lines, room *in, report *to) {
    const bench_options *options = of->options;
    connection *control = lines->control;
    snapshot *states = in->states;
    take_snapshot(of, control, &states[0]);
    to->has_warmup = options->warmup.number > 0;
    if (to->has_warmup) {
        bool is_seconds = options->warmup.is_seconds;
        begin_phase(lines, of, "warmup");
        run_phase(of, is_seconds ? 0 : options->warmup.number, is_seconds ? options->warmup.number : 0, write_second,
                  lines);
        end_phase(lines, of);
    }
    take_snapshot(of, control, &states[1]);
    begin_phase(lines, of, "measured");
    run_phase(of, options->operations, options->seconds, write_second, lines);
    end_phase(lines, of);
    take_snapshot(of, control, &states[2]);
    to->warmup = figures_between(&states[0], &states[1], in->between);
    to->all = figures_between(&states[0], &states[2], in->between);
    to->measured = figures_between(&states[1], &states[2], in->between);
    to->counters = states[2].counters;
    to->memory.at_end = states[2].own_memory;
    to->between = in->between;
}

static void measure(const bench_options *options, room *in, report *to) {
    run of = {.options = options, .requests = load_of(options)};
    connection *control = options->server != NULL ? connect_to(options) : NULL;
    if (control != NULL && !options->keeps) empty_server(control);
    make_workers(&of);
    series lines = open_series(options->series, control);
    if (options->server == NULL || options->server_process > 0)
        to->memory.before_open = own_memory_of(options->server_process);
    if (options->server == NULL) {
        of.cache = open_cache(options);
        to->memory.after_open = own_memory_of(0);
    }
    of.began = now_ns();
    run_phases(&of, &lines, in, to);
    close_series(&lines);
    end_workers(&of);
    end_connection(control);
    close_trace(of.requests.replayed);
    if (of.cache != NULL) end_cache(of.cache);
}

static void measure_load(bench_options *options, char *command) {
    report made = {.command = command, .options = options};
    if (options->server == NULL) made.sizes = resolve_cache(&options->cache);
    watch_signals();
    room taken = new_room();
    measure(options, &taken, &made);
    if (options->is_json) print_json_report(&made);
    else print_text_report(&made);
    free(taken.states);
    free(taken.between);
}

/* Which program the first word asks for. */
static program program_of(int count, char **words) {
    const char *first = count > 1 ? words[1] : "";
    return strcmp(first, "calls") == 0 ? THE_CALLS : strcmp(first, "memory") == 0 ? THE_OPENING : THE_DRIVER;
}

int main(int count, char **words) {
    program who = program_of(count, words);
    int before = who != THE_DRIVER; /* words before the options */
    bench_options options = parse_options(who, count - before, words + before);
    char *command = command_of(count, words);
    if (who == THE_CALLS) measure_calls(&options);
    else if (who == THE_OPENING) measure_opening(&options);
    else measure_load(&options, command);
    if (fflush(stdout) != 0) refuse_system("the report could not be printed: %s", strerror(errno));
    free(command);
    return STATUS_RIGHT;
}
