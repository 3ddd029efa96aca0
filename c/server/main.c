/* Start and stop. */
#define _GNU_SOURCE
#include "server.h"
#include <fcntl.h>
#include <grp.h>
#include <pwd.h>
#include <signal.h>
#include <stdio.h>
#include <stdlib.h>
#include <string.h>
#include <sys/epoll.h>
#include <sys/resource.h>
#include <sys/signalfd.h>
#include <sys/wait.h>
#include <unistd.h>

enum { EVENTS_AT_ONCE = 16 };

/* What main has beside the server. */
typedef struct run {
    server server;
    int signals, poll;
    int ready; /* the pipe to the process that waits for a daemon to be ready, or NO_FILE */
    pid_file pid_file;
    bool has_to_become; /* another user, by -u */
    uid_t user;
    gid_t group, own_group;
} run;

/* ------------------------------------------------------------------------------------------------------------ the process */

/* Has the system give this process enough descriptors. */
static bool raise_limit(const settings *of) {
    struct rlimit limit;
    rlim_t wanted = most_descriptors(of);
    if (getrlimit(RLIMIT_NOFILE, &limit) != 0 || limit.rlim_cur >= wanted) return true;
    limit.rlim_cur = wanted;
    if (limit.rlim_max < wanted) limit.rlim_max = wanted; /* root may */
    if (setrlimit(RLIMIT_NOFILE, &limit) == 0) return true;
    tell(TELL_ERROR, "-c %llu: the system gives fewer descriptors than %llu: give a smaller -c, or raise the limit "
                      "(ulimit -n, or LimitNOFILE= of systemd)", (unsigned long long)of->conns, (unsigned long long)wanted);
    return false;
}

/* Goes on as a process of its own. The one that was started waits until clients are served, and ends with the status of
 * that. */
static bool become_daemon(run *of) {
    int ends[2];
    if (pipe2(ends, O_CLOEXEC) != 0) return false;
    pid_t child = fork();
    if (child < 0) return false;
    if (child > 0) {
        unsigned char status = ENDS_BY_SYSTEM;
        close(ends[1]);
        while (read(ends[0], &status, 1) < 0 && errno == EINTR) continue;
        _exit(status);
    }
    close(ends[0]);
    of->ready = ends[1];
    return setsid() >= 0;
}

/* Lets go of the terminal, but for a standard error that is a log. */
static void leave_terminal(void) {
    int null = open("/dev/null", O_RDWR | O_CLOEXEC);
    for (int fd = 0; null >= 0 && fd <= 2; fd++)
        if (fd != STDERR_FILENO || !has_log()) dup2(null, fd);
    if (null > 2) close(null);
}

/* Tells the process that waits how the start went. A daemon that serves lets go of the terminal, unless it is to tell there. */
static void tell_ready(run *of, unsigned char status) {
    if (of->ready == NO_FILE) return;
    wait_until_told();
    if (status == ENDS_WELL && (verbosity() == 0 || has_log())) leave_terminal();
    (void)!write(of->ready, &status, 1);
    close(of->ready);
    of->ready = NO_FILE;
}

/* Has signals come by a descriptor: those that end the server, and SIGHUP. They are blocked before the first thread starts, so in all. */
static bool open_signals(run *of) {
    sigset_t set;
    sigemptyset(&set);
    sigaddset(&set, SIGINT);
    sigaddset(&set, SIGTERM);
    sigaddset(&set, SIGUSR1);
    sigaddset(&set, SIGHUP);
    pthread_sigmask(SIG_BLOCK, &set, NULL);
    signal(SIGPIPE, SIG_IGN);
    of->signals = signalfd(-1, &set, SFD_CLOEXEC | SFD_NONBLOCK);
    return of->signals >= 0;
}

/* Whether the system knows no such user, and does not only fail to tell. */
static bool is_unknown(int cause) {
    return cause == 0 || cause == ENOENT || cause == ESRCH || cause == EBADF || cause == EPERM;
}

/* Root serves nobody without being told whom to become, as with memcached. */
static int find_user(run *of) {
    const char *name = of->server.settings.user;
    if (geteuid() != 0) return ENDS_WELL;
    if (name == NULL) {
        tell(TELL_ERROR, "-u: started by root, it has to be told whom to become: give -u NAME");
        return ENDS_BY_WORDS;
    }
    errno = 0;
    struct passwd *user = getpwnam(name);
    if (user == NULL) {
        tell(TELL_ERROR, "-u %s: %s", name, is_unknown(errno) ? "there is no such user" : strerror(errno));
        return ENDS_BY_USER;
    }
    of->user = user->pw_uid;
    of->group = user->pw_gid;
    of->own_group = getegid();
    of->has_to_become = of->user != 0;
    return ENDS_WELL;
}

/* Acts as the user for a while: the files of the cache are to be the user's. */
static bool act_as_user(const run *of) {
    return !of->has_to_become || (setgroups(0, NULL) == 0 && setegid(of->group) == 0 && seteuid(of->user) == 0);
}

static bool act_as_root(const run *of) {
    return !of->has_to_become || (seteuid(0) == 0 && setegid(of->own_group) == 0);
}

/* Becomes the user for good. */
static bool become_user(const run *of) {
    return !of->has_to_become || (setgroups(0, NULL) == 0 && setgid(of->group) == 0 && setuid(of->user) == 0);
}

/* ---------------------------------------------------------------------------------------------------------------- start */

/* What to do about a refusal of the cache. */
static const char *remedy_for(kangaroo_status status, int cause) {
    if (status == KANGAROO_IN_USE) return "; give each server a --folder of its own";
    if (status == KANGAROO_NO_MEMORY) return "; give less -m and --flash";
    if (cause == ENOSPC) return "; give less --flash";
    return cause == EOPNOTSUPP ? "; this file system reserves no blocks: give --sparse" : "";
}

static void tell_no_cache(const server *of, kangaroo_status status, int cause) {
    char name[FILE_NAME_BYTES];
    const char *folder = of->settings.folder;
    uint32_t lanes = of->options.shards * of->options.lanes;
    const char *against = status == KANGAROO_SYSTEM ? find_refused_file(folder, lanes, cause, name) : NULL;
    if (against != NULL)
        tell(TELL_ERROR, "--folder %s: %s %s; remove it, or give a folder that only this user can write", folder,
             name, against);
    else
        tell(TELL_ERROR, "--folder %s: %s%s", folder, cause != 0 ? strerror(cause) : kangaroo_strerror(status),
             remedy_for(status, cause));
}

static bool open_cache(server *of) {
    int cause = 0;
    kangaroo_status status = kangaroo_open(&of->options, of->settings.folder, &of->cache, &cause);
    if (status != KANGAROO_OK) tell_no_cache(of, status, cause);
    return status == KANGAROO_OK;
}

static bool told(bool is_well, const char *what) {
    if (!is_well) tell(TELL_ERROR, "%s: %s", what, strerror(errno));
    return is_well;
}

static bool watch(run *of, int fd) {
    struct epoll_event event = {.events = EPOLLIN, .data.fd = fd};
    return epoll_ctl(of->poll, EPOLL_CTL_ADD, fd, &event) == 0;
}

static bool watch_all(run *of) {
    of->poll = epoll_create1(EPOLL_CLOEXEC);
    of->server.spare = open("/dev/null", O_RDONLY | O_CLOEXEC);
    bool is_well = of->poll >= 0 && of->server.spare >= 0 && watch(of, of->signals);
    for (int i = 0; is_well && i < of->server.listener_count; i++) is_well = watch(of, of->server.listeners[i]);
    return is_well;
}

/* Opens the cache as the user, and is root again after that. */
static bool open_cache_as_user(run *of) {
    bool is_open = told(act_as_user(of), "-u") && open_cache(&of->server);
    return told(act_as_root(of), "-u") && is_open;
}

/* Opens the log as the user, who will open it anew. */
static bool open_log_as_user(run *of) {
    const char *path = of->server.settings.log;
    if (path == NULL) return true;
    if (!told(act_as_user(of), "-u")) return false;
    const char *against = open_log(path);
    if (against != NULL) tell(TELL_ERROR, "--log %s: %s", path, against);
    return told(act_as_root(of), "-u") && against == NULL;
}

/* All that has to go well before clients are served, in order. What went wrong was told.
 *
 * What another server may have is touched last, and only by a start that goes well. First come ports, and sockets that were
 * handed over: a port in use is refused before a file is made. Then come the cache's files, which have to be the user's, and with
 * them the folder's lock. Who has it may put a socket's file in the place of a dead server's. The pid file gets its name at the
 * end. It and the socket may stand in folders of root's, so only then root becomes the user for good. */
static bool start(run *of) {
    server *it = &of->server;
    const char *pid_path = it->settings.pid_file;
    start_clock();
    start_numbers(&it->numbers);
    it->started = moment_now();
    return open_log_as_user(of) && raise_limit(&it->settings) && open_listeners(it) &&
           (it->settings.is_daemon == 0 || told(become_daemon(of), "-d")) && told(open_signals(of), "signals") &&
           told(start_telling(), "standard error") && make_pid_file(&of->pid_file, pid_path) && open_cache_as_user(of) &&
           open_socket_file(it) && told(start_workers(it), "-t") &&
           told(pin_workers(it), "--pin-threads") && told(watch_all(of), "epoll") && place_pid_file(&of->pid_file, pid_path) && told(become_user(of), "-u");
}

/* ----------------------------------------------------------------------------------------------------------------- stop */

static void stop(run *of) {
    server *it = &of->server;
    atomic_store(&it->is_stopping, true);
    stop_workers(it);
    close_listeners(it);
    kangaroo_close(it->cache);
    remove_pid_file(&of->pid_file, it->settings.pid_file);
}

/* Opens the log anew, if there is one: somebody may have renamed the file. */
static void open_log_anew(const run *of) {
    const char *path = of->server.settings.log;
    if (path == NULL) return;
    const char *against = reopen_log(path);
    if (against == NULL) tell(TELL_EVENT, "--log %s: opened anew", path);
    else tell(TELL_NOTE, "--log %s: not opened anew, and the old file is gone on with: %s", path, against);
}

/* Takes a signal. True: the server is to end. */
static bool take_signal(run *of) {
    struct signalfd_siginfo is;
    if (read(of->signals, &is, sizeof is) != (ssize_t)sizeof is) return false;
    if (is.ssi_signo == SIGHUP) {
        open_log_anew(of);
        return false;
    }
    tell(TELL_EVENT, "ends by %s", strsignal((int)is.ssi_signo));
    return true;
}

/* Accepts clients until a signal comes. */
static void serve(run *of) {
    struct epoll_event events[EVENTS_AT_ONCE];
    bool ends = false;
    while (!ends) {
        int count = epoll_wait(of->poll, events, EVENTS_AT_ONCE, -1);
        if (count < 0 && errno != EINTR) usleep(1000); /* refused: not to be had at once */
        for (int i = 0; i < count && !ends; i++) {
            if (events[i].data.fd == of->signals) ends = take_signal(of);
            else accept_all(&of->server, events[i].data.fd);
        }
    }
}

int main(int count, char **words) {
    static run all = {.signals = NO_FILE, .poll = NO_FILE, .ready = NO_FILE, .pid_file = {.folder = NO_FILE, .file = NO_FILE}};
    read_words(count, words, &all.server.settings);
    options_of_cache(&all.server.settings, &all.server.options);
    int status = find_user(&all);
    if (status != ENDS_WELL) return status;
    bool is_started = start(&all);
    tell_ready(&all, is_started ? ENDS_WELL : ENDS_BY_SYSTEM);
    if (is_started) {
        leave_errors_before();
        tell_systemd("READY=1");
        tell(TELL_EVENT, "serves");
        serve(&all);
        tell_systemd("STOPPING=1");
    }
    stop(&all);
    wait_until_told();
    return is_started ? ENDS_WELL : ENDS_BY_SYSTEM;
}
