/* Signals: those of the program are delivered to its own threads; what a mapping that fails is. */
#include "test.h"
#include <pthread.h>
#include <signal.h>
#include <stdatomic.h>
#include <sys/mount.h>
#include <sys/resource.h>
#include <sys/wait.h>

enum { BY_MAIN = 41, BY_THREAD = 42 };

static atomic_int delivered, elsewhere;
static pthread_t main_thread;

static void count(int number) {
    (void)number;
    delivered++;
    if (!pthread_equal(pthread_self(), main_thread)) elsewhere++;
}

static void shows_own_threads(const char *folder) {
    kangaroo_options options = small_options();
    struct sigaction action = {.sa_handler = count};
    sigset_t now;
    options.upkeep_threads = 8;
    main_thread = pthread_self();
    expect(sigaction(SIGUSR1, &action, NULL) == 0, "a handler");
    kangaroo_cache *cache = open_with(&options, folder);
    expect(pthread_sigmask(SIG_SETMASK, NULL, &now) == 0 && !sigismember(&now, SIGUSR1), "the caller's mask is as it was");
    for (int i = 0; i < 200; i++) {
        expect(kill(getpid(), SIGUSR1) == 0, "a signal");
        uint32_t key = (uint32_t)i;
        expect_status(kangaroo_put(cache, &key, sizeof key, "v", 1, 0), KANGAROO_OK, "a put");
    }
    expect(delivered > 0 && elsewhere == 0, "signals come to the program's thread");
    close_cache(cache);
    show("%d signals to a process with 8 upkeep threads: all came to its own thread", (int)delivered);
}

/* The number of the signal that ends a child which runs this, or 0. */
static int signal_of(void (*run)(const char *), const char *folder) {
    int status = 0;
    pid_t child = fork();
    if (child == 0) {
        struct rlimit none = {0, 0};
        setrlimit(RLIMIT_CORE, &none);
        signal(SIGBUS, SIG_DFL);
        run(folder);
        _exit(0);
    }
    expect(child > 0 && waitpid(child, &status, 0) == child, "a child");
    return WIFSIGNALED(status) ? WTERMSIG(status) : 0;
}

static void put_many(kangaroo_cache *cache) {
    char value[1000];
    memset(value, 'v', sizeof value);
    for (uint32_t key = 0; key < 20000; key++)
        expect(kangaroo_put(cache, &key, sizeof key, value, sizeof value, KANGAROO_NEVER) == KANGAROO_OK, "a put");
}

static void cut_the_files(const char *folder) {
    char path[2 * PATH_BYTES], name[32];
    kangaroo_cache *cache = open_small(folder);
    for (int i = 0; i < 4; i++) {
        snprintf(name, sizeof name, "kangaroo-%d.dev", i);
        path_in(folder, name, path);
        expect(truncate(path, 0) == 0, "a cut");
    }
    put_many(cache);
}

static void end_by_handler(int number) {
    (void)number;
    _exit(pthread_equal(pthread_self(), main_thread) ? BY_MAIN : BY_THREAD);
}

/* Puts until a thread of the library finds that its file was cut: as soon as a page of the log is full, and before a put does a step
 * itself, since the log is nearly full. */
static int status_of_thread(const char *folder) {
    kangaroo_options options = small_options();
    char path[2 * PATH_BYTES], value[100] = {0};
    options.lanes = 1;
    main_thread = pthread_self();
    kangaroo_cache *cache = open_with(&options, folder);
    path_in(folder, "kangaroo-0.dev", path);
    expect(truncate(path, 0) == 0, "a cut");
    signal(SIGBUS, end_by_handler);
    for (uint32_t key = 0; key < 400; key++) {
        expect(kangaroo_put(cache, &key, sizeof key, value, sizeof value, KANGAROO_NEVER) == KANGAROO_OK, "a put");
        if (key > 100) usleep(2000);
    }
    return 0;
}

static void shows_handlers(const char *folder) {
    int status = 0;
    pid_t child = fork();
    if (child == 0) _exit(status_of_thread(folder));
    expect(child > 0 && waitpid(child, &status, 0) == child && WIFEXITED(status), "a handler sees the fault of a thread of the library");
    expect(WEXITSTATUS(status) == BY_THREAD, "the thread itself has it");
    show("a bus error in a thread of the library comes to the program's handler");
}

static void fill_the_disk(const char *folder) {
    kangaroo_options options = small_options();
    options.flags = KANGAROO_SPARSE;
    put_many(open_with(&options, folder));
}

static void shows_bus_errors(const char *folder) {
    expect(signal_of(cut_the_files, folder) == SIGBUS, "a file that is cut under an open cache");
    show("a file that is cut under an open cache is a SIGBUS");
    if (mount("none", folder, "tmpfs", 0, "size=200k") != 0) {
        show("no small disk can be mounted here: a full disk under a sparse cache is not shown");
        return;
    }
    expect(signal_of(fill_the_disk, folder) == SIGBUS, "a full disk under a sparse cache");
    umount(folder);
    show("a full disk under a sparse cache is a SIGBUS");
}

int main(void) {
    char folder[PATH_BYTES];
    make_folder(folder);
    shows_own_threads(folder);
    if (!is_sanitized()) {
        shows_bus_errors(folder);
        shows_handlers(folder);
    }
    remove_folder(folder);
    return 0;
}
