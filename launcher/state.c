#define _GNU_SOURCE
#include "state.h"

#include <errno.h>
#include <fcntl.h>
#include <libgen.h>
#include <limits.h>
#include <stdarg.h>
#include <stdlib.h>
#include <string.h>
#include <sys/file.h>
#include <sys/inotify.h>
#include <sys/mman.h>
#include <sys/stat.h>
#include <sys/wait.h>
#include <time.h>
#include <unistd.h>

enum {
    LONGEST_SOCKET = 103, /* bytes of the path of --alone */
    MOST_LEFT = 9999,     /* files FILE.left.N */
    MOST_SAVES = 3,       /* that may fail */
    RETRY_MS = 1000,  /* until a save that failed is tried again, if it did not reach the server */
    LONGEST_WAIT = 16 /* seconds between two tries to load the rest */
};

static bool refuse(char why[WHY_BYTES], const char *format, ...)
{
    va_list values;
    va_start(values, format);
    vsnprintf(why, WHY_BYTES, format, values);
    va_end(values);
    return false;
}

/* Reports something on standard error. */
static void say(const char *format, ...)
{
    char line[PATH_MAX + WHY_BYTES];
    va_list values;
    va_start(values, format);
    vsnprintf(line, sizeof line, format, values);
    va_end(values);
    dprintf(STDERR_FILENO, "sysvmsg-serve: %s\n", line);
}

/* Reports something that has to be told by the exit status too. */
static void say_failed(struct state *state, const char *what, const char *why)
{
    state->has_failed = true;
    say("%s: %s", what, why);
}

static const char *plural(size_t count) { return count == 1 ? "" : "s"; }

static long milliseconds(void)
{
    struct timespec now;
    clock_gettime(CLOCK_MONOTONIC, &now);
    return now.tv_sec * 1000L + now.tv_nsec / 1000000L;
}

/* ---- the options */

/* The value of the option at *word, or NULL. *word is moved to the last word of it. */
static const char *value_at(char ***word, const char *name)
{
    size_t length = strlen(name);
    if (strncmp(**word, name, length) != 0)
        return NULL;
    if ((**word)[length] == '=')
        return **word + length + 1;
    return (**word)[length] == '\0' && (*word)[1] ? *++*word : NULL;
}

static bool name_files(struct state *state)
{
    const char *file = state->file;
    return asprintf(&state->loaded, "%s.loaded", file) >= 0
           && asprintf(&state->next, "%s.new", file) >= 0
           && asprintf(&state->folder, "%s.run", file) >= 0
           && asprintf(&state->door, "%s/alone", state->folder) >= 0
           && asprintf(&state->socket, "%s/socket", state->folder) >= 0;
}

bool state_take(char ***options, struct state *state, char why[WHY_BYTES])
{
    size_t count = 0;
    while ((*options)[count])
        count++;
    char **words = calloc(count + 3, sizeof *words), **next = words;
    if (!words)
        return refuse(why, "%s", strerror(ENOMEM));
    *state = (struct state){
        .lock = -1, .parent = -1, .news = -1, .told = -1, .saving = -1, .blocks = 65536};
    bool has_sessions = false;
    for (char **word = *options; *word; word++) {
        char **at = word;
        const char *value = value_at(&at, "--sessions");
        has_sessions = has_sessions || (value && strtoull(value, NULL, 10) != 0);
        at = word;
        if ((value = value_at(&at, "--blocks")))
            state->blocks = strtoul(value, NULL, 10);
        if ((value = value_at(&word, "--state")))
            state->file = value;
        else
            *next++ = *word;
    }
    if (state->file) {
        if (*state->file == '\0')
            return refuse(why, "--state needs the name of a file");
        if (has_sessions)
            return refuse(why, "--state cannot be used with --sessions");
        if (!name_files(state))
            return refuse(why, "%s", strerror(ENOMEM));
        if (strlen(state->door) > LONGEST_SOCKET)
            return refuse(why, "--state: a name of at most %d bytes",
                LONGEST_SOCKET - (int)strlen(state->door) + (int)strlen(state->file));
        *next++ = "--alone";
        *next++ = state->door;
    }
    *options = words;
    return true;
}

/* ---- the beginning */

/* Removes what is in the folder. Nobody else uses it. */
static void empty_folder(const struct state *state)
{
    unlinkat(state->lock, "alone", 0);
    unlinkat(state->lock, "socket", 0);
    unlinkat(state->lock, "alone.d/s", 0);
    unlinkat(state->lock, "alone.d", AT_REMOVEDIR);
}

/* Makes the folder, or takes the one of an earlier run, and locks it. Returns its descriptor, or
 * -1. */
static int lock_folder(const struct state *state, char why[WHY_BYTES])
{
    struct stat own, found;
    if (mkdir(state->folder, 0700) != 0 && errno != EEXIST) {
        refuse(why, "%s: %s", state->folder, strerror(errno));
        return -1;
    }
    int lock = open(state->folder, O_RDONLY | O_DIRECTORY | O_NOFOLLOW | O_CLOEXEC);
    if (lock < 0 || fstat(lock, &own) != 0)
        refuse(why, "%s: %s", state->folder, strerror(errno));
    else if (own.st_uid != geteuid())
        refuse(why, "%s: it is the directory of another user", state->folder);
    else if (flock(lock, LOCK_EX | LOCK_NB) != 0 && errno == EWOULDBLOCK)
        refuse(why, "%s: another sysvmsg-serve uses it", state->file);
    /* (it may have been removed before it was locked) */
    else if (lstat(state->folder, &found) != 0 || own.st_dev != found.st_dev
             || own.st_ino != found.st_ino)
        refuse(why, "%s: another sysvmsg-serve has just used it", state->file);
    else if (fchmod(lock, 0700) != 0)
        refuse(why, "%s: %s", state->folder, strerror(errno));
    else
        return lock;
    if (lock >= 0)
        close(lock);
    return -1;
}

static bool open_parent(struct state *state, char why[WHY_BYTES])
{
    char *copy = strdup(state->file);
    if (!copy)
        return refuse(why, "%s", strerror(ENOMEM));
    const char *parent = dirname(copy);
    state->parent = open(parent, O_RDONLY | O_DIRECTORY | O_CLOEXEC);
    if (state->parent < 0)
        refuse(why, "%s: %s", parent, strerror(errno));
    free(copy);
    return state->parent >= 0;
}

/* The first name FILE.left.N that is free, for a file that `make` makes of `from` and that name.
 * NULL if there is none, with errno set. */
static char *free_name(
    const struct state *state, const char *from, int make(const char *from, const char *name))
{
    for (int i = 1; i <= MOST_LEFT; i++) {
        char *name;
        if (asprintf(&name, "%s.left.%d", state->file, i) < 0)
            return NULL;
        if (make(from, name) == 0)
            return name;
        free(name);
        if (errno != EEXIST)
            return NULL;
    }
    return NULL;
}

static int make_empty(const char *from, const char *name)
{
    (void)from;
    int file = open(name, O_WRONLY | O_CREAT | O_EXCL | O_CLOEXEC, 0600);
    return file < 0 ? -1 : close(file);
}

/* Puts a file of an earlier run aside, if it is there, and reports that. */
static bool put_aside(
    const struct state *state, const char *path, const char *what, char why[WHY_BYTES])
{
    FILE *file = fopen(path, "re");
    if (!file)
        return errno == ENOENT || refuse(why, "%s: %s", path, strerror(errno));
    size_t count = queues_count(file);
    fclose(file);
    char *name = free_name(state, path, link);
    if (!name || unlink(path) != 0)
        return refuse(why, "%s: %s", path, strerror(errno));
    say("%s is what an earlier run had %s: %zu message%s", name, what, count, plural(count));
    free(name);
    return true;
}

/* Looks into FILE. */
static bool split_file(struct state *state, char why[WHY_BYTES])
{
    char reason[WHY_BYTES];
    struct stat found;
    int descriptor = open(state->file, O_RDONLY | O_NOFOLLOW | O_NONBLOCK | O_CLOEXEC);
    if (descriptor < 0 && errno == ENOENT)
        return queues_none(&state->parts, why);
    if (descriptor < 0)
        return refuse(why, "%s: %s", state->file, strerror(errno));
    if (fstat(descriptor, &found) != 0 || !S_ISREG(found.st_mode)) {
        close(descriptor);
        return refuse(why, "%s: not a regular file", state->file);
    }
    FILE *file = fdopen(descriptor, "r");
    bool is_well = file && queues_split(file, state->blocks, &state->parts, reason);
    if (!is_well)
        refuse(why, "%s: %.*s", state->file, WHY_BYTES / 2, file ? reason : strerror(errno));
    if (file)
        fclose(file);
    state->is_there = true;
    return is_well;
}

bool state_begin(struct state *state, char why[WHY_BYTES])
{
    if (!state->file)
        return true;
    if (!open_parent(state, why))
        return false;
    state->lock = lock_folder(state, why);
    if (state->lock < 0)
        return false;
    empty_folder(state);
    if (!split_file(state, why))
        return false;
    if (!put_aside(state, state->loaded, "loaded, and did not save", why)
        || !put_aside(state, state->next, "begun to save", why))
        return false;
    fsync(state->parent);
    if (state->is_there && !state->parts.has_end)
        say("%s has no mark of its end: it may have been cut off", state->file);
    state->news = inotify_init1(IN_NONBLOCK | IN_CLOEXEC);
    if (state->news < 0 || inotify_add_watch(state->news, state->folder, IN_CREATE) < 0)
        return refuse(why, "inotify: %s", strerror(errno));
    return true;
}

/* ---- loading */

/* Starts `sysvmsg` with these words. */
static bool start(
    struct state *state, char **words, const struct tool *tool, const struct signals *before)
{
    pid_t child = start_tool(words, tool, before);
    if (child < 0) {
        say_failed(state, "fork", strerror(errno));
        return false;
    }
    state->child = child;
    return true;
}

/* Starts the load of a part, from a line on. The part that is not loaded first waits for no room.
 */
static bool start_load(
    struct state *state, FILE *part, unsigned long from, int errors, const struct signals *before)
{
    char line[24];
    snprintf(line, sizeof line, "%lu", from);
    char *words[] = {"sysvmsg", "load", state->socket, "--uid", "0", "--gid", "0", "--adopt",
        "--into", "--from", line, "--wait", "10", NULL};
    if (state->feeds) {
        words[11] = "--nowait";
        words[12] = NULL;
    }
    int input = fileno(part);
    const struct tool tool = {input, -1, errors};
    return lseek(input, 0, SEEK_SET) == 0 && start(state, words, &tool, before);
}

/* Writes private queues with messages into a file, and reports them. */
static bool keep_private(struct state *state)
{
    struct parts *parts = &state->parts;
    if (parts->private_queues == 0)
        return true;
    if (!parts->left) {
        say("%zu private queue%s, which cannot be made again, had no messages",
            parts->private_queues, plural(parts->private_queues));
        return true;
    }
    char *name = free_name(state, NULL, make_empty);
    FILE *file = name ? fopen(name, "we") : NULL;
    bool is_well = file && queues_append(parts->left, 1, file) && fsync(fileno(file)) == 0;
    if (is_well)
        say("%zu private queue%s cannot be made again: %s has the %zu message%s",
            parts->private_queues, plural(parts->private_queues), name, parts->private_messages,
            plural(parts->private_messages));
    else
        say_failed(state, name ? name : state->file, strerror(errno));
    if (file)
        fclose(file);
    free(name);
    return is_well;
}

/* Nothing is loaded, which was reported. */
static enum outcome give_up(struct state *state)
{
    state->phase = STATE_ENDS;
    return STATE_FAILS;
}

/* All is loaded. FILE gets another name before anyone can take what it has. */
static enum outcome go_on(struct state *state)
{
    if (state->is_there) {
        if (!keep_private(state))
            return give_up(state);
        if (rename(state->file, state->loaded) != 0) {
            say_failed(state, state->loaded, strerror(errno));
            return give_up(state);
        }
        fsync(state->parent);
    }
    state->phase = STATE_SERVES;
    if (state->parts.rest) {
        say("%zu message%s wait until there is room for them", state->parts.rest_messages,
            plural(state->parts.rest_messages));
        state->rest_from = 1;
        state->wait = 1;
        state->feed_at = milliseconds();
    }
    return STATE_GOES;
}

static enum outcome take_load(struct state *state, int status)
{
    if (state->phase != STATE_LOADS)
        return STATE_TAKEN;
    if (WIFEXITED(status) && WEXITSTATUS(status) == 0)
        return go_on(state);
    if (WIFSIGNALED(status))
        say("the load was ended by signal %d", WTERMSIG(status));
    say_failed(state, state->file, "it could not be loaded, and is as it was");
    return give_up(state);
}

/* ---- the rest, while the server serves */

/* Reads what a load has printed. */
static void read_told(const struct state *state, char text[WHY_BYTES])
{
    ssize_t length = pread(state->told, text, WHY_BYTES - 1, 0);
    text[length > 0 ? length : 0] = '\0';
}

static void start_feed(struct state *state, const struct signals *before)
{
    if (state->told < 0)
        state->told = memfd_create("told", MFD_CLOEXEC);
    state->feed_at = milliseconds() + 1000L * state->wait;
    if (state->told < 0 || ftruncate(state->told, 0) != 0 || lseek(state->told, 0, SEEK_SET) != 0)
        return;
    state->feeds = true;
    if (!start_load(state, state->parts.rest, state->rest_from, state->told, before))
        state->feeds = false;
}

/* Learns which line is the next one from what a load has printed. What is not understood is shown,
 * and no more is loaded before the next start. */
static void take_feed(struct state *state, int status)
{
    char text[WHY_BYTES];
    unsigned long line = 0;
    state->feeds = false;
    if (WIFEXITED(status) && WEXITSTATUS(status) == 0) {
        state->rest_from = 0;
        say("all messages that waited for room are loaded");
        return;
    }
    read_told(state, text);
    const char *loaded = strstr(text, "lines that are loaded: ");
    if (loaded) {
        line = strtoul(loaded + strlen("lines that are loaded: "), NULL, 10) + 1;
    } else if (strstr(text, "(EAGAIN)")) {
        const char *at = strstr(text, "line ");
        line = at ? strtoul(at + strlen("line "), NULL, 10) : 0;
    }
    if (line > state->rest_from) {
        state->rest_from = line;
        state->wait = 1;
    } else if (state->wait < LONGEST_WAIT) {
        state->wait *= 2;
    }
    state->feed_at = milliseconds() + 1000L * state->wait;
    if (line > 0 || state->phase != STATE_SERVES)
        return;
    dprintf(STDERR_FILENO, "%s", text);
    say("the messages that wait for room are loaded at the next start");
    state->feed_at = LONG_MAX;
}

/* ---- saving */

/* Opens FILE.new for a save, or for a further one. */
static bool open_next(struct state *state)
{
    if (state->saving >= 0)
        return true;
    state->saving = open(state->next, O_RDWR | O_CREAT | O_EXCL | O_APPEND | O_CLOEXEC, 0600);
    if (state->saving < 0)
        say_failed(state, state->next, strerror(errno));
    return state->saving >= 0;
}

static void start_save(struct state *state, const struct signals *before)
{
    /* (the whole file is synced at the end) */
    char *words[] = {"sysvmsg", "save",  state->socket, "--nosync", "--uid",
                     "0",       "--gid", "0",           NULL};
    if (state->saves >= MOST_SAVES || !open_next(state))
        return;
    const struct tool tool = {-1, state->saving, -1};
    state->is_saved = false;
    if (!start(state, words, &tool, before)) {
        state->saves++;
        state->save_at = milliseconds() + RETRY_MS;
    }
}

/* Cuts off a line that was not written whole. */
static void cut_last_line(int file)
{
    char byte;
    off_t length = lseek(file, 0, SEEK_END);
    while (length > 0 && pread(file, &byte, 1, length - 1) == 1 && byte != '\n')
        length--;
    if (length < 0 || ftruncate(file, length) != 0)
        say("ftruncate: %s", strerror(errno));
}

static void take_save(struct state *state, int status)
{
    state->is_saved = WIFEXITED(status) && WEXITSTATUS(status) == 0;
    if (state->is_saved)
        return;
    state->saves++;
    if (WIFSIGNALED(status))
        say("the save was ended by signal %d", WTERMSIG(status));
    cut_last_line(state->saving);
    state->save_at = milliseconds() + RETRY_MS;
}

/* Appends the messages for which there was no room, and the mark of the end, and syncs the file. */
static bool finish_next(struct state *state)
{
    int copy = dup(state->saving);
    FILE *file = copy < 0 ? NULL : fdopen(copy, "a");
    if (!file)
        return false;
    bool is_well =
        state->rest_from == 0 || queues_append(state->parts.rest, state->rest_from, file);
    is_well =
        is_well && fputs(QUEUES_FORMAT, file) >= 0 && fflush(file) == 0 && fsync(fileno(file)) == 0;
    int error = errno;
    fclose(file);
    errno = error;
    return is_well;
}

/* Makes FILE.new FILE. */
static bool replace_file(struct state *state)
{
    if (!finish_next(state) || rename(state->next, state->file) != 0)
        return false;
    if (fsync(state->parent) != 0)
        say_failed(state, state->file, strerror(errno));
    else if (unlink(state->loaded) != 0 && errno != ENOENT)
        say("%s: %s", state->loaded, strerror(errno));
    return true;
}

/* The number of messages that were saved. */
static size_t count_saved(const struct state *state)
{
    FILE *file = fopen(state->next, "re");
    size_t count = file ? queues_count(file) : 0;
    if (file)
        fclose(file);
    return count;
}

/* Reports what is where after an end at which the queues were not saved, or not whole. */
static void report_loss(struct state *state)
{
    struct stat found;
    size_t count = count_saved(state);
    state->has_failed = true;
    if (state->saving >= 0)
        say("the queues were not saved whole: %s has %zu message%s, and any others are lost",
            state->next, count, plural(count));
    else
        say("the queues were not saved, and are lost");
    if (state->is_there && lstat(state->loaded, &found) == 0)
        say("%s is what was loaded at the start", state->loaded);
}

/* Saves the queues, or reports that they could not be saved. */
static void settle(struct state *state)
{
    if (!state->is_saved) {
        report_loss(state);
    } else if (!replace_file(state)) {
        int error = errno;
        size_t count = count_saved(state);
        say_failed(state, state->file, strerror(error));
        say("%s has the %zu message%s of the queues", state->next, count, plural(count));
        if (state->rest_from != 0)
            say("%s also has messages that waited for room", state->loaded);
    }
}

/* ---- the run */

int state_news(const struct state *state) { return state->child > 0 ? -1 : state->news; }

/* Whether a save has failed and is to be tried again. */
static bool has_to_save(const struct state *state)
{
    return state->saves > 0 && state->saves < MOST_SAVES && !state->is_saved;
}

/* When there is something to do, or LONG_MAX. */
static long due(const struct state *state)
{
    if (!state->file || state->child > 0 || state->phase != STATE_SERVES || state->is_over)
        return LONG_MAX;
    if (has_to_save(state))
        return state->save_at;
    return state->rest_from == 0 || state->is_told ? LONG_MAX : state->feed_at;
}

int state_limit(const struct state *state)
{
    long at = due(state);
    if (at == LONG_MAX)
        return -1;
    long left = at - milliseconds();
    return left < 0 ? 0 : (int)left;
}

/* Whether the server has opened its socket. It then gets the other name, so that the next one is
 * noticed too. */
static bool has_door(const struct state *state)
{
    char events[4096];
    while (read(state->news, events, sizeof events) > 0)
        ;
    return rename(state->door, state->socket) == 0;
}

enum outcome state_step(struct state *state, const struct signals *before)
{
    if (!state->file || state->child > 0)
        return STATE_TAKEN;
    if (!has_door(state)) {
        if (state_limit(state) != 0)
            return STATE_TAKEN;
        if (has_to_save(state))
            start_save(state, before);
        else
            start_feed(state, before);
        return STATE_TAKEN;
    }
    if (state->phase == STATE_OPENS) {
        state->phase = STATE_LOADS;
        bool is_well = start_load(state, state->parts.first, 1, -1, before);
        return is_well ? STATE_TAKEN : give_up(state);
    }
    if (state->phase == STATE_SERVES)
        start_save(state, before);
    return STATE_TAKEN;
}

enum outcome state_reap(struct state *state, pid_t child, int status)
{
    if (child != state->child || child == 0)
        return STATE_NOT_MINE;
    state->child = 0;
    if (state->feeds)
        take_feed(state, status);
    else if (state->saving >= 0)
        take_save(state, status);
    else
        return take_load(state, status);
    return STATE_TAKEN;
}

void state_stop(struct state *state)
{
    state->is_told = true;
    if (!state->file || (state->phase != STATE_OPENS && state->phase != STATE_LOADS))
        return;
    state->phase = STATE_ENDS;
    if (state->child > 0)
        kill(state->child, SIGKILL);
}

void state_kill(struct state *state)
{
    if (state->child > 0)
        kill(state->child, SIGKILL);
}

void state_end(struct state *state)
{
    if (!state->file || state->lock < 0)
        return;
    if (state->phase == STATE_SERVES)
        settle(state);
    empty_folder(state);
    rmdir(state->folder);
}
