/* Brings libsysvmsg_preload.so into the situations that a program can bring it into. One word names
 * the situation; a second one is the server's socket for those that stop a server or play one. It
 * ends with status 0 if all was as it should be, and else prints what was not, with status 1. */
#define _GNU_SOURCE
#include <dirent.h>
#include <errno.h>
#include <fcntl.h>
#include <poll.h>
#include <pthread.h>
#include <setjmp.h>
#include <signal.h>
#include <stdbool.h>
#include <stdio.h>
#include <stdlib.h>
#include <string.h>
#include <sys/mman.h>
#include <sys/msg.h>
#include <sys/resource.h>
#include <sys/socket.h>
#include <sys/stat.h>
#include <sys/syscall.h>
#include <sys/time.h>
#include <sys/un.h>
#include <sys/wait.h>
#include <time.h>
#include <unistd.h>

struct message {
    long type;
    char text[64];
};

static void expect(bool holds, const char *what)
{
    if (holds)
        return;
    printf("%s (errno %d)\n", what, errno);
    exit(1);
}

static bool refused(long result, int error) { return result == -1 && errno == error; }

static int new_queue(void)
{
    int id = msgget(IPC_PRIVATE, 0600);
    expect(id >= 0, "msgget");
    return id;
}

static int send_text(int id, long type)
{
    return msgsnd(id, &(struct message){type, "text"}, 4, 0);
}

static ssize_t receive_text(int id, long type, int flags)
{
    struct message in;
    return msgrcv(id, &in, sizeof in.text, type, flags);
}

static struct msqid_ds stat_of(int id)
{
    struct msqid_ds told;
    expect(msgctl(id, IPC_STAT, &told) == 0, "IPC_STAT");
    return told;
}

static int status_of(pid_t child)
{
    int status;
    waitpid(child, &status, 0);
    return WIFEXITED(status) ? WEXITSTATUS(status) : 255;
}

/* Calls a function for each open descriptor above the standard ones, and returns how often it
 * returned true. */
static int count_descriptors(bool (*is_counted)(int))
{
    int count = 0;
    DIR *list = opendir("/proc/self/fd");
    for (struct dirent *entry; (entry = readdir(list));) {
        int fd = atoi(entry->d_name);
        count += fd > 2 && fd != dirfd(list) && is_counted(fd);
    }
    closedir(list);
    return count;
}

static bool is_socket(int fd)
{
    struct stat found;
    return fstat(fd, &found) == 0 && S_ISSOCK(found.st_mode);
}

static bool is_high_socket(int fd)
{
    return fd >= 900 && is_socket(fd) && fcntl(fd, F_GETFD) == FD_CLOEXEC;
}

/* Returns the descriptor of the connection. */
__attribute__((noinline)) static int connection(void)
{
    for (int fd = 3; fd < 2000; fd++)
        if (is_socket(fd))
            return fd;
    return -1;
}

static void forks(void)
{
    int id = new_queue();
    pid_t child = fork();
    if (child == 0)
        _exit(count_descriptors(is_socket) != 0 || send_text(id, 1) != 0
              || count_descriptors(is_socket) != 1 || stat_of(id).msg_lspid != getpid());
    expect(status_of(child) == 0, "the child doesn't send by a connection of its own");
    expect(stat_of(id).msg_lspid == child, "msg_lspid is not the child's");
    expect(receive_text(id, 1, 0) == 4 && stat_of(id).msg_lrpid == getpid(),
        "the parent doesn't receive");
    expect(count_descriptors(is_socket) == 1, "the parent has not one connection");
}

/* The child has the server's only place until its end, and then the parent. The pipe orders
 * them: its second byte is there once the child is about to end. */
static void waits_for_place(void)
{
    int pipe_ends[2];
    char bytes[2];
    expect(pipe(pipe_ends) == 0, "pipe");
    pid_t child = fork();
    if (child == 0) {
        new_queue();
        bool told = write(pipe_ends[1], "1", 1) == 1;
        usleep(300000);
        _exit(!told || write(pipe_ends[1], "2", 1) != 1);
    }
    expect(read(pipe_ends[0], bytes, 1) == 1, "the child makes no call");
    new_queue();
    fcntl(pipe_ends[0], F_SETFL, O_NONBLOCK);
    expect(read(pipe_ends[0], bytes, 1) == 1, "the parent was served before the child had ended");
    expect(status_of(child) == 0, "the child failed");
}

static int shared_queue;
enum { PAIRS = 100, THREADS = 12, SHORT_THREADS = 60, FORKS = 300 };

static void *pairs(void *type)
{
    for (int i = 0; i < PAIRS; i++)
        if (send_text(shared_queue, (long)type) != 0
            || receive_text(shared_queue, (long)type, 0) != 4)
            return (void *)1;
    return NULL;
}

/* More threads at once than the server has places would wait for one another's ends. */
static void threads(void)
{
    pthread_t all[THREADS];
    void *failed;
    shared_queue = new_queue();
    for (long i = 0; i < THREADS; i++)
        pthread_create(&all[i], NULL, pairs, (void *)(i + 1));
    for (int i = 0; i < THREADS; i++)
        expect(pthread_join(all[i], &failed) == 0 && !failed, "a thread failed");
    expect(stat_of(shared_queue).msg_qnum == 0, "messages are left");
    expect(count_descriptors(is_socket) == 1, "connections are left");
}

static void *one_pair(void *type)
{
    return send_text(shared_queue, (long)type) == 0
                   && receive_text(shared_queue, (long)type, 0) == 4
               ? NULL
               : type;
}

/* Far more threads than places, one after the other: each closes its connection at its end. */
static void short_threads(void)
{
    pthread_t thread;
    void *failed;
    shared_queue = new_queue();
    for (long i = 1; i <= SHORT_THREADS; i++) {
        pthread_create(&thread, NULL, one_pair, (void *)i);
        expect(pthread_join(thread, &failed) == 0 && !failed, "a thread failed");
    }
    expect(count_descriptors(is_socket) == 1, "connections are left");
}

static void pause_forever(void)
{
    for (;;)
        pause();
}

static void *call_and_pause(void *unused)
{
    send_text(shared_queue, 1);
    pause_forever();
    return unused;
}

/* A child of fork has no copy of other threads' connections: what would hold the server's place
 * for as long as the child lives. */
static void fork_beside_threads(void)
{
    pthread_t thread;
    shared_queue = new_queue();
    pthread_create(&thread, NULL, call_and_pause, NULL);
    expect(receive_text(shared_queue, 1, 0) == 4, "msgrcv");
    while (count_descriptors(is_socket) != 2)
        usleep(1000);
    pid_t child = fork();
    if (child == 0)
        _exit(count_descriptors(is_socket));
    expect(status_of(child) == 0, "the child has copies");
}

static volatile bool goes_on = true;

static void *one_stat(void *unused)
{
    stat_of(shared_queue);
    return unused;
}

static void *one_after_another(void *unused)
{
    pthread_t thread;
    while (goes_on && pthread_create(&thread, NULL, one_stat, NULL) == 0)
        pthread_join(thread, NULL);
    return unused;
}

/* Nor has it a copy of one that a thread is opening at the fork. */
static void fork_beside_openings(void)
{
    pthread_t all[3];
    int copies = 0;
    shared_queue = new_queue();
    for (int i = 0; i < 3; i++)
        pthread_create(&all[i], NULL, one_after_another, NULL);
    for (int i = 0; i < FORKS; i++) {
        pid_t child = fork();
        if (child == 0)
            _exit(connection() != -1);
        copies += status_of(child) != 0;
    }
    goes_on = false;
    for (int i = 0; i < 3; i++)
        pthread_join(all[i], NULL);
    expect(copies == 0, "a child has a copy");
}

static void *wait_for_message(void *result)
{
    *(ssize_t *)result = receive_text(shared_queue, 1, 0);
    return NULL;
}

/* Starts a thread that waits on a new queue, and cancels it once it waits. */
static pthread_t cancelled(void *(*wait)(void *), ssize_t *result)
{
    pthread_t thread;
    shared_queue = new_queue();
    pthread_create(&thread, NULL, wait, result);
    usleep(300000);
    pthread_cancel(thread);
    return thread;
}

/* A thread that waits is cancelled. Removing the queue ends the wait that goes on in the server. */
static void cancels(void)
{
    ssize_t result = 77;
    void *how;
    pthread_t thread = cancelled(wait_for_message, &result);
    expect(pthread_join(thread, &how) == 0 && how == PTHREAD_CANCELED && result == 77,
        "the thread isn't cancelled");
    expect(count_descriptors(is_socket) == 1, "its connection is left");
    expect(msgctl(shared_queue, IPC_RMID, NULL) == 0, "IPC_RMID");
    shared_queue = new_queue();
    expect(one_pair((void *)2) == NULL, "calls after it fail");
}

static void *wait_uncancelled(void *result)
{
    pthread_setcancelstate(PTHREAD_CANCEL_DISABLE, NULL);
    return wait_for_message(result);
}

/* A thread that doesn't want to be cancelled waits on. */
static void cancels_disabled(void)
{
    ssize_t result = 77;
    void *how;
    pthread_t thread = cancelled(wait_uncancelled, &result);
    usleep(100000);
    expect(send_text(shared_queue, 1) == 0, "msgsnd");
    expect(
        pthread_join(thread, &how) == 0 && how == NULL && result == 4, "the thread didn't wait on");
}

/* A child of vfork runs on its parent's memory. */
static void vforks(void)
{
    int id = new_queue(), before = connection();
    volatile int status = 1;
    pid_t child = vfork();
    if (child == 0) {
        status = send_text(id, 1);
        _exit(status != 0);
    }
    expect(status_of(child) == 0 && status == 0, "the child doesn't send");
    expect(stat_of(id).msg_lspid == child, "msg_lspid is not the child's");
    expect(connection() == before && count_descriptors(is_socket) == 1,
        "the parent's connection is another");
    expect(receive_text(id, 1, 0) == 4, "the parent doesn't receive");
}

/* A child of which the handlers of fork know nothing. */
static void raw_forks(void)
{
    int id = new_queue(), before = connection();
    pid_t child = (pid_t)syscall(SYS_clone, SIGCHLD, NULL, NULL, NULL, NULL);
    if (child == 0)
        _exit(send_text(id, 1) != 0 || receive_text(id, 2, IPC_NOWAIT) != -1);
    expect(status_of(child) == 0, "the child doesn't send");
    expect(stat_of(id).msg_lspid == child, "msg_lspid is not the child's");
    expect(connection() == before && receive_text(id, 1, 0) == 4, "the parent doesn't receive");
}

static volatile sig_atomic_t caught;

static void send_in_handler(int number)
{
    caught = number;
    send_text(shared_queue, 1);
}

static void catch (int signal, void (*handler)(int))
{
    sigaction(signal, &(struct sigaction){.sa_handler = handler, .sa_flags = SA_RESTART}, NULL);
}

/* Whether a wait that a signal interrupted received the message that is there now, or left it. */
static bool receives_or_leaves(ssize_t got)
{
    return got == 4 || (refused(got, EINTR) && receive_text(shared_queue, 1, IPC_NOWAIT) == 4);
}

/* A handler within a wait sends the very message that is waited for. */
static void calls_in_handler(void)
{
    shared_queue = new_queue();
    catch (SIGALRM, send_in_handler);
    for (int i = 0; i < 3; i++) {
        ualarm(200000, 0);
        expect(receives_or_leaves(receive_text(shared_queue, 1, 0)) && caught,
            "the message of the handler isn't received");
        expect(stat_of(shared_queue).msg_qnum == 0, "it is received twice");
        caught = 0;
    }
    expect(count_descriptors(is_socket) == 1, "connections are left");
}

static void pair_in_handler(int number)
{
    caught += number == SIGPROF && one_pair((void *)5L) == NULL;
}

/* Handlers interrupt calls at any place, hundreds of times. */
static void many_handlers(void)
{
    shared_queue = new_queue();
    catch (SIGPROF, pair_in_handler);
    for (int i = 0; i < 2000 || caught < 20; i++) {
        if (i == 100)
            setitimer(ITIMER_PROF, &(struct itimerval){{0, 1000}, {0, 1000}}, NULL);
        expect(one_pair((void *)6L) == NULL, "a pair fails");
    }
    setitimer(ITIMER_PROF, &(struct itimerval){{0, 0}, {0, 0}}, NULL);
    expect(stat_of(shared_queue).msg_qnum == 0, "messages are left");
}

static pid_t handlers_child = -1;

static void fork_in_handler(int number)
{
    caught = number;
    handlers_child = fork();
}

/* A handler within a wait forks, and both processes return to the wait. The child's is over, and
 * the parent's goes on or is left. */
static void fork_within_wait(bool goes_on)
{
    shared_queue = new_queue();
    catch (SIGALRM, fork_in_handler);
    ualarm(200000, 0);
    ssize_t got = receive_text(shared_queue, 1, 0);
    int error = errno;
    if (handlers_child == 0) {
        expect(refused(got, EINTR), "the child's wait doesn't end with EINTR");
        _exit(send_text(shared_queue, 1) != 0);
    }
    expect(status_of(handlers_child) == 0, "the child doesn't send");
    errno = error;
    expect(goes_on ? got == 4 : receives_or_leaves(got), "the parent's wait ends otherwise");
    expect(stat_of(shared_queue).msg_qnum == 0, "a message is received twice");
}

static void forks_in_handler(void) { fork_within_wait(false); }

/* With SYSVMSG_EINTR=0. */
static void forks_in_wait_that_goes_on(void) { fork_within_wait(true); }

static sigjmp_buf out_of_wait;

static void jump(int number) { siglongjmp(out_of_wait, number); }

/* A handler jumps out of a wait. Removing the queue ends the wait that goes on in the server. */
static void jumps(void)
{
    int id = new_queue();
    catch (SIGALRM, jump);
    ualarm(200000, 0);
    if (sigsetjmp(out_of_wait, 1) == 0)
        expect(receive_text(id, 1, 0) == 77, "the wait ended");
    expect(msgctl(id, IPC_RMID, NULL) == 0, "IPC_RMID");
    shared_queue = new_queue();
    for (int i = 0; i < 20; i++)
        expect(one_pair((void *)2L) == NULL, "calls after it fail");
}

static void note(int number) { caught = number; }

/* With SYSVMSG_EINTR=0 a signal doesn't end a wait. */
static void signals(void)
{
    int id = new_queue();
    sigaction(SIGALRM, &(struct sigaction){.sa_handler = note}, NULL);
    pid_t child = fork();
    if (child == 0) {
        usleep(500000);
        _exit(send_text(id, 1) != 0);
    }
    ualarm(200000, 0);
    expect(receive_text(id, 1, 0) == 4 && caught, "the wait doesn't go on");
    expect(status_of(child) == 0, "the child doesn't send");
}

static long milliseconds(void)
{
    struct timespec now;
    clock_gettime(CLOCK_MONOTONIC, &now);
    return now.tv_sec * 1000L + now.tv_nsec / 1000000L;
}

static ssize_t wait_for_text(int id) { return receive_text(id, 1, 0); }

static ssize_t wait_for_room(int id)
{
    static struct message full;
    full.type = 2;
    return msgsnd(id, &full, sizeof full.text, 0);
}

/* A signal comes each 200 ms, in case the first one comes before the wait, and the server sees
 * within about 250 ms that a wait is left. The rest is for a machine that does other work too. */
static void is_interrupted(ssize_t (*wait)(int), int id, int flags)
{
    sigaction(SIGALRM, &(struct sigaction){.sa_handler = note, .sa_flags = flags}, NULL);
    caught = 0;
    long start = milliseconds();
    ualarm(200000, 200000);
    expect(refused(wait(id), EINTR) && caught, "the wait doesn't end with EINTR");
    ualarm(0, 0);
    expect(milliseconds() - start < 2000, "it ends late");
    expect(count_descriptors(is_socket) == 0, "the connection is left");
}

/* A signal that comes at the beginning of a wait ends it too. Should one come before the wait, the
 * next one comes a second later. */
static void signals_end_new_waits(void)
{
    enum { ROUNDS = 10, SOON = 900 };
    int id = new_queue();
    long took = SOON;
    catch (SIGALRM, note);
    for (int i = 0; i < ROUNDS && took >= SOON; i++) {
        stat_of(id);
        long start = milliseconds();
        setitimer(ITIMER_REAL, &(struct itimerval){{1, 0}, {0, 1000}}, NULL);
        expect(refused(wait_for_text(id), EINTR), "the wait doesn't end with EINTR");
        took = milliseconds() - start;
    }
    expect(took < SOON, "the signal is not seen");
}

/* A wait that a signal ended has had no effect, and has none later. */
static void signals_end_waits(void)
{
    int id = new_queue();
    struct msqid_ds told = stat_of(id);
    is_interrupted(wait_for_text, id, 0);
    is_interrupted(wait_for_text, id, SA_RESTART);
    expect(send_text(id, 1) == 0 && receive_text(id, 1, IPC_NOWAIT) == 4,
        "a wait that was left took a message");
    told.msg_qbytes = sizeof((struct message *)0)->text;
    expect(msgctl(id, IPC_SET, &told) == 0 && send_text(id, 1) == 0, "IPC_SET");
    is_interrupted(wait_for_room, id, 0);
    is_interrupted(wait_for_room, id, SA_RESTART);
    expect(receive_text(id, 1, IPC_NOWAIT) == 4 && stat_of(id).msg_qnum == 0,
        "a wait that was left sent its message");
}

/* Stops a process a few times, and lets it go on. */
static bool stop_often(pid_t process)
{
    for (int i = 0; i < 10; i++) {
        if (kill(process, SIGALRM) != 0 || kill(process, SIGSTOP) != 0
            || kill(process, SIGCONT) != 0)
            return false;
        usleep(300);
    }
    return true;
}

/* Only a handler ends a wait. A stop that is continued doesn't, nor a signal that is ignored,
 * neither at the beginning of a wait nor later. */
static void only_handlers_end_waits(void)
{
    enum { WAITS = 50 };
    int id = new_queue();
    pid_t parent = getpid();
    signal(SIGALRM, SIG_IGN);
    pid_t child = fork();
    if (child == 0) {
        usleep(200000);
        for (int i = 0; i < WAITS; i++) {
            if (!stop_often(parent) || send_text(id, 1) != 0)
                _exit(1);
        }
        usleep(200000);
        _exit(!stop_often(parent) || usleep(400000) != 0 || send_text(id, 1) != 0);
    }
    for (int i = 0; i <= WAITS; i++)
        expect(receive_text(id, 1, 0) == 4, "the wait doesn't go on");
    expect(status_of(child) == 0, "the child doesn't send");
}

static void count_signal(int number) { caught += number == SIGALRM; }

static ssize_t send_one(long type) { return send_text(shared_queue, type); }

static ssize_t receive_one(long type) { return receive_text(shared_queue, type, 0); }

/* Makes a call that has no reason to wait. On a machine that does other work too it may have to
 * wait for its hello, and a signal then ends it after 250 ms, but not earlier. It had no effect,
 * and is made again. */
static ssize_t without_wait(ssize_t (*call)(long), long type)
{
    enum { LEAST_MILLISECONDS = 200 };
    long start;
    ssize_t result;
    do {
        start = milliseconds();
        result = call(type);
    } while (refused(result, EINTR) && milliseconds() - start >= LEAST_MILLISECONDS);
    return result;
}

/* Makes calls that don't wait, until so many signals were handled. */
static void call_under_signals(long type, int microseconds, int signals)
{
    sigaction(SIGALRM, &(struct sigaction){.sa_handler = count_signal}, NULL);
    struct timeval period = {0, microseconds};
    setitimer(ITIMER_REAL, &(struct itimerval){period, period}, NULL);
    while (caught < signals) {
        expect(without_wait(send_one, type) == 0, "a send fails");
        expect(without_wait(receive_one, type) == 4, "a receive fails");
        expect(refused(receive_text(shared_queue, 9, IPC_NOWAIT), ENOMSG), "IPC_NOWAIT");
        expect(stat_of(shared_queue).msg_qnum <= 3, "IPC_STAT");
    }
}

/* No signal interrupts calls that don't wait, nor those that have IPC_NOWAIT. Three processes use
 * the same queue. */
static void never_waits(void)
{
    pid_t children[2];
    shared_queue = new_queue();
    for (int i = 0; i < 2; i++) {
        children[i] = fork();
        if (children[i] == 0) {
            call_under_signals(i + 1, 1000, 1000);
            _exit(0);
        }
    }
    call_under_signals(3, 10000, 100);
    setitimer(ITIMER_REAL, &(struct itimerval){{0, 0}, {0, 0}}, NULL);
    for (int i = 0; i < 2; i++)
        expect(status_of(children[i]) == 0, "a child's call fails");
}

static void *wait_in_thread(void *result)
{
    *(ssize_t *)result = receive_text(shared_queue, 1, 0);
    *(ssize_t *)result = refused(*(ssize_t *)result, EINTR) ? -EINTR : *(ssize_t *)result;
    return NULL;
}

/* A signal to one of two threads that wait ends that one's wait, and the other one's goes on. */
static void signals_end_one_thread(void)
{
    pthread_t one, other;
    ssize_t left = 77, received = 77;
    shared_queue = new_queue();
    catch (SIGUSR1, note);
    pthread_create(&one, NULL, wait_in_thread, &left);
    pthread_create(&other, NULL, wait_in_thread, &received);
    while (pthread_tryjoin_np(one, NULL) == EBUSY) {
        usleep(200000);
        pthread_kill(one, SIGUSR1);
    }
    expect(left == -EINTR, "the thread's wait doesn't end with EINTR");
    expect(send_text(shared_queue, 1) == 0, "msgsnd");
    pthread_join(other, NULL);
    expect(received == 4, "the other thread's wait doesn't go on");
    expect(count_descriptors(is_socket) == 1, "connections are left");
}

/* A wait for the server's only place is ended by a signal too, but not that of a call that the
 * kernel doesn't let wait. */
static void signals_end_wait_for_place(void)
{
    int pipe_ends[2], id = new_queue();
    char byte;
    expect(pipe(pipe_ends) == 0, "pipe");
    pid_t child = fork();
    if (child == 0) {
        expect(write(pipe_ends[1], "1", 1) == 1, "write");
        msgget(id, 0); /* takes the place once the parent has closed its connection */
        usleep(2000000);
        _exit(0);
    }
    expect(read(pipe_ends[0], &byte, 1) == 1, "read");
    usleep(300000);
    close(connection());
    usleep(300000);
    is_interrupted(wait_for_text, id, SA_RESTART);
    caught = 0;
    ualarm(100000, 0);
    expect(refused(receive_text(id, 1, IPC_NOWAIT), ENOMSG) && caught,
        "a signal ends a call with IPC_NOWAIT");
    status_of(child);
}

static void descriptors(void)
{
    int low = open("/dev/null", O_RDONLY);
    close(low);
    int id = new_queue();
    expect(count_descriptors(is_high_socket) == 1 && count_descriptors(is_socket) == 1,
        "it isn't high, or not CLOEXEC");
    expect(open("/dev/null", O_RDONLY) == low, "a low descriptor was used");
    closefrom(3);
    expect(send_text(id, 1) == 0, "no call after all descriptors were closed");
    int fd = connection(), pipe_ends[2];
    expect(pipe(pipe_ends) == 0 && dup2(pipe_ends[1], fd) == fd, "dup2");
    expect(receive_text(id, 1, 0) == 4, "no call after the descriptor became another file");
    expect(write(fd, "x", 1) == 1, "the other file was closed");
}

static void few_descriptors(void)
{
    setrlimit(RLIMIT_NOFILE, &(struct rlimit){64, 64});
    int id = new_queue();
    expect(connection() >= 32 && connection() < 64, "it isn't in the upper half");
    while (open("/dev/null", O_RDONLY) >= 0)
        ;
    expect(send_text(id, 1) == 0, "the connection doesn't last");
}

static void execs(char *self)
{
    new_queue();
    execl(self, self, "after-exec", NULL);
}

static void changes_user(void)
{
    expect(geteuid() == 0, "only root can");
    int id = new_queue();
    expect(stat_of(id).msg_perm.cuid == 0, "it isn't root's");
    expect(setegid(1001) == 0 && seteuid(1000) == 0, "seteuid");
    expect(refused(msgctl(id, IPC_RMID, NULL), EPERM), "the user isn't the effective one");
    int own = new_queue();
    expect(stat_of(own).msg_perm.cuid == 1000 && stat_of(own).msg_perm.cgid == 1001,
        "it isn't the effective user's");
    expect(seteuid(0) == 0 && syscall(SYS_setresuid, -1, 1000, -1) == 0, "setresuid");
    expect(refused(msgctl(id, IPC_RMID, NULL), EPERM), "the user isn't that of the system call");
    expect(seteuid(0) == 0 && msgctl(id, IPC_RMID, NULL) == 0, "root is root again");
    expect(setresgid(1001, 1001, 1001) == 0 && setresuid(1000, 1000, 1000) == 0, "setresuid");
    expect(stat_of(own).msg_perm.cuid == 1000 && msgctl(own, IPC_RMID, NULL) == 0,
        "it isn't that user's for good");
    expect(count_descriptors(is_socket) == 1, "connections are left");
}

/* A user who lacks all privileges, but can change between two users and two groups. */
static void changes_between_users(void)
{
    expect(setresgid(2001, 1001, 1001) == 0 && setresuid(2000, 1000, 1000) == 0, "only root can");
    int one = new_queue();
    expect(seteuid(2000) == 0 && refused(msgctl(one, IPC_RMID, NULL), EPERM), "seteuid");
    expect(setegid(2001) == 0 && stat_of(new_queue()).msg_perm.cgid == 2001, "setegid");
    expect(seteuid(1000) == 0 && msgctl(one, IPC_RMID, NULL) == 0, "it isn't the first user again");
}

/* The last 16 bytes of a page, and the page after it may not be touched. */
static char *edge(void)
{
    long page = sysconf(_SC_PAGESIZE);
    char *pages =
        mmap(NULL, 2 * (size_t)page, PROT_READ | PROT_WRITE, MAP_PRIVATE | MAP_ANONYMOUS, -1, 0);
    mprotect(pages + page, (size_t)page, PROT_NONE);
    return pages + page - 16;
}

static void bad_pointers(void)
{
    int id = new_queue(), before = connection();
    char *last = edge();
    void *constant = mmap(NULL, 4096, PROT_READ, MAP_PRIVATE | MAP_ANONYMOUS, -1, 0);
    *(long *)(void *)last = 9;
    expect(msgsnd(id, last, 8, 0) == 0, "a message up to the edge isn't sent");
    expect(refused(msgsnd(id, last, 9, 0), EFAULT) && refused(msgsnd(id, NULL, 5, 0), EFAULT),
        "msgsnd: EFAULT");
    expect(refused(msgsnd(id, last + 9, 0, 0), EFAULT), "msgsnd: EFAULT for a part of the type");
    expect(stat_of(id).msg_qnum == 1, "a message of nowhere was sent");
    expect(refused(msgrcv(id, NULL, 5, 0, 0), EFAULT) && stat_of(id).msg_qnum == 1,
        "msgrcv: EFAULT, and it stays");
    expect(connection() == before, "EFAULT ends the connection");
    expect(msgrcv(id, last, 8192, 0, 0) == 8,
        "a short text isn't received into the room that is there");
    send_text(id, 1);
    expect(refused(msgrcv(id, constant, 5, 0, 0), EFAULT), "msgrcv: EFAULT for constant memory");
    msgsnd(id, &(struct message){1, "text"}, 64, 0);
    expect(refused(msgrcv(id, last, 64, 0, 0), EFAULT) && stat_of(id).msg_qnum == 0,
        "msgrcv: EFAULT for a text that goes on past the edge");
    send_text(id, 1);
    expect(refused(msgrcv(id, last + 9, 5, 0, 0), EFAULT) && stat_of(id).msg_qnum == 0,
        "msgrcv: EFAULT for a part of the type");
    expect(refused(msgctl(id, IPC_STAT, NULL), EFAULT)
               && refused(msgctl(id, IPC_STAT, constant), EFAULT)
               && refused(msgctl(id, IPC_SET, (void *)last), EFAULT)
               && refused(msgctl(0, IPC_INFO, NULL), EFAULT)
               && refused(msgctl(0, MSG_STAT, constant), EFAULT),
        "msgctl: EFAULT");
    const char *volatile nowhere = NULL;
    expect(!fopen(nowhere, "r") && errno == EFAULT, "fopen: EFAULT");
    expect(send_text(id, 1) == 0 && receive_text(id, 1, 0) == 4, "calls after it fail");
}

static void tables(void)
{
    struct msqid_ds told;
    struct msginfo info;
    int one = new_queue(), two = msgget(4711, IPC_CREAT | 0600);
    send_text(two, 1);
    int last = msgctl(0, MSG_INFO, (struct msqid_ds *)&info), found = 0;
    expect(last >= 1 && info.msgpool == 2 && info.msgmap == 1 && info.msgtql == 4, "MSG_INFO");
    expect(msgctl(0, IPC_INFO, (struct msqid_ds *)&info) == last && info.msgmax == 8192
               && info.msgmni == 256 && info.msgtql == 256 * 256,
        "IPC_INFO");
    for (int slot = 0; slot <= last; slot++) {
        int id = msgctl(slot, MSG_STAT, &told);
        found += (id == one && told.msg_qnum == 0)
                 || (id == two && told.msg_qnum == 1 && told.msg_perm.__key == 4711);
    }
    expect(found == 2, "MSG_STAT");
    expect(refused(msgctl(last + 1, MSG_STAT, &told), EINVAL)
               && refused(msgctl(1 << 20, MSG_STAT, &told), EINVAL),
        "MSG_STAT of no queue");
    if (geteuid() == 0 && seteuid(1000) == 0) {
        expect(refused(msgctl(last, MSG_STAT, &told), EACCES), "MSG_STAT asks for permission");
        expect(
            msgctl(last, MSG_STAT_ANY, &told) == two && told.msg_qnum == 1, "MSG_STAT_ANY doesn't");
    }
}

static int listen_at(const char *path)
{
    struct sockaddr_un name = {.sun_family = AF_UNIX};
    int listener = socket(AF_UNIX, SOCK_STREAM, 0);
    strncpy(name.sun_path, path, sizeof name.sun_path - 1);
    expect(bind(listener, (struct sockaddr *)&name, sizeof name) == 0 && listen(listener, 9) == 0,
        "bind");
    return listener;
}

/* Plays a server that answers the hello and the first request with these bytes, or the hello alone
 * if there are none for the request; and keeps the connection. */
static pid_t play(
    int listener, const void *hello, size_t hello_size, const void *reply, size_t reply_size)
{
    char bytes[256];
    pid_t child = fork();
    if (child != 0)
        return child;
    int peer = accept(listener, NULL, NULL);
    if (read(peer, bytes, sizeof bytes) <= 0
        || write(peer, hello, hello_size) != (ssize_t)hello_size)
        _exit(1);
    if (reply_size > 0
        && (read(peer, bytes, sizeof bytes) <= 0
            || write(peer, reply, reply_size) != (ssize_t)reply_size))
        _exit(1);
    pause_forever();
    _exit(0);
}

static void fails_with_eio(pid_t player, const char *what)
{
    expect(refused(msgget(1, 0), EIO), what);
    expect(count_descriptors(is_socket) == 1, "the connection is left"); /* the listener is one */
    kill(player, SIGKILL);
    status_of(player);
}

static void one_bad_hello(int listener, const char *what, const void *hello, size_t size)
{
    fails_with_eio(play(listener, hello, size, NULL, 0), what);
}

static void one_bad_reply(int listener, const char *what, const void *reply, size_t size)
{
    fails_with_eio(play(listener, "\0\0\0\7\2\0\0\0\0\1\0", 11, reply, size), what);
}

static void bad_replies(const char *path)
{
    int listener = listen_at(path);
    one_bad_hello(listener, "a hello of another version", "\0\0\0\3\1\0\0", 7);
    one_bad_hello(listener, "a hello without slots", "\0\0\0\3\2\0\0", 7);
    one_bad_hello(listener, "too many slots", "\0\0\0\7\2\0\0\0\1\0\1", 11);
    one_bad_hello(listener, "a hello that is refused", "\0\0\0\3\2\0\1", 7);
    one_bad_reply(listener, "another version", "\0\0\0\7\1\1\0\0\0\0\5", 11);
    one_bad_reply(listener, "another operation", "\0\0\0\3\2\2\0", 7);
    one_bad_reply(listener, "an unknown error", "\0\0\0\3\2\1\4", 7);
    one_bad_reply(listener, "an error with fields", "\0\0\0\7\2\1\2\0\0\0\5", 11);
    one_bad_reply(listener, "no fields", "\0\0\0\3\2\1\0", 7);
    one_bad_reply(listener, "too short", "\0\0\0\2\2\1", 6);
    one_bad_reply(listener, "too long", "\xff\xff\xff\xff\2\1\0\0\0\0\0", 11);
    one_bad_reply(listener, "more than a reply", "\0\0\0\7\2\1\0\0\0\0\5\0", 12);
    one_bad_reply(listener, "a negative identifier", "\0\0\0\7\2\1\0\xff\0\0\0", 11);
}

static void half_reply(const char *path)
{
    int listener = listen_at(path);
    one_bad_reply(listener, "half a reply", "\0\0\0\7\2\1\0\0", 8);
}

static const char HELLO_REPLY[] = "\0\0\0\7\2\0\0\0\0\1";
static const char RECEIVE_REPLY[] = "\0\0\0\17\2\3\0\0\0\0\0\0\0\0\1text";

/* Sends a process signals for a while, or until there is input. A process that is slow may handle
 * the first ones before it waits. */
static void interrupt(pid_t process, int peer, int times)
{
    struct pollfd input = {.fd = peer, .events = POLLIN};
    for (int i = 0; i < times && poll(&input, 1, 20) == 0; i++)
        kill(process, SIGALRM);
}

/* Plays a server that lets signals interrupt the caller's receive, sees that it is left, sends so
 * many bytes of the reply, and closes the connection. `early` signals come before it has replied to
 * the hello. */
static pid_t play_left(int listener, bool early, size_t size)
{
    char bytes[256];
    pid_t caller = getpid(), child = fork();
    if (child != 0)
        return child;
    int peer = accept(listener, NULL, NULL);
    bool is_asked = read(peer, bytes, sizeof bytes) > 0;
    if (early)
        interrupt(caller, peer, 3);
    is_asked = is_asked && write(peer, HELLO_REPLY, sizeof HELLO_REPLY) == sizeof HELLO_REPLY
               && read(peer, bytes, sizeof bytes) > 0;
    interrupt(caller, peer, 1000);
    bool is_left = read(peer, bytes, sizeof bytes) == 0;
    for (int i = 0; i < 3; i++) {
        usleep(10000);
        kill(caller, SIGALRM);
    }
    _exit(!is_asked || !is_left || write(peer, RECEIVE_REPLY, size) != (ssize_t)size);
}

/* A wait that was left fails with EINTR if not a byte of a reply comes, and else counts. An early
 * signal makes the call give up if the reply to its hello is late, as on a busy machine. */
static void left_replies(const char *path)
{
    const size_t whole = sizeof RECEIVE_REPLY - 1;
    int listener = listen_at(path);
    catch (SIGALRM, note);
    for (size_t i = 0; i <= 2 * whole + 1; i++) {
        bool early = i % 2 == 1;
        size_t size = i / 2;
        pid_t player = play_left(listener, early, size);
        ssize_t got = receive_text(3, 1, 0);
        bool gives_up = early && refused(got, EINTR);
        if (size == whole)
            expect(got == 4 || gives_up, "a whole reply doesn't count");
        else
            expect(refused(got, size == 0 ? EINTR : EIO) || gives_up, "a part of a reply counts");
        expect(count_descriptors(is_socket) == 1, "a connection is left"); /* one listens */
        expect(status_of(player) == 0 || gives_up, "the wait isn't left");
    }
}

/* The server, whose process is the second word, is killed while a call waits. */
static void server_gone(const char *server)
{
    int id = new_queue();
    pid_t child = fork();
    if (child == 0) {
        usleep(300000);
        _exit(kill(atoi(server), SIGKILL) != 0);
    }
    expect(refused(receive_text(id, 1, 0), EIO), "the wait doesn't end with EIO");
    status_of(child);
    expect(refused(send_text(id, 1), EIO) && refused(msgget(1, 0), EIO)
               && refused(msgctl(id, IPC_RMID, NULL), EIO),
        "a later call doesn't fail with EIO");
    expect(refused(send_text(id, -1), EIO), "a refusal of the server's doesn't fail with EIO");
}

/* The server ends sessions that are idle for a second. */
static void idle(void)
{
    int id = new_queue();
    sleep(2);
    expect(refused(send_text(id, 1), EIO), "a call after the session's end doesn't fail with EIO");
    expect(send_text(id, 1) == 0 && receive_text(id, 1, 0) == 4, "the next call doesn't connect");
}

static void no_server(void)
{
    expect(refused(msgget(1, 0), EIO) && refused(msgget(1, 0), EIO), "EIO");
}

/* The standard error is a pipe from the start, and nobody reads it any more. */
static void unread_error(void)
{
    while (poll(&(struct pollfd){.fd = STDERR_FILENO}, 1, 1000) == 0)
        ;
    no_server();
}

/* A file has the number of the standard error, which was closed before or is closed here. */
static void error_is_file(const char *path)
{
    struct stat found;
    close(STDERR_FILENO);
    expect(open(path, O_RDWR | O_CREAT, 0600) == STDERR_FILENO, "open");
    no_server();
    expect(fstat(STDERR_FILENO, &found) == 0 && found.st_size == 0, "the line is in the file");
}

static const struct {
    const char *name;
    void (*run)(void);
} SITUATIONS[] = {
    {"fork", forks},
    {"threads", threads},
    {"short-threads", short_threads},
    {"fork-beside-threads", fork_beside_threads},
    {"fork-beside-openings", fork_beside_openings},
    {"cancel", cancels},
    {"cancel-disabled", cancels_disabled},
    {"vfork", vforks},
    {"raw-fork", raw_forks},
    {"call-in-handler", calls_in_handler},
    {"many-handlers", many_handlers},
    {"fork-in-handler", forks_in_handler},
    {"fork-in-wait-that-goes-on", forks_in_wait_that_goes_on},
    {"jump-out", jumps},
    {"signal", signals},
    {"signal-ends-wait", signals_end_waits},
    {"signal-ends-new-wait", signals_end_new_waits},
    {"only-handlers-end-waits", only_handlers_end_waits},
    {"never-waits", never_waits},
    {"signal-ends-one-thread", signals_end_one_thread},
    {"signal-ends-wait-for-place", signals_end_wait_for_place},
    {"descriptors", descriptors},
    {"few-descriptors", few_descriptors},
    {"user", changes_user},
    {"two-users", changes_between_users},
    {"bad-pointers", bad_pointers},
    {"tables", tables},
    {"idle", idle},
    {"no-server", no_server},
    {"unread-error", unread_error},
    {"wait-for-place", waits_for_place},
};

static const struct {
    const char *name;
    void (*run)(const char *);
} WITH_SERVER[] = {
    {"bad-replies", bad_replies},
    {"half-reply", half_reply},
    {"server-gone", server_gone},
    {"left-replies", left_replies},
    {"error-is-file", error_is_file},
};

int main(int count, char **words)
{
    if (count == 2 && strcmp(words[1], "exec") == 0)
        execs(words[0]);
    if (count == 2 && strcmp(words[1], "after-exec") == 0)
        return count_descriptors(is_socket);
    for (size_t i = 0; count == 2 && i < sizeof SITUATIONS / sizeof *SITUATIONS; i++)
        if (strcmp(words[1], SITUATIONS[i].name) == 0)
            return SITUATIONS[i].run(), 0;
    for (size_t i = 0; count == 3 && i < sizeof WITH_SERVER / sizeof *WITH_SERVER; i++)
        if (strcmp(words[1], WITH_SERVER[i].name) == 0)
            return WITH_SERVER[i].run(words[2]), 0;
    puts("no such situation");
    return 2;
}
