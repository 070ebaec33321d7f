/* Replaces msgget, msgsnd, msgrcv and msgctl of the C library by calls to a server, and what would
 * pass them by: fopen of the list of queues, and dlopen. The dynamic linker loads this library
 * before a program's own ones. If SYSVMSG_PATH is not set, each call goes to the C library. */
#define _GNU_SOURCE
#undef _FILE_OFFSET_BITS /* 64 would make fopen another name of fopen64 */
#include <dlfcn.h>
#include <errno.h>
#include <limits.h>
#include <pthread.h>
#include <stdio.h>
#include <string.h>
#include <sys/msg.h>

#include "caller_memory.h"
#include "connection.h"
#include "frames.h"
#include "requests.h"

#define EXPORTED __attribute__((visibility("default")))

/* For a return whose call has to be a jump. A compiler without it makes a jump if it optimizes. */
#if defined __has_attribute
#if __has_attribute(musttail)
#define AS_JUMP __attribute__((musttail))
#endif
#endif
#ifndef AS_JUMP
#define AS_JUMP
#endif

#ifndef MSG_STAT_ANY
#define MSG_STAT_ANY 13
#endif

/* The limits that the server doesn't report. */
enum { QBYTES_FIRST = 16384, MESSAGES_MAX = 256, BLOCK_BYTES = 64 };

/* Flags go to the server as they are. */
_Static_assert(IPC_CREAT == 512 && IPC_EXCL == 1024 && IPC_NOWAIT == 2048, "flags of the protocol");
_Static_assert(MSG_NOERROR == 4096 && MSG_EXCEPT == 8192, "flags of the protocol");
_Static_assert(sizeof(long) == TYPE_BYTES && sizeof(key_t) == 4, "types of the protocol");

typedef int get_function(key_t, int);
typedef int snd_function(int, const void *, size_t, int);
typedef ssize_t rcv_function(int, void *, size_t, long, int);
typedef int ctl_function(int, int, struct msqid_ds *);
typedef FILE *open_function(const char *, const char *);
typedef void *load_function(const char *, int);

/* The functions that the program would call without this library, or null: no library has it. */
static struct {
    get_function *get;
    snd_function *snd;
    rcv_function *rcv;
    ctl_function *ctl;
    open_function *open, *open64;
    load_function *load;
} originals;

static void find_originals(void)
{
    originals.get = (get_function *)dlsym(RTLD_NEXT, "msgget");
    originals.snd = (snd_function *)dlsym(RTLD_NEXT, "msgsnd");
    originals.rcv = (rcv_function *)dlsym(RTLD_NEXT, "msgrcv");
    originals.ctl = (ctl_function *)dlsym(RTLD_NEXT, "msgctl");
    originals.open = (open_function *)dlsym(RTLD_NEXT, "fopen");
    originals.open64 = (open_function *)dlsym(RTLD_NEXT, "fopen64");
    originals.load = (load_function *)dlsym(RTLD_NEXT, "dlopen");
}

/* Whether the calls go to the server. If not, `originals` has the functions to call. Both are found
 * when the library is loaded, so that a signal handler finds them there, or earlier if the start of
 * another library makes a call. */
static bool is_ours(void)
{
    static pthread_once_t found = PTHREAD_ONCE_INIT;
    pthread_once(&found, find_originals);
    return has_server();
}

__attribute__((constructor)) static void begin_library(void) { is_ours(); }

/* Returns 0, or -1 with errno set. */
static int outcome(int error)
{
    if (error == 0)
        return 0;
    errno = error;
    return -1;
}

EXPORTED int msgget(key_t key, int flags)
{
    int id = -1;
    if (!is_ours())
        return originals.get ? originals.get(key, flags) : outcome(ENOSYS);
    int error = request_get(NULL, key, flags, &id);
    return error ? outcome(error) : id;
}

EXPORTED int msgsnd(int id, const void *message, size_t size, int flags)
{
    long type;
    if (!is_ours())
        return originals.snd ? originals.snd(id, message, size, flags) : outcome(ENOSYS);
    pthread_testcancel();
    if (size > TEXT_MAX)
        return outcome(EINVAL);
    if (!is_readable(message))
        return outcome(EFAULT);
    memcpy(&type, message, sizeof type);
    return outcome(
        request_snd(NULL, id, type, (const char *)message + sizeof type, size, flags, -1));
}

EXPORTED ssize_t msgrcv(int id, void *message, size_t size, long type, int flags)
{
    size_t got;
    if (!is_ours())
        return originals.rcv ? originals.rcv(id, message, size, type, flags) : outcome(ENOSYS);
    pthread_testcancel();
    if (size > SSIZE_MAX || flags & MSG_COPY)
        return outcome(EINVAL);
    /* A null pointer is refused before a message is taken that could not be given. */
    if (!message)
        return outcome(EFAULT);
    size = size < TEXT_MAX ? size : TEXT_MAX;
    int error = request_rcv(NULL, id, message, size, type, flags, -1, &got);
    return error ? outcome(error) : (ssize_t)got;
}

static int ask_stat(int id, struct msqid_ds *told)
{
    struct queue_stat stat;
    int error = request_stat(NULL, id, &stat);
    if (error != 0)
        return error;
    memset(told, 0, sizeof *told);
    told->msg_perm.__key = stat.key;
    told->msg_perm.uid = stat.uid;
    told->msg_perm.gid = stat.gid;
    told->msg_perm.cuid = stat.cuid;
    told->msg_perm.cgid = stat.cgid;
    told->msg_perm.mode = (unsigned short)stat.mode;
    told->__msg_cbytes = stat.cbytes;
    told->msg_qnum = stat.qnum;
    told->msg_qbytes = stat.qbytes;
    told->msg_lspid = (pid_t)stat.lspid;
    told->msg_lrpid = (pid_t)stat.lrpid;
    told->msg_stime = (time_t)stat.stime;
    told->msg_rtime = (time_t)stat.rtime;
    told->msg_ctime = (time_t)stat.ctime;
    return 0;
}

/* The row of a slot as an msqid_ds has it: key, user, mode, bytes, messages; the others are 0. */
static struct msqid_ds row_as_stat(const struct queue_row *row)
{
    struct msqid_ds told;
    memset(&told, 0, sizeof told);
    told.msg_perm.__key = row->key;
    told.msg_perm.uid = row->uid;
    told.msg_perm.mode = (unsigned short)row->mode;
    told.__msg_cbytes = row->cbytes;
    told.msg_qnum = row->qnum;
    return told;
}

static int give(void *to, void *from, size_t size)
{
    return copy_to_caller(to, &(struct iovec){from, size}, 1);
}

static int stat_queue(int id, struct msqid_ds *to)
{
    struct msqid_ds told;
    int error = ask_stat(id, &told);
    return outcome(error ? error : give(to, &told, sizeof told));
}

static int set_queue(int id, const struct msqid_ds *from)
{
    struct msqid_ds wanted;
    if (copy_from_caller(&(struct iovec){&wanted, sizeof wanted}, 1, from) != 0)
        return outcome(EFAULT);
    struct queue_set set = {
        .uid = wanted.msg_perm.uid,
        .gid = wanted.msg_perm.gid,
        .mode = wanted.msg_perm.mode,
        .qbytes = wanted.msg_qbytes < UINT32_MAX ? (uint32_t)wanted.msg_qbytes : UINT32_MAX,
    };
    return outcome(request_set(NULL, id, &set));
}

static int remove_queue(int id) { return outcome(request_rm(NULL, id)); }

/* Adds to a sum that stays at the greatest number if it would be greater. */
static void add(int *sum, unsigned long more)
{
    unsigned long left = (unsigned long)(INT_MAX - *sum);
    *sum += (int)(more < left ? more : left);
}

/* Adds up the rows of all slots. */
static int add_rows(struct msginfo *sums, int *slots, int *greatest)
{
    struct queue_row row;
    int slot = 0;
    memset(sums, 0, sizeof *sums);
    *greatest = 0;
    do {
        int error = request_row(NULL, slot, &row);
        if (error != 0)
            return error;
        if (row.present) {
            add(&sums->msgpool, 1);
            add(&sums->msgmap, row.qnum);
            add(&sums->msgtql, row.cbytes);
            *greatest = slot;
        }
    } while (++slot < row.slots);
    *slots = row.slots;
    return 0;
}

/* IPC_INFO and MSG_INFO, which differ in three fields: the limits of IPC_INFO are in MSG_INFO what
 * is in use. */
static int tell_info(int command, struct msginfo *to)
{
    struct msginfo info;
    int slots, greatest;
    int error = add_rows(&info, &slots, &greatest);
    if (error != 0)
        return outcome(error);
    if (command == IPC_INFO) {
        info.msgpool = info.msgmap = 0;
        info.msgtql = slots * MESSAGES_MAX;
    }
    info.msgmax = TEXT_MAX;
    info.msgmnb = QBYTES_FIRST;
    info.msgmni = slots;
    info.msgssz = BLOCK_BYTES;
    error = give(to, &info, sizeof info);
    return error ? outcome(error) : greatest;
}

/* MSG_STAT and MSG_STAT_ANY: the queue of a slot, and its identifier as the result. MSG_STAT_ANY
 * needs no permission. To callers that have none it tells what the server's table has. */
static int stat_slot(int slot, int command, struct msqid_ds *to)
{
    struct queue_row row;
    int error = request_row(NULL, slot, &row);
    if (error == 0 && !row.present)
        error = EINVAL;
    if (error != 0)
        return outcome(error);
    struct msqid_ds told = row_as_stat(&row);
    error = ask_stat(row.id, &told);
    if (error == EACCES && command == MSG_STAT_ANY)
        error = 0;
    if (error == 0)
        error = give(to, &told, sizeof told);
    return error ? outcome(error) : row.id;
}

EXPORTED int msgctl(int id, int command, struct msqid_ds *told)
{
    if (!is_ours())
        return originals.ctl ? originals.ctl(id, command, told) : outcome(ENOSYS);
    if (id < 0)
        return outcome(EINVAL);
    switch (command) {
    case IPC_STAT: return stat_queue(id, told);
    case IPC_SET: return set_queue(id, told);
    case IPC_RMID: return remove_queue(id);
    case IPC_INFO:
    case MSG_INFO: return tell_info(command, (struct msginfo *)told);
    case MSG_STAT:
    case MSG_STAT_ANY: return stat_slot(id, command, told);
    default: return outcome(EINVAL);
    }
}

/* ipcs and programs like it read the kernel's list of queues from this file, and use msgctl if they
 * can't. */
static bool is_hidden(const char *name)
{
    return is_ours() && name && strcmp(name, "/proc/sysvipc/msg") == 0;
}

static FILE *no_file(int error)
{
    errno = error;
    return NULL;
}

static FILE *open_file(open_function *open, const char *name, const char *mode)
{
    return open ? open(name, mode) : no_file(ENOSYS);
}

EXPORTED FILE *fopen(const char *name, const char *mode)
{
    return is_hidden(name) ? no_file(ENOENT) : open_file(originals.open, name, mode);
}

EXPORTED FILE *fopen64(const char *name, const char *mode)
{
    return is_hidden(name) ? no_file(ENOENT) : open_file(originals.open64, name, mode);
}

/* A library that is loaded with RTLD_DEEPBIND would find the functions of the C library before
 * these. So the flag is dropped. Where dlopen searches depends on its caller, which it finds by the
 * return address. So the last call has to be a jump, which leaves that address as it is. */
EXPORTED void *dlopen(const char *name, int flags)
{
    if (is_ours())
        flags &= ~RTLD_DEEPBIND;
    if (!originals.load)
        return NULL;
    AS_JUMP return originals.load(name, flags);
}
