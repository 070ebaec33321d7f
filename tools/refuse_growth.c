/* Refuses growths of memory in a program that is run with this library loaded before its own: the one that GROWTH numbers,
 * counted from 1, and where ONWARD is set every later one too. Only what the program's own code asks for is counted, and
 * not what the C library asks for itself. Where MARK is set, those after the first growth of that many bytes are counted
 * and no others. The file TOLD has the number of growths that were asked for so far, however the program ends; -1 until
 * the mark.
 *
 * Where STEP is set, copies of the process run the program from its beginning, one after another and a minute each. The
 * first copy has growth GROWTH refused, each later one the growth that is STEP further on. TOLD then has the number of
 * copies that passed with a growth refused, the number of growths that the last copy asked for, and a word for the end:
 *     all         the last copy asked for no growth that was to be refused
 *     left        the next growth was beyond MOST, or the second UNTIL of the epoch had come
 *     unmarked    the last copy did not meet the mark
 *     failed      the last copy did not end with status 0
 * The status is that of the last copy, 128 and the signal if one ended it. What it printed stands alone in the file that
 * is standard output. */
#define _GNU_SOURCE
#include <dlfcn.h>
#include <errno.h>
#include <fcntl.h>
#include <link.h>
#include <stdatomic.h>
#include <stdio.h>
#include <stdlib.h>
#include <sys/mman.h>
#include <sys/wait.h>
#include <time.h>
#include <unistd.h>

/* How many growths were asked for, -1 until the mark. Copies of the process write it where the process itself reads it. */
static atomic_long own_count;
static atomic_long *asked = &own_count;
static int told = -1;
static long growth;
static int onward;
static size_t mark;
static ElfW(Addr) code_begin, code_end;
static void *(*next_malloc)(size_t);
static void *(*next_realloc)(void *, size_t);

/* The code of the program itself, which is told first. */
static int find_code(struct dl_phdr_info *info, size_t size, void *data)
{
    (void)size;
    (void)data;
    for (int i = 0; i < info->dlpi_phnum; i++) {
        const ElfW(Phdr) *part = &info->dlpi_phdr[i];
        if (part->p_type == PT_LOAD && part->p_flags & PF_X) {
            code_begin = info->dlpi_addr + part->p_vaddr;
            code_end = code_begin + part->p_memsz;
        }
    }
    return 1;
}

/* So many growths, in as many characters as any number has. */
static void tell(long number)
{
    if (told < 0)
        return;
    char text[24];
    int length = snprintf(text, sizeof text, "%-20ld\n", number);
    if (pwrite(told, text, length, 0) != length)
        told = -1;
}

/* The number that a variable of the environment has, 0 if it is not set. */
static long number_in(const char *name)
{
    const char *word = getenv(name);
    return word ? atol(word) : 0;
}

/* Waits for a copy, and returns its status as a shell would. */
static int status_of(pid_t copy)
{
    int status = 0;
    while (waitpid(copy, &status, 0) < 0)
        if (errno != EINTR)
            return 127;
    return WIFSIGNALED(status) ? 128 + WTERMSIG(status) : WEXITSTATUS(status);
}

/* Runs the program in a copy of the process, and sets status to how that ended. Returns whether this is the copy. */
static int is_copy(int *status)
{
    if (ftruncate(STDOUT_FILENO, 0) == 0)
        lseek(STDOUT_FILENO, 0, SEEK_SET);
    *asked = mark ? -1 : 0;
    pid_t copy = fork();
    if (copy == 0) {
        told = -1;
        alarm(60);
        return 1;
    }
    *status = copy < 0 ? 127 : status_of(copy);
    return 0;
}

/* Runs the program in copies of the process. Returns only in a copy. */
static void run_in_copies(long step, long most, long until)
{
    const char *word = NULL;
    long passed = 0;
    int status = 0;
    asked = mmap(NULL, sizeof *asked, PROT_READ | PROT_WRITE, MAP_SHARED | MAP_ANONYMOUS, -1, 0);
    if (asked == MAP_FAILED)
        _exit(127);
    while (!word) {
        if ((most > 0 && growth > most) || (until > 0 && time(NULL) >= until))
            word = "left";
        else if (is_copy(&status))
            return;
        else if (status != 0)
            word = "failed";
        else if (*asked < 0)
            word = "unmarked";
        else if (*asked < growth)
            word = "all";
        else {
            passed++;
            growth += step;
        }
    }
    dprintf(told, "%ld %ld %s\n", passed, (long)*asked, word);
    _exit(status);
}

__attribute__((constructor)) static void begin(void)
{
    const char *name = getenv("TOLD");
    dl_iterate_phdr(find_code, NULL);
    growth = number_in("GROWTH");
    onward = getenv("ONWARD") != NULL;
    mark = number_in("MARK");
    if (name)
        told = open(name, O_WRONLY | O_CREAT | O_TRUNC | O_CLOEXEC, 0600);
    if (number_in("STEP") > 0)
        run_in_copies(number_in("STEP"), number_in("MOST"), number_in("UNTIL"));
    *asked = mark ? -1 : 0;
    tell(*asked);
}

/* Whether the growth is not counted: it is before the mark, or is the mark. */
static int is_before(size_t size)
{
    if (*asked >= 0)
        return 0;
    if (size == mark) {
        *asked = 0;
        tell(0);
    }
    return 1;
}

static int is_refused(void *caller, size_t size)
{
    ElfW(Addr) at = (ElfW(Addr))caller;
    if (at < code_begin || at >= code_end || is_before(size))
        return 0;
    long number = atomic_fetch_add(asked, 1) + 1;
    tell(number);
    if (growth == 0 || number < growth || (number > growth && !onward))
        return 0;
    errno = ENOMEM;
    return 1;
}

void *malloc(size_t size)
{
    if (is_refused(__builtin_return_address(0), size))
        return NULL;
    if (!next_malloc)
        *(void **)&next_malloc = dlsym(RTLD_NEXT, "malloc");
    return next_malloc(size);
}

void *realloc(void *block, size_t size)
{
    if (is_refused(__builtin_return_address(0), size))
        return NULL;
    if (!next_realloc)
        *(void **)&next_realloc = dlsym(RTLD_NEXT, "realloc");
    return next_realloc(block, size);
}
