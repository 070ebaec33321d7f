/* A program that loads a library with RTLD_DEEPBIND, which loads another one. Each finds what it
 * loads by its own DT_RUNPATH only. It is compiled three times: as the program, with -DOUTER and
 * with -DINNER.
 *   loading server     the calls of the inner library go to the server
 *   loading own        without SYSVMSG_PATH the flag has its effect */
#define _GNU_SOURCE
#include <dlfcn.h>
#include <stdio.h>
#include <string.h>
#include <sys/msg.h>

int make_queue(void);
int here(void);

#ifdef INNER

int here(void) { return 1; }

int make_queue(void)
{
    int id = msgget(IPC_PRIVATE, 0600);
    if (id < 0 || msgctl(id, IPC_RMID, NULL) != 0)
        return -1;
    return here();
}

#else

/* Loads a library, which must not be loaded yet, with RTLD_DEEPBIND. */
static void *load(const char *name)
{
    if (dlopen(name, RTLD_NOW | RTLD_NOLOAD | RTLD_DEEPBIND)) {
        fprintf(stderr, "%s is loaded already\n", name);
        return NULL;
    }
    void *library = dlopen(name, RTLD_NOW | RTLD_LOCAL | RTLD_DEEPBIND);
    if (!library)
        fprintf(stderr, "%s\n", dlerror());
    else if (dlopen(name, RTLD_NOW | RTLD_NOLOAD | RTLD_DEEPBIND) != library)
        fprintf(stderr, "%s is not found again\n", name);
    else
        return library;
    return NULL;
}

/* Calls the function of a library. */
static int call(void *library)
{
    int (*function)(void);
    void *found = dlsym(library, "make_queue");
    if (!found)
        return -1;
    memcpy(&function, &found, sizeof function);
    return function();
}

#ifdef OUTER

int make_queue(void)
{
    void *inner = load("libinner.so");
    return inner ? call(inner) : -1;
}

#else

int here(void) { return 2; }

/* Which of the two functions `here` the inner library finds depends on the flag. */
int main(int count, char **words)
{
    int wanted = count > 1 && strcmp(words[1], "own") == 0 ? 1 : 2;
    void *outer = load("libouter.so");
    int found = outer ? call(outer) : -1;
    if (found != wanted)
        fprintf(stderr, "make_queue returned %d instead of %d\n", found, wanted);
    if (dlopen("libnone.so", RTLD_NOW | RTLD_DEEPBIND) || !dlerror()) {
        fprintf(stderr, "a library is there that is not\n");
        return 1;
    }
    return found != wanted;
}

#endif
#endif
