#define _GNU_SOURCE
#include "users.h"

#include <errno.h>
#include <fcntl.h>
#include <grp.h>
#include <pwd.h>
#include <stdarg.h>
#include <stdlib.h>
#include <string.h>
#include <sys/stat.h>
#include <unistd.h>

/* What a socket is named in its directory. */
#define SOCKET "socket"

static bool refuse(char why[WHY_BYTES], const char *format, ...)
{
    va_list values;
    va_start(values, format);
    vsnprintf(why, WHY_BYTES, format, values);
    va_end(values);
    return false;
}

static bool has(const struct users *users, const char *name)
{
    for (size_t i = 0; i < users->count; i++)
        if (strcmp(users->all[i].name, name) == 0)
            return true;
    return false;
}

static bool add(struct users *users, const char *name, uid_t uid, gid_t gid, char why[WHY_BYTES])
{
    if (has(users, name))
        return true;
    if (*name == '.' || strchr(name, '/'))
        return refuse(why, "--users: %s cannot be the name of a directory", name);
    if (users->count == MOST_USERS)
        return refuse(why, "--users: there are more than %d users", MOST_USERS);
    struct user user = {strdup(name), NULL, uid, gid, -1};
    if (!user.name || asprintf(&user.socket, "%s/%s/%s", users->run, name, SOCKET) < 0)
        return refuse(why, "--users: %s", strerror(ENOMEM));
    users->all[users->count++] = user;
    return true;
}

static bool add_named(struct users *users, const char *name, char why[WHY_BYTES])
{
    const struct passwd *found = getpwnam(name);
    if (!found)
        return refuse(why, "--users: there is no user %s", name);
    return add(users, name, found->pw_uid, found->pw_gid, why);
}

/* The members that a group lists, and the users whose group it is. */
static bool add_group(struct users *users, const struct group *group, char why[WHY_BYTES])
{
    gid_t gid = group->gr_gid;
    for (char **member = group->gr_mem; *member; member++)
        if (!add_named(users, *member, why))
            return false;
    bool is_well = true;
    const struct passwd *found;
    setpwent();
    while (is_well && (found = getpwent()))
        if (found->pw_gid == gid)
            is_well = add(users, found->pw_name, found->pw_uid, found->pw_gid, why);
    endpwent();
    return is_well;
}

static bool add_list(struct users *users, const char *list, char why[WHY_BYTES])
{
    char *names = strdup(list), *rest = names;
    bool is_well = names || refuse(why, "--users: %s", strerror(ENOMEM));
    for (char *name; is_well && (name = strsep(&rest, ","));)
        if (*name)
            is_well = add_named(users, name, why);
    free(names);
    return is_well;
}

/* Finds the users of a group, or of a list of names with commas between them. */
static bool find(struct users *users, const char *text, char why[WHY_BYTES])
{
    const struct group *group = strchr(text, ',') ? NULL : getgrnam(text);
    bool is_well = group ? add_group(users, group, why) : add_list(users, text, why);
    if (is_well && users->count == 0)
        return refuse(why, "--users: %s has no users", text);
    return is_well;
}

/* If *word is this option, returns its value and moves *word to the last word of it. */
static const char *value_at(char ***word, const char *name)
{
    size_t length = strlen(name);
    if (strncmp(**word, name, length) != 0)
        return NULL;
    if ((**word)[length] == '=')
        return **word + length + 1;
    return (**word)[length] == '\0' && (*word)[1] ? *++*word : NULL;
}

bool users_take(char ***options, struct users *users, char why[WHY_BYTES])
{
    const char *text = getenv("SYSVMSG_USERS"), *value;
    size_t count = 0;
    while ((*options)[count])
        count++;
    char **words = calloc(count + 2 * MOST_USERS + 1, sizeof *words), **next = words;
    if (!words)
        return refuse(why, "%s", strerror(ENOMEM));
    *users = (struct users){.parent = -1};
    bool is_asked = false;
    for (char **word = *options; *word; word++) {
        if ((value = value_at(&word, "--users"))) {
            text = value;
            is_asked = true;
        } else if ((value = value_at(&word, "--run"))) {
            users->run = value;
        } else {
            *next++ = *word;
        }
    }
    if (is_asked && !users->run)
        return refuse(why, "--users needs --run");
    if (!text || !*text)
        users->run = NULL;
    if (users->run && !find(users, text, why))
        return false;
    for (size_t i = 0; i < users->count; i++) {
        const struct user *user = &users->all[i];
        *next++ = "--as";
        if (asprintf(next++, "%s=%u:%u", user->socket, (unsigned)user->uid, (unsigned)user->gid)
            < 0)
            return refuse(why, "%s", strerror(ENOMEM));
    }
    *options = words;
    return true;
}

static bool is_own(const struct user *user) { return user->uid == geteuid(); }

/* Makes the directory of a user, or takes the one that is there if it is this user's or this
 * process's. */
static bool make(const struct users *users, struct user *user, char why[WHY_BYTES])
{
    struct stat found;
    if (!is_own(user) && geteuid() != 0)
        return refuse(
            why, "--users: only root makes directories of other users, such as %s", user->name);
    if (mkdirat(users->parent, user->name, 0700) != 0 && errno != EEXIST)
        return refuse(why, "%s/%s: %s", users->run, user->name, strerror(errno));
    user->directory =
        openat(users->parent, user->name, O_RDONLY | O_DIRECTORY | O_NOFOLLOW | O_CLOEXEC);
    if (user->directory < 0 || fstat(user->directory, &found) != 0)
        return refuse(why, "%s/%s: %s", users->run, user->name, strerror(errno));
    if (found.st_uid != user->uid && found.st_uid != geteuid()) {
        close(user->directory);
        user->directory = -1;
        return refuse(why, "%s/%s: it is the directory of another user", users->run, user->name);
    }
    if (fchown(user->directory, geteuid(), getegid()) != 0 || fchmod(user->directory, 0700) != 0)
        return refuse(why, "%s/%s: %s", users->run, user->name, strerror(errno));
    return true;
}

bool users_make(struct users *users, char why[WHY_BYTES])
{
    if (!users->run)
        return true;
    users->parent = open(users->run, O_RDONLY | O_DIRECTORY | O_CLOEXEC);
    if (users->parent < 0)
        return refuse(why, "%s: %s", users->run, strerror(errno));
    for (size_t i = 0; i < users->count; i++)
        if (!make(users, &users->all[i], why))
            return false;
    return true;
}

/* Gives a user a file. A process that is not root gives only to itself. */
static void give(const struct user *user, int file)
{
    if (file < 0 || fchownat(file, "", user->uid, user->gid, AT_EMPTY_PATH) != 0)
        dprintf(STDERR_FILENO, "sysvmsg-serve: %s: %s\n", user->socket, strerror(errno));
}

void users_give(const struct users *users)
{
    for (size_t i = 0; i < users->count; i++) {
        const struct user *user = &users->all[i];
        int socket = openat(user->directory, SOCKET, O_PATH | O_NOFOLLOW | O_CLOEXEC);
        give(user, socket);
        give(user, user->directory);
        close(socket);
    }
}

void users_remove(const struct users *users)
{
    for (size_t i = 0; i < users->count; i++) {
        const struct user *user = &users->all[i];
        if (user->directory >= 0 && unlinkat(users->parent, user->name, AT_REMOVEDIR) != 0)
            give(user, user->directory);
    }
}

const char *users_own(const struct users *users)
{
    for (size_t i = 0; i < users->count; i++)
        if (is_own(&users->all[i]))
            return users->all[i].socket;
    return NULL;
}
