/*
 * What sudo itself tells desk-host: an audit plugin (sudo_plugin(5)), which runs as root in
 * everybody's sudo. When sudo is about to start a command, it refuses one whose prompt was open for
 * too long, or before whose end this host's rights changed; it writes down what sudo resolved, in
 * /run/desk-host/starts, and puts the sudo, and so all that comes of it, into a control group of
 * its own. A start that cannot be written down is refused. What root starts is left alone, so that
 * root can mend this; but for `desk-host check --deep`. It starts nothing, asks nobody, and waits
 * for nothing.
 */

#define _GNU_SOURCE
#include <errno.h>
#include <fcntl.h>
#include <limits.h>
#include <stdbool.h>
#include <stdio.h>
#include <stdlib.h>
#include <string.h>
#include <sudo_plugin.h>
#include <sys/stat.h>
#include <sys/vfs.h>
#include <time.h>
#include <unistd.h>

#ifndef RUN
#define RUN "/run/desk-host"
#define CONF "/etc/desk/fetch.conf"
#endif
#define STARTS RUN "/starts"
#define KEPT RUN "/kept"       /* a line for each start, which desk-host takes to /var */
#define PENDING RUN "/pending" /* what is in it starts desk-starts.service */
#define SECOND 1000000000LL
#define PLAIN_PROMPT 60       /* the seconds of PROMPT where the settings say none */
#define RECORD (1024 * 1024L) /* the bytes that a record may have */
#define LINE 2048L            /* those of a kept line's words */
#define MOST (16 << 20)       /* those of all kept lines until desk-host takes them */
#define CGROUP2 0x63677270    /* CGROUP2_SUPER_MAGIC */

static struct {
    sudo_printf_t say;
    char *const *settings, *const *user;
    long long opened; /* when sudo began, in nanoseconds of a clock that nobody sets */
    pid_t pid;
    bool is_asked, is_placed;
    char name[64];        /* of the record and of the group: the process and its start */
    char above[PATH_MAX]; /* the group in which the new one is made; empty where there is none */
} own;

/* The value of a line NAME=VALUE of sudo's lists; nothing where there is none. */
static const char *value(char *const list[], const char *name)
{
    size_t length = strlen(name);
    for (size_t at = 0; list != NULL && list[at] != NULL; at++)
        if (strncmp(list[at], name, length) == 0 && list[at][length] == '=')
            return list[at] + length + 1;
    return NULL;
}

static bool is_set(char *const list[], const char *name)
{
    const char *found = value(list, name);
    return found != NULL && strcmp(found, "true") == 0;
}

static long long since_boot(void)
{
    struct timespec now = {0, 0};
    clock_gettime(CLOCK_BOOTTIME, &now);
    return now.tv_sec * SECOND + now.tv_nsec;
}

/* Reads a short file and ends it by a zero; false where it cannot, or where it is longer. */
static bool read_short(const char *path, char *text, size_t room)
{
    size_t held = 0;
    ssize_t more = 1;
    int file = open(path, O_RDONLY | O_CLOEXEC | O_NOCTTY | O_NONBLOCK);
    if (file == -1)
        return false;
    while (more > 0 && held < room) {
        more = read(file, text + held, room - held);
        held += more > 0 ? (size_t)more : 0;
    }
    int why = more > 0 ? EFBIG : errno;
    close(file);
    errno = why;
    if (more == 0)
        text[held] = '\0';
    return more == 0;
}

/* -- what the texts say (tests/hosts/plugin.c tries these with random bytes) -- */

/* The start of a process, in clock ticks, of the text of its /proc/PID/stat; 0 where it has none.
 * What stands in brackets is its user's choice. */
static unsigned long long start_of(const char *text)
{
    const char *at = strrchr(text, ')');
    for (int field = 2; at != NULL && field < 22; field++)
        at = strchr(at + 1, ' ');
    return at == NULL ? 0 : strtoull(at, NULL, 10);
}

/* The seconds that a prompt may be open, of the text of the settings: the last line that says it
 * decides, and one that says no number counts as none. */
static long prompt_of(const char *text)
{
    long found = PLAIN_PROMPT;
    for (const char *line = text; line != NULL; line = strchr(line, '\n')) {
        line += strspn(line, " \t\r\n");
        const char *at = line + strcspn(line, " \t=\n");
        if (at - line != 6 || strncmp(line, "PROMPT", 6) != 0)
            continue;
        at += strspn(at, " \t");
        if (*at != '=')
            continue;
        at += 1 + strspn(at + 1, " \t\"'");
        size_t digits = strspn(at, "0123456789");
        const char *end = at + digits + strspn(at + digits, " \t\r\"'");
        bool is_number = digits > 0 && digits <= 9 && (*end == '\n' || *end == '\0');
        found = is_number ? strtol(at, NULL, 10) : PLAIN_PROMPT;
    }
    return found;
}

/* The nanoseconds of a text like 12.345, whatever the user's locale says of numbers; -1 where it is
 * none. */
static long long moment_of(const char *text)
{
    long long whole = 0, part = 0, unit = SECOND;
    size_t digits = strspn(text, "0123456789");
    if (digits == 0 || digits > 9)
        return -1;
    for (size_t at = 0; at < digits; at++)
        whole = whole * 10 + (text[at] - '0');
    text += digits;
    for (text += *text == '.'; *text >= '0' && *text <= '9'; text++)
        part += (unit /= 10) * (*text - '0');
    return *text == '\n' && text[1] == '\0' ? whole * SECOND + part : -1;
}

/* The process's group of the text of its /proc/PID/cgroup, ended in place; nothing where it has
 * none that this system's tree shows. */
static char *group_of(char *text)
{
    char *line = strncmp(text, "0::/", 4) == 0 ? text : strstr(text, "\n0::/");
    if (line == NULL)
        return NULL;
    line = strchr(line, '/');
    line[strcspn(line, "\n")] = '\0';
    return strstr(line, "/..") != NULL ? NULL : line;
}

/* -- whether what sudo judged still holds -- */

static const char *why_stale(void)
{
    static char text[64 * 1024];
    bool is_told = read_short(RUN "/changed", text, 64);
    if (!is_told && errno != ENOENT)
        return "desk-host cannot read when this host's rights last changed";
    if (is_told && (moment_of(text) == -1 || moment_of(text) >= own.opened))
        return "this host's rights have changed since sudo was started: start it again";
    long prompt = read_short(CONF, text, sizeof(text)) ? prompt_of(text) : PLAIN_PROMPT;
    if (since_boot() - own.opened > prompt * SECOND)
        return "sudo was started too long ago: start it again";
    return NULL;
}

/* -- a control group of its own -- */

/* Whether a group, and the list of its processes, are root's: else its user may take processes out
 * of all that is below it. */
static bool is_roots(int folder)
{
    struct stat seen[2];
    if (fstat(folder, &seen[0]) == -1 || fstatat(folder, "cgroup.procs", &seen[1], 0) == -1)
        return false;
    mode_t modes = seen[0].st_mode | seen[1].st_mode;
    return seen[0].st_uid == 0 && seen[1].st_uid == 0 && (modes & 022) == 0;
}

/* Finds the group in which the new one is made: the sudo's own, so that it stays in the session
 * that login gave it; where that, or one above it, is its user's, the one above that. Where a
 * system has none, that is no fault. */
static void find_above(void)
{
    static const char *const trees[] = {"/sys/fs/cgroup", "/sys/fs/cgroup/unified"};
    static char text[64 * 1024];
    char *save = NULL, found[PATH_MAX];
    struct statfs seen;
    size_t which = 0;
    while (which < 2 && (statfs(trees[which], &seen) == -1 || seen.f_type != CGROUP2))
        which++;
    char *group = which < 2 && read_short("/proc/self/cgroup", text, sizeof(text)) ?
        group_of(text) : NULL;
    int folder = group == NULL ? -1 : open(trees[which], O_RDONLY | O_DIRECTORY | O_CLOEXEC);
    if (folder == -1)
        return;
    size_t held = strlen(strcpy(found, trees[which]));
    for (char *it = strtok_r(group, "/", &save); it != NULL; it = strtok_r(NULL, "/", &save)) {
        int next = openat(folder, it, O_RDONLY | O_DIRECTORY | O_CLOEXEC | O_NOFOLLOW);
        if (next == -1)
            break;
        close(folder);
        folder = next;
        if (!is_roots(folder) || held + strlen(it) + 2 > sizeof(found))
            break;
        held += (size_t)snprintf(found + held, sizeof(found) - held, "/%s", it);
    }
    close(folder);
    memcpy(own.above, found, held + 1);
}

static bool own_group(char path[static PATH_MAX])
{
    bool is_whole = snprintf(path, PATH_MAX, "%s/desk-%s", own.above, own.name) < PATH_MAX;
    errno = is_whole ? errno : ENAMETOOLONG;
    return is_whole;
}

/* Writes this process into a group. */
static bool enter(const char *group)
{
    char path[PATH_MAX + 16];
    snprintf(path, sizeof(path), "%s/cgroup.procs", group);
    int file = open(path, O_WRONLY | O_CLOEXEC | O_NOFOLLOW);
    bool is_in = file != -1 && write(file, "0\n", 2) == 2;
    int why = errno;
    if (file != -1)
        close(file);
    errno = why;
    return is_in;
}

/* Makes the group and enters it. A system that lets root make none has none; whatever else fails
 * is a fault, since a user may have brought it about. */
static bool place(void)
{
    char path[PATH_MAX];
    if (own.above[0] == '\0')
        return true;
    if (!own_group(path))
        return false;
    if (mkdir(path, 0755) == -1 && errno != EEXIST)
        return errno == EROFS || errno == EACCES || errno == EPERM;
    own.is_placed = enter(path);
    return own.is_placed;
}

/* -- the record -- */

/* Writes a field; what goes past the bound is left out. */
static void put(FILE *record, long *left, const char *name, const char *text)
{
    if (text == NULL || *left < 0)
        return;
    *left -= (long)(strlen(name) + strlen(text) + 2);
    if (*left < 0)
        fprintf(record, "cut=true%c", 0);
    else
        fprintf(record, "%s=%s%c", name, text, 0);
}

static void put_all(FILE *record, char *const command[], char *const words[])
{
    static const char *const resolved[] = {"command", "runas_user", "sudoedit"};
    char path[PATH_MAX];
    long left = RECORD;
    put(record, &left, "form", "1");
    put(record, &left, "name", own.name);
    put(record, &left, "cgroup", own.above[0] != '\0' && own_group(path) ? path : NULL);
    put(record, &left, "user", value(own.user, "user"));
    put(record, &left, "cwd", value(own.user, "cwd"));
    put(record, &left, "given_user", value(own.settings, "runas_user"));
    put(record, &left, "given_group", value(own.settings, "runas_group"));
    put(record, &left, "given_root", value(own.settings, "cmnd_chroot"));
    bool is_shell = is_set(own.settings, "run_shell") || is_set(own.settings, "login_shell");
    put(record, &left, "is_shell", is_shell ? "true" : NULL);
    for (size_t at = 0; at < sizeof(resolved) / sizeof(*resolved); at++)
        put(record, &left, resolved[at], value(command, resolved[at]));
    for (size_t at = 0; words[at] != NULL; at++)
        put(record, &left, "word", words[at]);
    fprintf(record, "end=true%c", 0);
}

/* The folder of the records, root's alone, which is held open; -1 where there is none such. With
 * the first one it is written down when that was. */
static int records(void)
{
    struct stat seen;
    if (mkdir(RUN, 0755) == 0 && chmod(RUN, 0755) == -1)
        return -1;
    if (mkdir(STARTS, 0700) == 0) {
        int since = open(RUN "/since", O_WRONLY | O_CREAT | O_TRUNC | O_CLOEXEC | O_NOFOLLOW, 0600);
        if (since == -1 || dprintf(since, "%lld\n", own.opened / SECOND) < 0 || close(since) == -1)
            return -1;
    }
    int folder = open(STARTS, O_RDONLY | O_DIRECTORY | O_CLOEXEC | O_NOFOLLOW);
    if (folder != -1 && (fstat(folder, &seen) == -1 || seen.st_uid != 0 || seen.st_mode & 022)) {
        close(folder);
        errno = EPERM;
        return -1;
    }
    return folder;
}

/* Writes the record, in one step. */
static bool write_record(int folder, char *const command[], char *const words[])
{
    char new[sizeof(own.name) + 8];
    snprintf(new, sizeof(new), "%s.new", own.name);
    int file = openat(folder, new, O_WRONLY | O_CREAT | O_TRUNC | O_CLOEXEC | O_NOFOLLOW, 0600);
    FILE *record = file == -1 ? NULL : fdopen(file, "w");
    if (record == NULL)
        return false;
    put_all(record, command, words);
    bool is_bad = ferror(record) != 0;
    is_bad |= fclose(record) != 0;
    if (!is_bad && renameat(folder, new, folder, own.name) == 0)
        return true;
    int why = errno;
    unlinkat(folder, new, 0);
    errno = why;
    return false;
}

/* -- what is kept of a start after it has ended -- */

/* Writes a text of JSON, each byte that is not plain by its number; what goes past the bound is
 * left out. */
static void put_text(FILE *line, long *left, const char *text)
{
    putc('"', line);
    for (; *text != '\0' && *left > 0; text++, --*left)
        if (*text >= ' ' && *text <= '~' && *text != '"' && *text != '\\')
            putc(*text, line);
        else
            fprintf(line, "\\u%04x", (unsigned char)*text);
    putc('"', line);
}

static void put_line(FILE *line, char *const command[], char *const words[])
{
    long left = LINE;
    struct timespec now = {0, 0};
    clock_gettime(CLOCK_REALTIME, &now);
    const struct { const char *name, *text; } fields[] = {
        {"user", value(own.user, "user")}, {"runas", value(command, "runas_user")},
        {"command", value(command, "command")},
        {"tty", value(own.user, "tty")}};
    /* (a line that a full disk cut has its end here) */
    fprintf(line, "\n{\"form\":1,\"at\":%lld,\"name\":\"%s\"", (long long)now.tv_sec, own.name);
    for (size_t at = 0; at < sizeof(fields) / sizeof(*fields); at++)
        if (fields[at].text != NULL) {
            fprintf(line, ",\"%s\":", fields[at].name);
            put_text(line, &left, fields[at].text);
        }
    fprintf(line, ",\"words\":[");
    for (size_t at = 0; words[at] != NULL && left > 0; at++, left--) {
        fprintf(line, at > 0 ? "," : "");
        put_text(line, &left, words[at]);
    }
    fprintf(line, "]%s%s}\n", left > 0 ? "" : ",\"cut\":true",
        is_set(command, "sudoedit") ? ",\"edit\":true" : "");
}

/* Adds a text to the kept lines, in one write; -1 where it cannot. Where too many wait for
 * desk-host, that is noted instead: the start's record stands. Answers 0 where desk-host took the
 * file meanwhile (its user may stop a sudo at any moment): then it has to be added again. */
static int add_line(const char *text, size_t length)
{
    struct stat seen, now;
    int flags = O_WRONLY | O_CREAT | O_APPEND | O_CLOEXEC | O_NOFOLLOW;
    int file = open(KEPT, flags, 0600);
    if (file == -1 || fstat(file, &seen) == -1)
        return -1;
    bool is_full = seen.st_size > MOST;
    bool is_added = is_full || write(file, text, length) == (ssize_t)length;
    int why = errno;
    close(file);
    errno = why;
    if (is_full && (file = open(KEPT ".lost", flags, 0600)) != -1)
        close(file);
    if (!is_added || file == -1)
        return -1;
    return is_full || (stat(KEPT, &now) == 0 && now.st_ino == seen.st_ino);
}

/* Keeps a line of the start. */
static bool keep_line(char *const command[], char *const words[])
{
    char *text = NULL;
    size_t length = 0;
    FILE *line = open_memstream(&text, &length);
    if (line == NULL)
        return false;
    put_line(line, command, words);
    int added = fclose(line) == 0 ? 0 : -1;
    for (int at = 0; added == 0 && at < 9; at++)
        added = add_line(text, length);
    int why = added == 0 ? EAGAIN : errno;
    free(text);
    errno = why;
    return added == 1;
}

/* Has systemd start desk-host's own step for what starts. It is no fault where that is not so: the
 * next look does it. */
static void tell_systemd(void)
{
    (void)!mkdir(PENDING, 0700);
    int file = open(PENDING "/start", O_WRONLY | O_CREAT | O_CLOEXEC | O_NOFOLLOW, 0600);
    if (file != -1)
        close(file);
}

/* -- what sudo calls -- */

static int desk_open(unsigned int version, sudo_conv_t conversation, sudo_printf_t say,
    char *const settings[], char *const user[], int optind, char *const words[],
    char *const environment[], char *const options[], const char **why)
{
    (void)version, (void)conversation, (void)optind, (void)words, (void)environment;
    (void)options, (void)why;
    own.opened = since_boot();
    own.say = say;
    own.settings = settings;
    own.user = user;
    return 1;
}

/* Why the start cannot be kept; nothing where it is. */
static const char *why_not_kept(char *const command[], char *const words[])
{
    static char told[256], text[4096];
    own.pid = getpid();
    unsigned long long start =
        read_short("/proc/self/stat", text, sizeof(text)) ? start_of(text) : 0;
    snprintf(own.name, sizeof(own.name), "%ld-%llu", (long)own.pid, start);
    find_above();
    int folder = start == 0 ? -1 : records();
    bool is_kept = folder != -1 && write_record(folder, command, words);
    bool is_in_line = is_kept && keep_line(command, words);
    bool is_whole = is_in_line && place();
    if (!is_whole)
        snprintf(told, sizeof(told), "desk-host cannot %s, and nothing is started: %s",
            is_in_line ? "put it into a control group" :
            is_kept ? "keep a line of it in " KEPT : "write it down in " STARTS, strerror(errno));
    if (is_kept && !is_whole)
        unlinkat(folder, own.name, 0);
    if (folder != -1)
        close(folder);
    if (is_whole)
        tell_systemd();
    return is_whole ? NULL : told;
}

/* Whether root tries the plugin itself: `desk-host self-test`, as `check --deep` has it. */
static bool is_test(char *const words[], const char *what)
{
    const char *name = words[0] == NULL ? NULL : strrchr(words[0], '/');
    name = name == NULL ? words[0] : name + 1;
    return name != NULL && strcmp(name, "desk-host") == 0 && words[1] != NULL &&
        strcmp(words[1], "self-test") == 0 && words[2] != NULL &&
        (what == NULL || strcmp(words[2], what) == 0);
}

static int desk_accept(const char *plugin, unsigned int type, char *const command[],
    char *const words[], char *const environment[], const char **why)
{
    const char *uid = value(own.user, "uid"), *found = NULL;
    (void)plugin, (void)environment;
    if (type != SUDO_FRONT_END || own.is_asked)
        return 1;
    if (uid != NULL && strcmp(uid, "0") == 0 && !is_test(words, NULL))
        return 1;
    own.is_asked = true; /* (what it starts itself, where sudo intercepts that, is below it) */
    if (is_test(words, "refused"))
        found = "desk-host refuses what tries whether it refuses";
    else if ((found = why_stale()) == NULL)
        found = why_not_kept(command, words);
    *why = found == NULL ? *why : found;
    return found == NULL ? 1 : -1;
}

/* The sudo leaves its group. Where nothing is left in that, the record goes too; else what is left
 * has it, until desk-host finds that all of it has ended. */
static void desk_close(int type, int status)
{
    char path[PATH_MAX];
    (void)type, (void)status;
    if (own.pid == 0 || getpid() != own.pid)
        return;
    if (own.is_placed && (!own_group(path) || !enter(own.above) || rmdir(path) == -1))
        return;
    int folder = open(STARTS, O_RDONLY | O_DIRECTORY | O_CLOEXEC | O_NOFOLLOW);
    if (folder != -1) {
        unlinkat(folder, own.name, 0);
        close(folder);
    }
}

static int desk_version(int is_long)
{
    (void)is_long;
    return own.say(SUDO_CONV_INFO_MSG, "desk-host's plugin, records of form 1\n");
}

__attribute__((visibility("default"))) struct audit_plugin desk_host = {
    SUDO_AUDIT_PLUGIN, SUDO_API_VERSION, desk_open, desk_close, desk_accept, NULL, NULL,
    desk_version, NULL, NULL, NULL};
