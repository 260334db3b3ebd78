/*
 * Tries what sudo's plugin reads and writes with random bytes, below a folder that is given:
 *
 *     plugin FOLDER ROUNDS SEED
 *
 * It is built with the sanitizers of the compiler (tests/hosts/hosts.py), so that a byte that is
 * read or written out of place ends it.
 */

#define RUN "run"
#define CONF "fetch.conf"
#include "../../packaging/host/desk_host.c"

#include <assert.h>

static const char *const parts[] = {"PROMPT", "=", "60", "\n", " ", "\t", "\"", ")", "(", "0::/",
    "/..", "/", ".", "9", "00", "12345678901234567890123", "S 1 1 1 0 -1 41943 1 2 3", "\r", "#"};

/* A random text of these parts and of odd bytes, with none of its zeros inside. */
static void fill(char *text, size_t room)
{
    size_t held = 0, wanted = (size_t)rand() % (room - 1);
    while (held < wanted) {
        const char *part = parts[(size_t)rand() % (sizeof(parts) / sizeof(*parts))];
        if (rand() % 3 == 0 || strlen(part) > wanted - held)
            text[held++] = (char)(1 + rand() % 255);
        else
            held += strlen(strcpy(text + held, part));
    }
    text[held] = '\0';
}

/* A copy that ends where its memory does. */
static char *exact(const char *text)
{
    char *copy = strdup(text);
    assert(copy != NULL);
    return copy;
}

static void say_right(void)
{
    char shown[] = "5:x:/a\n0::/user.slice/session-3.scope\n", out[] = "0::/../x\n";
    assert(start_of("7 (a) b) c) S 1 1 1 0 -1 2 3 4 5 6 7 8 9 10 11 12 13 14 4327 1 2\n") == 4327);
    assert(start_of("7 (a S 1 2\n") == 0 && start_of("") == 0 && start_of("7 (a) S 1 2\n") == 0);
    assert(prompt_of("") == 60 && prompt_of("PROMPT=5\n") == 5);
    assert(prompt_of("A=1\n PROMPT = 5") == 5);
    assert(prompt_of("PROMPT=5\nPROMPT=\"7\"\n") == 7 && prompt_of("#PROMPT=5\n") == 60);
    assert(prompt_of("PROMPT=5\nPROMPT=soon\n") == 60 && prompt_of("PROMPTS=5\n") == 60);
    assert(prompt_of("PROMPT=0\n") == 0 && prompt_of("PROMPT=1234567890\n") == 60);
    assert(moment_of("12.5\n") == 12500000000LL && moment_of("12\n") == 12000000000LL);
    assert(moment_of("12.123456789\n") == 12123456789LL);
    assert(moment_of("0.1234567891234\n") == 123456789);
    assert(moment_of("12.5") == -1 && moment_of("") == -1 && moment_of("x\n") == -1);
    assert(moment_of("12,5\n") == -1 && moment_of("1234567890\n") == -1);
    assert(moment_of("1\n2\n") == -1);
    assert(strcmp(group_of(shown), "/user.slice/session-3.scope") == 0 && group_of(out) == NULL);
}

static void read_random(char *text, size_t room)
{
    fill(text, room);
    char *copy = exact(text);
    long prompt = prompt_of(copy);
    assert(prompt >= 0 && prompt <= 999999999);
    assert(moment_of(copy) >= -1);
    (void)start_of(copy);
    char *group = group_of(copy);
    assert(group == NULL || (*group == '/' && strchr(group, '\n') == NULL));
    free(copy);
}

static char **random_list(size_t most, const char *const names[], size_t held, size_t room)
{
    size_t count = (size_t)rand() % most;
    char **list = calloc(count + 1, sizeof(*list)), *text = malloc(room + 64);
    assert(list != NULL && text != NULL);
    for (size_t at = 0; at < count; at++) {
        int head = held > 0 ? sprintf(text, "%s=", names[(size_t)rand() % held]) : 0;
        fill(text + head, room);
        list[at] = exact(text);
    }
    free(text);
    return list;
}

static void free_list(char **list)
{
    for (size_t at = 0; list[at] != NULL; at++)
        free(list[at]);
    free(list);
}

/* A kept line of random lists is one line of plain bytes, and short. */
static void keep_random(char *const command[], char *const words[])
{
    static char text[16 * LINE];
    (void)!unlink(KEPT);
    assert(keep_line(command, words));
    int file = open(KEPT, O_RDONLY);
    ssize_t held = read(file, text, sizeof(text));
    close(file);
    assert(held > 2 && held <= 6 * LINE + 1024);
    assert(text[0] == '\n' && text[held - 2] == '}' && text[held - 1] == '\n');
    for (ssize_t at = 1; at < held - 1; at++)
        assert(text[at] >= ' ' && text[at] <= '~');
}

/* A record of random lists is whole up to its bound: whether it was longer. Its words are those
 * that were given. */
static bool write_random(int folder, size_t room)
{
    static const char *const names[] = {"command", "runas_user", "user", "uid", "cwd", "run_shell",
        "login_shell", "cmnd_chroot", "runas_group", "sudoedit", "network_addrs", "com"};
    char **settings = random_list(9, names, 12, 300), **user = random_list(9, names, 12, 300);
    char **command = random_list(9, names, 12, 300), **words = random_list(40, NULL, 0, room);
    static char text[2 * RECORD];
    memset(&own, 0, sizeof(own));
    own.settings = settings;
    own.user = user;
    snprintf(own.name, sizeof(own.name), "7-%d", rand() % 9);
    assert(write_record(folder, command, words));
    int file = openat(folder, own.name, O_RDONLY);
    ssize_t held = read(file, text, sizeof(text));
    close(file);
    assert(held > 9 && held <= RECORD + 32);
    assert(memcmp(text + held - 9, "end=true", 9) == 0);
    size_t word = 0;
    bool is_cut = false;
    for (char *at = text; at < text + held; at += strlen(at) + 1) {
        is_cut |= strcmp(at, "cut=true") == 0;
        if (strncmp(at, "word=", 5) == 0)
            assert(words[word] != NULL && strcmp(at + 5, words[word]) == 0 && ++word);
    }
    assert(is_cut == (words[word] != NULL));
    keep_random(command, words);
    free_list(settings), free_list(user), free_list(command), free_list(words);
    return is_cut;
}

int main(int count, char *words[])
{
    static char text[20000];
    assert(count == 4 && chdir(words[1]) == 0);
    int rounds = atoi(words[2]);
    srand((unsigned int)atoi(words[3]));
    say_right();
    for (int at = 0; at < rounds * 20; at++)
        read_random(text, at % 50 == 0 ? sizeof(text) : 200);
    int folder = records();
    assert(folder != -1);
    int cut = 0;
    for (int at = 0; at < rounds; at++)
        cut += write_random(folder, at % 20 == 0 ? 100000 : 300);
    assert(cut > 0);
    printf("the plugin: %d random texts, %d records of which %d were too long: as they should be\n",
        rounds * 20, rounds, cut);
    return 0;
}
