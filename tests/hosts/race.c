// What somebody does who may write a folder: race FOLDER PREFIX HOW [TARGET]. At each new name with this prefix it acts as fast as it can. HOW is
// `link`: the name becomes that of a link to TARGET, which is made before. The first name that one could guess is looked for all the time. Or HOW
// is `read`: the file is opened, and kept open. When standard input ends, it prints how many names it met, and how many files it has open that got
// bytes since.
#define _GNU_SOURCE
#include <fcntl.h>
#include <poll.h>
#include <stdio.h>
#include <stdlib.h>
#include <string.h>
#include <sys/inotify.h>
#include <sys/stat.h>
#include <unistd.h>

enum { MOST = 1000 };

static int opened[MOST], count, met;

static void meet(const char *name, const char *target)
{
    met++;
    if (target) {
        rename("link", name);
        if (symlink(target, "link") < 0)
            return;
        return;
    }
    int file = open(name, O_RDONLY);
    if (file >= 0 && count < MOST)
        opened[count++] = file;
}

int main(int words, char **word)
{
    if (words < 4 || chdir(word[1]) < 0)
        return 2;
    const char *target = strcmp(word[3], "link") == 0 ? word[4] : NULL;
    int events = inotify_init1(IN_NONBLOCK);
    if (events < 0 || inotify_add_watch(events, ".", IN_CREATE) < 0)
        return 2;
    char guessed[300];
    snprintf(guessed, sizeof guessed, "%s000", word[2]);
    if (target && symlink(target, "link") < 0)
        return 2;
    puts("ready");
    fflush(stdout);
    char room[65536] __attribute__((aligned(8)));
    struct pollfd input = {.fd = 0, .events = POLLIN};
    for (unsigned turn = 0;; turn++) {
        struct stat it;
        if (target && lstat(guessed, &it) == 0 && S_ISREG(it.st_mode))
            meet(guessed, target);
        ssize_t size = turn % 8 ? -1 : read(events, room, sizeof room);
        for (char *at = room; size > 0 && at < room + size;) {
            struct inotify_event *event = (struct inotify_event *)at;
            if (event->len && strncmp(event->name, word[2], strlen(word[2])) == 0)
                meet(event->name, target);
            at += sizeof *event + event->len;
        }
        if (turn % 1000 == 0 && poll(&input, 1, 0) > 0)
            break;
    }
    int read_whole = 0;
    for (int it = 0; it < count; it++) {
        struct stat found;
        read_whole += fstat(opened[it], &found) == 0 && found.st_size > 0;
    }
    printf("%d %d\n", met, read_whole);
    return 0;
}
