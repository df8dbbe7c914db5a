/* WORD..: the program `pdp8` of the page, to whoever runs it. It sends its process, its folder and its words to server.mjs, whose socket lies in the
   folder PDP8_SERVER. The server runs the module over this process's files and streams. It answers with the status, and with the places that it has
   reached in streams that are plain files. */
#include <signal.h>
#include <stdio.h>
#include <stdlib.h>
#include <string.h>
#include <sys/socket.h>
#include <sys/un.h>
#include <unistd.h>

#define ENDS_BY_SIGPIPE 141
#define NO_SERVER 70

static void tell(int server, const char *bytes, size_t count) {
    while (count) {
        ssize_t done = write(server, bytes, count);
        if (done <= 0)
            exit(NO_SERVER);
        bytes += done;
        count -= (size_t)done;
    }
}

static int server_at(const char *folder) {
    struct sockaddr_un name = {AF_UNIX, "socket"};
    int server = socket(AF_UNIX, SOCK_STREAM | SOCK_CLOEXEC, 0);
    if (!folder || chdir(folder) || connect(server, (struct sockaddr *)&name, sizeof name)) {
        fprintf(stderr, "client: no server at PDP8_SERVER\n");
        exit(NO_SERVER);
    }
    return server;
}

int main(int count, char **words) {
    char folder[4096], process[24], answer[128] = "";
    long place[3];
    int status;
    if (!getcwd(folder, sizeof folder))
        return NO_SERVER;
    int server = server_at(getenv("PDP8_SERVER"));
    tell(server, process, (size_t)sprintf(process, "%d", getpid()) + 1);
    tell(server, folder, strlen(folder) + 1);
    for (int k = 1; k < count; k++)
        tell(server, words[k], strlen(words[k]) + 1);
    tell(server, "\n", 2);
    for (size_t had = 0; had < sizeof answer - 1;) {
        ssize_t more = read(server, answer + had, sizeof answer - 1 - had);
        if (more <= 0)
            break;
        had += (size_t)more;
    }
    if (sscanf(answer, "%d %ld %ld %ld\n", &status, place, place + 1, place + 2) != 4)
        return NO_SERVER;
    for (int stream = 0; stream < 3; stream++)
        if (place[stream] >= 0)
            lseek(stream, place[stream], SEEK_SET);
    if (status == ENDS_BY_SIGPIPE) {
        signal(SIGPIPE, SIG_DFL);
        raise(SIGPIPE);
    }
    return status;
}
