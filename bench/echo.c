/* The least that a server does for a C-ECHO: one recv for a request and one send for its response, a thread for each
   association. It reads nothing of a message but its Message ID, accepts whatever is proposed, and checks nothing, so
   it is not a DICOM server: bench/serve.py compares the processor time of `upsd serve` with it. It prints its port.

   With a number as its argument, each C-ECHO runs through that many lines of code besides, 64 bytes each, a jump from one
   to the next: bench/code.py measures what code costs that has left the caches while a thread waited for its peer. */

#include <arpa/inet.h>
#include <netinet/in.h>
#include <netinet/tcp.h>
#include <pthread.h>
#include <stdint.h>
#include <stdio.h>
#include <stdlib.h>
#include <string.h>
#include <sys/socket.h>
#include <unistd.h>

/* An A-ASSOCIATE-AC without items (PS3.8 section 9.3.3). */
static uint8_t accepted[74] = {2, 0, 0, 0, 0, 68, 0, 1};

/* An A-RELEASE-RP (PS3.8 section 9.3.7). */
static uint8_t released[10] = {6, 0, 0, 0, 0, 4};

/* A C-ECHO-RSP in one P-DATA-TF, on presentation context 5 (PS3.7 section 9.3.5.2). */
static const uint8_t response[] = {
    4, 0, 0, 0, 0, 84, 0, 0, 0, 80, 5, 3,
    0, 0, 0, 0, 4, 0, 0, 0, 66, 0, 0, 0,
    0, 0, 2, 0, 18, 0, 0, 0, '1', '.', '2', '.', '8', '4', '0', '.', '1', '0', '0', '0', '8', '.', '1', '.', '1', 0,
    0, 0, 0, 1, 2, 0, 0, 0, 0x30, 0x80,
    0, 0, 0x20, 1, 2, 0, 0, 0, 0, 0,
    0, 0, 0, 8, 2, 0, 0, 0, 1, 1,
    0, 0, 0, 9, 2, 0, 0, 0, 0, 0,
};

/* Where the Message ID is in that response, and in a request as check/lib/dicom.py writes it. */
enum { ID_ANSWERED = 68, ID_ASKED = 68 };

#define LINE 64
#define MOST_LINES 400
#define TEXT(it) TEXT_OF(it)
#define TEXT_OF(it) #it

/* MOST_LINES lines of code, and behind them one that returns. */
__asm__(".text\n.balign " TEXT(LINE) "\nlines_of_code:\n.rept " TEXT(MOST_LINES) "\n"
        "jmp . + " TEXT(LINE) "\n.balign " TEXT(LINE) "\n.endr\nret\n");
extern const char lines_of_code[] __asm__("lines_of_code");

/* Where in these a C-ECHO begins. */
static void (*code)(void);

static void *serve(void *given)
{
    int peer = (int)(intptr_t)given;
    uint8_t asked[16640], told[sizeof response];
    memcpy(told, response, sizeof told);
    for (;;) {
        ssize_t length = recv(peer, asked, sizeof asked, 0);
        if (length <= 0)
            break;
        if (asked[0] == 1) {
            send(peer, accepted, sizeof accepted, 0);
        } else if (asked[0] == 4) {
            code();
            memcpy(told + ID_ANSWERED, asked + ID_ASKED, 2);
            send(peer, told, sizeof told, 0);
        } else {
            send(peer, released, sizeof released, 0);
            break;
        }
    }
    close(peer);
    return NULL;
}

int main(int count, char **words)
{
    int lines = count > 1 ? atoi(words[1]) : 0;
    if (lines < 0 || lines > MOST_LINES)
        return 2;
    code = (void (*)(void))(lines_of_code + LINE * (MOST_LINES - lines));
    struct sockaddr_in address = {.sin_family = AF_INET, .sin_addr.s_addr = htonl(INADDR_LOOPBACK)};
    socklen_t length = sizeof address;
    int on = 1, door = socket(AF_INET, SOCK_STREAM, 0);
    if (bind(door, (struct sockaddr *)&address, length) || listen(door, 64) || getsockname(door, (struct sockaddr *)&address, &length))
        return 1;
    printf("%d\n", ntohs(address.sin_port));
    fflush(stdout);
    for (;;) {
        pthread_t thread;
        int peer = accept(door, NULL, NULL);
        if (peer < 0)
            continue;
        setsockopt(peer, IPPROTO_TCP, TCP_NODELAY, &on, sizeof on);
        if (pthread_create(&thread, NULL, serve, (void *)(intptr_t)peer))
            close(peer);
        else
            pthread_detach(thread);
    }
}
