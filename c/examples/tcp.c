/* A station over a TCP connection at 127.0.0.1: it sends one message, and prints its notices and what
   it receives. It ends well once its message is acknowledged and one was received.

     tcp connect|listen PORT MESSAGE                                                             */
#include "connection.h"

enum { MOST_MS = 20000 };

static bool is_acknowledged, has_mail;

static void print_notice(const struct ddcmp_notice *notice) {
    switch (notice->kind) {
    case DDCMP_NO_NOTICE:
        return;
    case DDCMP_ACKNOWLEDGED:
    case DDCMP_HANDED_UP_AND_ACKNOWLEDGED:
        is_acknowledged = true;
        printf("notice %s %u\n", ddcmp_notice_name(notice->kind), (unsigned)notice->count);
        return;
    default:
        printf("notice %s\n", ddcmp_notice_name(notice->kind));
    }
}

static void take_mail(void) {
    static uint8_t mail[LONGEST];
    size_t length, i;
    for (;;) {
        must("take", ddcmp_take(&station, mail, sizeof mail, &length));
        if (length == 0)
            return;
        printf("mail ");
        for (i = 0; i < length; i++)
            printf("%02x", (unsigned)mail[i]);
        printf("\n");
        has_mail = true;
    }
}

/* Feeds all that came. A notice ends a call, so the rest is fed again. */
static void hear(const uint8_t *piece, size_t length) {
    size_t at = 0, used;
    struct ddcmp_notice notice;
    while (at < length) {
        must("feed", ddcmp_feed(&station, piece + at, length - at, &used, &notice));
        at += used;
        print_notice(&notice);
    }
    take_mail();
}

static void talk(int line, const char *message) {
    static uint8_t piece[256];
    long deadline = now_ms() + TIMER_MS, end = now_ms() + MOST_MS;
    bool was_sent = false;
    uint8_t number;
    while (!is_acknowledged || !has_mail) {
        if (!was_sent && ddcmp_state(&station) == DDCMP_RUNNING) {
            must("send", ddcmp_send(&station, (const uint8_t *)message, strlen(message), &number));
            was_sent = true;
        }
        hear(piece, next_bytes(line, piece, sizeof piece, &deadline));
        if (now_ms() > end)
            give_up("line", "no answer");
    }
    speak(line);
}

int main(int argc, char **argv) {
    struct ddcmp_config config = DDCMP_DEFAULT_CONFIG;
    uint8_t dropped;
    int line;
    if (argc != 4)
        give_up("arguments", "connect|listen PORT MESSAGE are wanted");
    signal(SIGPIPE, SIG_IGN);
    line = connection(strcmp(argv[1], "listen") == 0, (unsigned short)atoi(argv[2]));
    must("new", ddcmp_new(&config, &station));
    must("start", ddcmp_start(&station, &dropped));
    talk(line, argv[3]);
    ddcmp_free(&station);
    close(line);
    return 0;
}
