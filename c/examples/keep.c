/* Receives messages over a connection to 127.0.0.1, and appends them to a file, a line each.

     keep PORT FILE

   A message is acknowledged only after it is on the disk: it is read, stored and synced, and then
   taken. So whenever this is killed, the peer still has what the file hasn't; what was stored and
   not yet acknowledged the peer sends again.                                                    */
#include "connection.h"

static FILE *file;

static void store(const uint8_t *message, size_t length) {
    if (fwrite(message, 1, length, file) != length || fputc('\n', file) == EOF ||
        fflush(file) != 0 || fsync(fileno(file)) != 0)
        give_up("file", strerror(errno));
}

/* Stores what came, and takes it then. */
static void keep_mail(void) {
    static uint8_t message[LONGEST];
    size_t length;
    while (ddcmp_waiting(&station) > 0) {
        must("waiting_at", ddcmp_waiting_at(&station, 0, message, sizeof message, &length));
        store(message, length);
        must("take", ddcmp_take(&station, message, sizeof message, &length));
    }
}

int main(int argc, char **argv) {
    static uint8_t piece[4096];
    struct ddcmp_config config = DDCMP_DEFAULT_CONFIG;
    struct ddcmp_notice notice;
    uint8_t dropped;
    long deadline;
    int line;
    if (argc != 3)
        give_up("arguments", "PORT FILE are wanted");
    file = fopen(argv[2], "ab");
    if (file == NULL)
        give_up(argv[2], strerror(errno));
    signal(SIGPIPE, SIG_IGN);
    line = connection(false, (unsigned short)atoi(argv[1]));
    config.inbox = 16; /* more than the peer's window */
    must("new", ddcmp_new(&config, &station));
    must("on take", ddcmp_acknowledge_on_take(&station, true));
    must("start", ddcmp_start(&station, &dropped));
    deadline = now_ms() + TIMER_MS;
    for (;;) {
        size_t at = 0, used, length = next_bytes(line, piece, sizeof piece, &deadline);
        while (at < length) {
            must("feed", ddcmp_feed(&station, piece + at, length - at, &used, &notice));
            at += used;
            keep_mail();
        }
    }
}
