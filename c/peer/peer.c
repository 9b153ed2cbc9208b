/*
 * A second DDCMP station, to try others with: one end of a full-duplex point-to-point line.
 *
 * Another author wrote it than that of the crates, and it shares no line and no table with them.
 * It was written from the startup and the data transfer tables of DDCMP 4.1 (HALT, ISTRT, ASTRT,
 * RUN; R, N, A, T, X; SACK, SNAK, SREP), which were remembered: no text of DEC was at hand. Its
 * author had read docs/PROTOCOL.md, for the formats. Only remembered, too: how the timer depends on
 * X, the order NAK, REP, data, ACK, and what other programs do (COUNT believed before the header
 * check, SYN required after an error).
 *
 *     peer LINE [key=value ..]
 *
 * LINE is listen:PORT, connect:PORT (TCP at 127.0.0.1; listen:0 takes a free port and prints it),
 * udp:LOCAL,REMOTE (ports of 127.0.0.1) or tty:PATH. The keys are listed by `peer help`. Status 0:
 * all that was expected came, and all that was sent was acknowledged. Else it says why, status 1.
 */
#define _POSIX_C_SOURCE 200809L
#include <arpa/inet.h>
#include <errno.h>
#include <fcntl.h>
#include <netinet/in.h>
#include <netinet/tcp.h>
#include <poll.h>
#include <signal.h>
#include <stdarg.h>
#include <stdbool.h>
#include <stdint.h>
#include <stdio.h>
#include <stdlib.h>
#include <string.h>
#include <sys/socket.h>
#include <termios.h>
#include <time.h>
#include <unistd.h>

enum { SOH = 0x81, ENQ = 0x05, DLE = 0x90, SYN = 0x96, DEL = 0xFF };
enum { ACK = 1, NAK = 2, REP = 3, STRT = 6, STACK = 7 };
enum { LONGEST = 16383, ROOM = 1 << 17 };
enum { HALT, ISTRT, ASTRT, RUN };
enum { ACTIVE, PASSIVE, DIRECT };            /* start: at once; after a STRT; after it, by STACK */
enum { ACK_NOW, ACK_DELAY, ACK_REP, ACK_DATA };
enum { FRAMING_SPEC, FRAMING_SIMH, FRAMING_SYN };

/* The keys: name, default, meaning. Those in percent are drawn for each frame. */
#define KEYS(K) \
    K(seed, 1, "of all that is drawn") K(seconds, 60, "limit of time, after which it fails") \
    K(expect, 0, "how many messages must come") K(echo, 1, "give each message back") \
    K(source, 0, "messages of its own") K(longest, 500, "most bytes of these") \
    K(linger, 2000, "ms of silence that end it once it is done; 0: never") \
    K(syn, 0, "SYN bytes before each frame") K(del, 0, "up to so many DEL bytes after each") \
    K(nul, 0, "NUL bytes, the same") K(banner, 0, "first of all: 1 text, 2 telnet IACs, 3 both") \
    K(chunk, 0, "pieces of 1 to so many bytes") K(merge, 1, "up to so many frames a write") \
    K(flags, 0, "draw Q and S") K(fill, 0, "draw bytes and SUBTYPEs without meaning") \
    K(addr, 1, "ADDR; -1: drawn") K(late, 0, "ms before it starts") \
    K(start, ACTIVE, "0 STRT at once, 1 STRT once a STRT came, 2 straight to ASTRT by it") \
    K(strts, 1, "STRTs that it sends each time") K(losestack, 0, "STACKs that it loses at first") \
    K(restart, 0, "start again itself after so many messages") \
    K(again, 0, "start again when the other end does") K(stack, 0, "%: a stray STACK in RUN") \
    K(ack, ACK_NOW, "0 at once, 1 after ackdelay, 2 after a REP, 3 by data or after a REP") \
    K(ackdelay, 50, "ms") K(nak, 0, "%: refuse a good data message by a NAK") \
    K(reason, 0, "of these; 0: any, and an unknown one") K(deaf, 0, "%: ignore a received frame") \
    K(loss, 0, "%: don't send a frame") K(damage, 0, "%: flip a bit of one") \
    K(cut, 0, "%: cut one off") K(noise, 0, "%: flip a bit of what was read") \
    K(dup, 0, "%: a frame twice, in RUN") \
    K(reorder, 0, "%: hold a datagram back until another went, in RUN") \
    K(oddresp, 0, "%: an ACK or NAK with a RESP never sent, for windows up to 99") \
    K(oldresp, 0, "%: an ACK or NAK with a RESP long past") K(rep, 0, "%: a needless REP") \
    K(notstopped, 0, "an ACK doesn't stop the timer") K(timer, 200, "reply timer, ms") \
    K(junk, 0, "%: an unknown TYPE, or COUNT 0") K(maint, 0, "%: a maintenance message in RUN") \
    K(toolong, 0, "a message of so many bytes, in 2 % of the frames") \
    K(buffers, 0, "receive buffers, one freed each 2 ms; 0: enough") \
    K(max, LONGEST, "longest message that it takes") K(window, 7, "most not acknowledged") \
    K(framing, FRAMING_SPEC, "0 as specified, 1 COUNT before the check, 2 SYN after an error") \
    K(idle, 0, "ms of silence after which an unfinished frame is dropped; 0: never")
#define DECLARE(name, value, what) static long o_##name = value;
KEYS(DECLARE)
#define ENTRY(name, value, what) {#name, &o_##name, what},
static const struct { const char *name; long *value; const char *what; } keys[] = {KEYS(ENTRY)};

struct message { struct message *next; size_t count; uint8_t data[]; };
static struct message *first, **last = &first; /* the queue; `first` has the number A + 1 */
static size_t queued, got, given, acknowledged, lost, naks, reps, restarts;
static int state = HALT, SNAK, fd = -1, is_udp;
static uint8_t R, N, A, T = 1, X, told;
static bool SACK, SREP, heard, did_restart, was_done, out_of_step, wants_syn;
static int64_t timer_at, ack_at, quiet_since, start_at, drained_at;
static size_t waiting;                       /* messages in receive buffers */
static uint8_t in[ROOM], out[ROOM], batch[ROOM], held[ROOM];
static size_t in_count, out_count, batch_count, held_count, in_batch, batch_limit = 1;
static FILE *got_file, *sent_file;
static uint64_t drawn;
static volatile sig_atomic_t is_terminated;

static void on_term(int signal_number) { (void)signal_number; is_terminated = 1; }

static int64_t now_ms(void) {
    struct timespec t;
    clock_gettime(CLOCK_MONOTONIC, &t);
    return (int64_t)t.tv_sec * 1000 + t.tv_nsec / 1000000;
}

/* Drawn from 0 to n - 1. */
static unsigned below(unsigned n) {
    drawn ^= drawn >> 12;
    drawn ^= drawn << 25;
    drawn ^= drawn >> 27;
    return (unsigned)((drawn * 0x2545F4914F6CDD1DULL) >> 33) % n;
}

static bool chance(long percent) { return percent > 0 && below(100) < (unsigned)percent; }

static void unqueue(void) {
    struct message *it = first;
    first = it->next;
    if (!first) last = &first;
    free(it);
    queued--;
}

/* Ends: the variables go to standard output, and why it failed to standard error. */
static void end(const char *why, ...) {
    static const char *const names[] = {"HALT", "ISTRT", "ASTRT", "RUN"};
    va_list arguments;
    va_start(arguments, why);
    if (why) vfprintf(stderr, why, arguments);
    if (why) fputc('\n', stderr);
    va_end(arguments);
    printf("state=%s R=%u N=%u A=%u T=%u got=%zu sent=%zu acknowledged=%zu lost=%zu", names[state],
           R, N, A, T, got, given, acknowledged, lost);
    printf(" naks=%zu reps=%zu restarts=%zu\n", naks, reps, restarts);
    if (got_file) fclose(got_file);
    if (sent_file) fclose(sent_file);
    while (first) unqueue();
    exit(why ? 1 : 0);
}

static bool is_done(void) { return got >= (size_t)o_expect && !first && state == RUN; }

static void end_of_line(const char *how) {
    if (is_done()) end(NULL);
    end("peer: %s: %zu of %ld came, %zu not acknowledged", how, got, o_expect, queued);
}

/* CRC-16, x^16 + x^15 + x^2 + 1, low bit first: 0 over bytes and their own check after them. */
static unsigned crc(const uint8_t *p, size_t n) {
    unsigned r = 0;
    for (size_t i = 0; i < 8 * n; i++) {
        unsigned carry = (r ^ p[i / 8] >> i % 8) & 1;
        r = r >> 1 ^ (carry ? 0xA001 : 0);
    }
    return r;
}

/* Appends the check of these bytes. */
static void seal(uint8_t *p, size_t n) {
    unsigned r = crc(p, n);
    p[n] = r & 0xFF;
    p[n + 1] = r >> 8;
}

static void write_message(FILE *file, const uint8_t *data, size_t n) {
    if (file) fprintf(file, "%c%c", (int)(n >> 8), (int)(n & 0xFF));
    if (file) fwrite(data, 1, n, file);
}

/* ---- The line, outwards ---- */

/* One that finds no room is a lost one. */
static void datagram(const uint8_t *p, size_t n) {
    if (send(fd, p, n, 0) < 0 && errno != EAGAIN && errno != ECONNREFUSED && errno != ENOBUFS)
        end("peer: send: %s", strerror(errno));
}

static void flush_batch(void) {
    if (!batch_count) return;
    if (!is_udp) {
        if (out_count + batch_count > ROOM) end("peer: the other end reads nothing");
        memcpy(out + out_count, batch, batch_count);
        out_count += batch_count;
    } else if (!held_count && heard && state == RUN && chance(o_reorder)) {
        memcpy(held, batch, held_count = batch_count);
    } else {
        datagram(batch, batch_count);
        if (held_count) datagram(held, held_count);
        held_count = 0;
    }
    batch_count = in_batch = 0;
    batch_limit = 1 + below((unsigned)o_merge);
}

static void add(const void *p, size_t n) {
    memcpy(batch + batch_count, p, n);
    batch_count += n;
}

static void pad(uint8_t byte, long n) {
    while (n-- > 0) batch[batch_count++] = byte;
}

/* Sends a frame, unless what was drawn says otherwise. One isn't cut where the check of its data is
   0: whole frames after it would pass as the rest of them. */
static void put(const uint8_t *frame, size_t n) {
    uint8_t copy[LONGEST + 10];
    memcpy(copy, frame, n);
    if (chance(o_loss)) return;
    if (chance(o_damage)) copy[below((unsigned)n)] ^= (uint8_t)(1 << below(8));
    else if (chance(o_cut)) {
        size_t kept = 1 + below((unsigned)n - 1);
        if (kept < 8 || (kept > 8 && crc(copy + 8, kept - 8))) n = kept;
    }
    for (int twice = heard && state == RUN && chance(o_dup); twice >= 0; twice--) {
        if (batch_count + n > 30000) flush_batch();
        pad(SYN, o_syn);
        add(copy, n);
        pad(DEL, below((unsigned)o_del + 1));
        pad(0, below((unsigned)o_nul + 1));
        if (++in_batch >= batch_limit) flush_batch();
    }
}

static uint8_t flags(uint8_t usual) { return o_flags ? (uint8_t)(below(4) << 6) : usual; }
static uint8_t fill_byte(void) { return o_fill ? (uint8_t)below(256) : 0; }
static uint8_t address(void) { return (uint8_t)(o_addr < 0 ? (long)below(256) : o_addr); }

static void control(int type, uint8_t sub, uint8_t resp, uint8_t num) {
    bool is_start = type == STRT || type == STACK;
    if (type != NAK && o_fill) sub = (uint8_t)below(64);
    if (type == ACK || type == NAK || is_start) num = fill_byte();
    if (type == REP || is_start) resp = fill_byte();
    sub |= flags(is_start ? 0xC0 : 0);
    uint8_t f[8] = {ENQ, (uint8_t)type, sub, resp, num, address()};
    seal(f, 6);
    put(f, 8);
}

static void numbered(uint8_t start, const uint8_t *data, size_t n, uint8_t resp, uint8_t num) {
    uint8_t high = (uint8_t)(n >> 8 | flags(0));
    uint8_t f[LONGEST + 10] = {start, (uint8_t)n, high, resp, num, address()};
    seal(f, 6);
    if (n) memcpy(f + 8, data, n);
    if (n) seal(f + 8, n);
    put(f, n ? n + 10 : 8);
}

/* ---- The station ---- */

static void start_timer(void) { timer_at = now_ms() + o_timer; }
static void stop_timer(void) { timer_at = 0; }
static void set_nak(int reason) { SNAK = reason; SACK = false; }

static void set_ack(int64_t delay) {
    if (!SACK || ack_at > now_ms() + delay) ack_at = now_ms() + delay;
    SACK = true;
    SNAK = 0;
}

static void queue(const uint8_t *data, size_t n) {
    struct message *it = malloc(sizeof *it + n);
    if (!it) end("peer: out of memory");
    it->next = NULL;
    it->count = n;
    memcpy(it->data, data, n);
    *last = it;
    last = &it->next;
    queued++;
    given++;
    write_message(sent_file, data, n);
}

static void send_start(void) {
    if (state == ISTRT)
        for (long i = 0; i < o_strts; i++) control(STRT, 0, 0, 0);
    else if (o_losestack > 0) o_losestack--;
    else control(STACK, 0, 0, 0);
    start_timer();
}

/* HALT to ISTRT or ASTRT: what the last run left unacknowledged is lost, as its user is told. */
static void begin(int next) {
    for (uint8_t sent = (uint8_t)(N - A); sent; sent--, lost++) unqueue();
    R = N = A = X = told = 0;
    T = 1;
    SACK = SREP = heard = false;
    SNAK = 0;
    state = next;
    send_start();
}

static void run(bool owes_ack) {
    state = RUN;
    stop_timer();
    if (owes_ack) set_ack(0);
}

/* A < RESP <= N: all up to RESP is complete. The timer goes on for what was sent after it. */
static void take_resp(uint8_t resp) {
    uint8_t done = (uint8_t)(resp - A), ahead = (uint8_t)(N - A), next = (uint8_t)(T - 1 - A);
    if (!done || done > ahead) return;
    for (uint8_t i = 0; i < done; i++, acknowledged++) unqueue();
    A = resp;
    if (next < done) T = (uint8_t)(A + 1);
    if (o_notstopped) return;
    if (X != A && (uint8_t)(X - A) <= (uint8_t)(N - A)) start_timer();
    else stop_timer();
}

static void on_data(const uint8_t *h, const uint8_t *data, size_t n) {
    static const uint8_t reasons[] = {1, 2, 3, 8, 9, 16, 17, 21};
    if (h[4] != (uint8_t)(R + 1)) return;    /* not the next one: no answer */
    if (n > (size_t)o_max) {
        set_nak(16);
    } else if (chance(o_nak)) {
        set_nak(o_reason ? (int)o_reason : reasons[below(sizeof reasons)]);
    } else if (o_buffers && waiting >= (size_t)o_buffers) {
        set_nak(8);
    } else {
        R++;
        got++;
        waiting++;
        write_message(got_file, data, n);
        if (o_echo) queue(data, n);
        if (o_ack == ACK_NOW) set_ack(0);
        if (o_ack == ACK_DELAY) set_ack(o_ackdelay);
    }
}

/* A frame whose header is right. `data` is NULL for a control message. */
static void on_frame(const uint8_t *h, const uint8_t *data, size_t n) {
    int type = h[0] == ENQ ? h[1] : 0;
    quiet_since = now_ms();
    if (chance(o_deaf)) return;
    if (state == RUN && type == STRT) {
        if (!o_again) end_of_line("the other end started again");
        restarts++;
        state = HALT;                        /* its user is told, and starts it again */
        begin(ISTRT);
        return;
    }
    switch (state) {
    case HALT:
        if (type == STRT && now_ms() >= start_at) begin(o_start == DIRECT ? ASTRT : ISTRT);
        return;
    case ASTRT:
        if (type == STRT) send_start();
        else if (type == STACK) run(true);
        else if ((type == ACK || h[0] == SOH) && h[3] == 0) run(false);
        if (state != RUN || h[0] != SOH) return;
        break;                               /* such data are taken as in RUN */
    case ISTRT:
        if (type == STACK) run(true);
        if (type != STRT) return;
        state = ASTRT;
        send_start();
        return;
    }
    if (type != STACK) heard = true;
    if (type == STACK || (type == REP && h[4] == R)) set_ack(0);
    else if (type == REP) set_nak(3);
    else if (h[0] == ENQ && type != ACK && type != NAK) set_nak(17);
    else if (h[0] != DLE) take_resp(h[3]);
    if (h[0] == SOH) on_data(h, data, n);
    if (type != NAK) return;
    naks++;
    if (h[3] != A) return;                   /* outside of A to N */
    T = (uint8_t)(A + 1);
    SREP = false;
    stop_timer();
}

/* Frames that nobody needs, each by its own chance. */
static void send_extra(void) {
    uint8_t some[LONGEST];
    if (chance(o_stack)) control(STACK, 0, 0, 0);
    if (!heard) return;
    if (chance(o_rep)) control(REP, 0, 0, N);
    if (chance(o_oddresp)) control(below(2) ? ACK : NAK, 2, (uint8_t)(R + 100 + below(50)), 0);
    if (chance(o_oldresp)) control(below(2) ? ACK : NAK, 2, (uint8_t)(R - 20 - below(50)), 0);
    if (chance(o_junk)) control(below(2) ? 4 + (int)below(2) : 8 + (int)below(240), 0, R, 0);
    if (chance(o_junk)) numbered(SOH, NULL, 0, R, T);
    memset(some, 0x4D, sizeof some);
    if (chance(o_maint)) numbered(DLE, some, 40, 0, 0);
    if (o_toolong && chance(2)) numbered(SOH, some, (size_t)o_toolong, R, (uint8_t)(N + 1));
}

/* Sends what is to be sent, in the order NAK, REP, data, ACK, while the line has room for it. */
static void send_frames(void) {
    for (int i = 0; i < 8 && state == RUN && out_count + batch_count < ROOM / 4; i++) {
        uint8_t at = (uint8_t)(T - 1 - A);
        if (SNAK) {
            control(NAK, (uint8_t)SNAK, told = R, 0);
            SNAK = 0;
        } else if (SREP) {
            control(REP, 0, 0, N);
            SREP = false;
            reps++;
            start_timer();
        } else if (at < queued && at < o_window) {
            struct message *it = first;
            for (uint8_t k = 0; k < at; k++) it = it->next;
            X = T++;
            if (X == (uint8_t)(N + 1)) N = X;
            numbered(SOH, it->data, it->count, o_ack == ACK_REP ? told : R, X);
            if (o_ack != ACK_REP) SACK = false;
            if (!timer_at) start_timer();
        } else if (SACK && now_ms() >= ack_at) {
            control(ACK, 0, told = R, 0);
            SACK = false;
        } else {
            break;
        }
        send_extra();
    }
    flush_batch();
}

static void on_timer(void) {
    stop_timer();
    if (state != RUN) send_start();
    else if (A != N || o_notstopped) SREP = true;
}

/* ---- The line, inwards ---- */

static void bad_header(void) {
    if (!out_of_step && state == RUN) set_nak(1);
    out_of_step = true;
    wants_syn = o_framing == FRAMING_SYN;
}

static void read_frames(void) {
    size_t at = 0;
    while (at < in_count) {
        const uint8_t *h = in + at;
        size_t n = 0, have = in_count - at;
        if (wants_syn && *h == SYN) wants_syn = false;
        if (wants_syn || (*h != SOH && *h != ENQ && *h != DLE)) {
            at++;
            continue;
        }
        if (have < 8) break;
        if (*h != ENQ) n = h[1] | (size_t)(h[2] & 0x3F) << 8;
        if (o_framing == FRAMING_SIMH && n && have < n + 10) break;
        if (crc(h, 8)) {
            bad_header();
            at += o_framing != FRAMING_SIMH ? 1 : n ? n + 10 : 8;
            continue;
        }
        if (n && have < n + 10) break;
        out_of_step = false;
        at += n ? n + 10 : 8;
        if (*h != ENQ && (!n || crc(h + 8, n + 2))) {
            if (state == RUN && *h == SOH) set_nak(n ? 2 : 17);
            wants_syn = o_framing == FRAMING_SYN;
        } else {
            on_frame(h, n ? h + 8 : NULL, n);
        }
    }
    if (is_udp) at = in_count;               /* a frame doesn't span datagrams */
    in_count -= at;
    memmove(in, in + at, in_count);
}

static void receive(void) {
    ssize_t n = read(fd, in + in_count, sizeof in / 2);
    if (n < 0 && (errno == EAGAIN || errno == EINTR || (is_udp && errno == ECONNREFUSED))) return;
    if (n <= 0 && !is_udp) end_of_line(n ? strerror(errno) : "the line ended");
    if (n < 0) end("peer: read: %s", strerror(errno));
    if (n > 0 && chance(o_noise)) in[in_count + below((unsigned)n)] ^= (uint8_t)(1 << below(8));
    in_count += (size_t)n;
    quiet_since = now_ms();
    read_frames();
}

static void write_out(void) {
    size_t n = o_chunk ? 1 + below((unsigned)o_chunk) : out_count;
    ssize_t written = write(fd, out, n < out_count ? n : out_count);
    if (written < 0 && errno != EAGAIN && errno != EINTR) end_of_line(strerror(errno));
    if (written <= 0) return;
    out_count -= (size_t)written;
    memmove(out, out + written, out_count);
}

/* An address of this machine. */
static struct sockaddr_in here(const char *port) {
    struct sockaddr_in it = {.sin_family = AF_INET, .sin_port = htons((uint16_t)atoi(port))};
    it.sin_addr.s_addr = htonl(INADDR_LOOPBACK);
    return it;
}

static void open_line(const char *line) {
    const char *rest = strchr(line, ':');
    struct sockaddr_in a = here(rest ? rest + 1 : "0"), b;
    socklen_t length = sizeof a;
    int one = 1, ok = -1;
    if (!strncmp(line, "listen:", 7)) {
        int server = socket(AF_INET, SOCK_STREAM, 0);
        setsockopt(server, SOL_SOCKET, SO_REUSEADDR, &one, sizeof one);
        if (bind(server, (struct sockaddr *)&a, sizeof a) || listen(server, 1))
            end("peer: listen: %s", strerror(errno));
        getsockname(server, (struct sockaddr *)&a, &length);
        printf("listening %u\n", ntohs(a.sin_port));
        struct pollfd wait = {.fd = server, .events = POLLIN};
        if (poll(&wait, 1, (int)o_seconds * 1000) != 1) end("peer: nobody connected");
        ok = fd = accept(server, NULL, NULL);
        close(server);
    } else if (!strncmp(line, "connect:", 8)) {
        fd = socket(AF_INET, SOCK_STREAM, 0);
        ok = connect(fd, (struct sockaddr *)&a, sizeof a);
    } else if (!strncmp(line, "udp:", 4) && strchr(line, ',')) {
        is_udp = 1;
        b = here(strchr(line, ',') + 1);
        fd = socket(AF_INET, SOCK_DGRAM, 0);
        ok = bind(fd, (struct sockaddr *)&a, sizeof a);
        if (!ok) ok = connect(fd, (struct sockaddr *)&b, sizeof b);
    } else if (!strncmp(line, "tty:", 4)) {
        struct termios t;
        ok = fd = open(line + 4, O_RDWR | O_NOCTTY);
        if (fd >= 0 && !tcgetattr(fd, &t)) {
            t.c_iflag = t.c_oflag = t.c_lflag = 0;
            t.c_cc[VMIN] = 1;
            t.c_cc[VTIME] = 0;
            t.c_cflag = (t.c_cflag & ~(tcflag_t)(CSIZE | PARENB)) | CS8 | CREAD | CLOCAL;
            tcsetattr(fd, TCSANOW, &t);
        }
    } else {
        end("peer: a line is listen:PORT, connect:PORT, udp:LOCAL,REMOTE or tty:PATH");
    }
    if (ok < 0) end("peer: %s: %s", line, strerror(errno));
    if (!is_udp) setsockopt(fd, IPPROTO_TCP, TCP_NODELAY, &one, sizeof one);
    fcntl(fd, F_SETFL, O_NONBLOCK);
}

static void read_key(const char *word) {
    const char *value = strchr(word, '=');
    size_t n = value ? (size_t)(value - word) : 0;
    if (!strncmp(word, "got=", 4) && (got_file = fopen(value + 1, "wb"))) return;
    if (!strncmp(word, "sent=", 5) && (sent_file = fopen(value + 1, "wb"))) return;
    for (size_t i = 0; value && i < sizeof keys / sizeof *keys; i++)
        if (strlen(keys[i].name) == n && !strncmp(word, keys[i].name, n)) {
            *keys[i].value = strtol(value + 1, NULL, 10);
            return;
        }
    end("peer: no key %s; see peer help", word);
}

int main(int count, char **words) {
    static const char text[] = "\r\nWelcome to the terminal server\r\nlogin: ";
    static const uint8_t iacs[] = {0xFF, 0xFB, 3, 0xFF, 0xFD, 3, 0xFF, 0xFB, 1, 0xFF, 0xFD, 0};
    setvbuf(stdout, NULL, _IOLBF, 0);
    if (count < 2 || !strcmp(words[1], "help")) {
        puts("peer LINE [key=value ..]; LINE: listen:PORT connect:PORT udp:LOCAL,REMOTE tty:PATH\n"
             "got=FILE, sent=FILE: what came and what it sent, each message after its length");
        for (size_t i = 0; i < sizeof keys / sizeof *keys; i++)
            printf("%-11s %s [%ld]\n", keys[i].name, keys[i].what, *keys[i].value);
        return count < 2;
    }
    for (int i = 2; i < count; i++) read_key(words[i]);
    bool fits = o_syn <= 999 && o_del <= 999 && o_nul <= 999 && o_merge > 0 && o_longest > 0;
    for (size_t i = 0; i < sizeof keys / sizeof *keys; i++)
        fits = fits && (*keys[i].value >= 0 || keys[i].value == &o_addr);
    if (!fits || o_longest > LONGEST || o_toolong > LONGEST || o_window > 255 || o_window < 1)
        end("peer: a value is out of its range");
    drawn = (uint64_t)o_seed * 0x9E3779B97F4A7C15ULL + 1;
    signal(SIGPIPE, SIG_IGN);
    signal(SIGTERM, on_term);
    open_line(words[1]);
    int64_t begun = now_ms(), until = begun + o_seconds * 1000;
    start_at = begun + o_late;
    quiet_since = begun;
    for (long i = 0; i < o_source; i++) {
        uint8_t some[LONGEST];
        size_t n = 1 + below((unsigned)o_longest);
        for (size_t k = 0; k < n; k++) some[k] = (uint8_t)below(256);
        queue(some, n);
    }
    if (o_banner & 1) add((const uint8_t *)text, sizeof text - 1);
    if (o_banner & 2) add(iacs, sizeof iacs);
    flush_batch();
    for (;;) {
        int64_t now = now_ms();
        if (state == HALT && o_start == ACTIVE && now >= start_at) begin(ISTRT);
        if (o_restart && !did_restart && state == RUN && got >= (size_t)o_restart) {
            did_restart = true;
            restarts++;
            begin(ISTRT);
        }
        if (timer_at && now >= timer_at) on_timer();
        if (waiting && now >= drained_at + 2) waiting--, drained_at = now;
        if (o_idle && in_count && now >= quiet_since + o_idle) in_count = 0;
        if (held_count && now >= quiet_since + 20) datagram(held, held_count), held_count = 0;
        send_frames();
        if (!was_done && is_done()) {
            was_done = true;
            fflush(NULL);                    /* the files too, before it says so */
            puts("done");
        }
        if (is_terminated) end_of_line("SIGTERM");
        if (o_linger && is_done() && now >= quiet_since + o_linger) end(NULL);
        if (now >= until) end_of_line("out of time");
        struct pollfd wait = {.fd = fd, .events = (short)(POLLIN | (out_count ? POLLOUT : 0))};
        poll(&wait, 1, o_buffers || held_count || o_ack == ACK_DELAY ? 2 : 5);
        if (wait.revents & (POLLIN | POLLHUP | POLLERR)) receive();
        if (wait.revents & POLLOUT && out_count) write_out();
    }
}
