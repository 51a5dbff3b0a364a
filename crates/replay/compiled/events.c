/* Keeps events, and computes a checksum of them. */

struct event {
    unsigned char kind;
    signed char level;
    unsigned short port;
    int value;
};

enum { KINDS = 5, ROOM = 32 };

static const unsigned int weights[4] = { 1, 0x12345, 0x7fffffff, 0x80000000 };
static const char *const names[KINDS] = { "open", "close", "write\n", "\tfailed", "\"other\"" };

int threshold = 5000;
unsigned short ports[4] = { 80, 443, 8080, 0xffff };

static struct event ring[ROOM];
static int filled;

const char *name_of(const struct event *e) {
    return e->kind < KINDS ? names[e->kind] : "?";
}

int cost(const struct event *e) {
    switch (e->kind) {
    case 0: return e->value + 4096;
    case 1: return e->value - 2049;
    case 2: return e->value * (int)weights[e->port & 3];
    case 3: return e->value / 7;
    case 4: return -e->value;
    default: return 0x12345678;
    }
}

int add(unsigned char kind, unsigned short port, int value) {
    if (filled >= ROOM || value > threshold) {
        return -1;
    }
    struct event *e = &ring[filled];
    e->kind = kind;
    e->port = ports[port & 3];
    e->value = value;
    return filled++;
}

unsigned int checksum(void) {
    unsigned int sum = 0xdeadbeef;
    for (int i = 0; i < filled; i++) {
        sum = (sum << 5 | sum >> 27) ^ (unsigned int)cost(&ring[i]);
    }
    return sum;
}
