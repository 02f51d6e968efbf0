// Reads a journal of one area, and writes it anew into the file bare.journal as an append does: the bytes of each record
// behind its gate, a sync, the gate, a sync.
#include <fcntl.h>
#include <stdio.h>
#include <stdlib.h>
#include <unistd.h>

// Writes bytes at a place, and syncs.
static void put(int file, const unsigned char *bytes, size_t count, off_t at) {
    if (pwrite(file, bytes, count, at) != (ssize_t)count || fsync(file) != 0) {
        exit(1);
    }
}

int main(int count, char **words) {
    static unsigned char bytes[16777216];
    if (count != 2) {
        return 2;
    }
    int from = open(words[1], O_RDONLY);
    ssize_t size = read(from, bytes, sizeof bytes);
    int file = open("bare.journal", O_RDWR | O_CREAT | O_TRUNC, 0666);
    if (size < 17 || file < 0) {
        return 1;
    }
    put(file, bytes + 15, 1, 0);
    unsigned char closed = 0;
    unsigned char first = bytes[16];
    bytes[16] = closed;
    put(file, bytes + 1, 16, 1);
    put(file, bytes, 1, 0);
    bytes[16] = first;
    ssize_t at = 16;
    while (at + 5 < size && bytes[at] == 1) {
        ssize_t length = bytes[at + 1] | bytes[at + 2] << 8 | bytes[at + 3] << 16;
        ssize_t next = at + 5 + length;
        unsigned char gate = bytes[next];
        bytes[next] = closed;
        put(file, bytes + at + 1, next - at, at + 1);
        bytes[next] = gate;
        put(file, bytes + at, 1, at);
        at = next;
    }
    printf("%zd\n", at);
    return 0;
}
