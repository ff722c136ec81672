/* The writes and syncs of `samq run DIR` over N puts of small files, made by hand in the same order: what the system itself
   takes for them. Usage: puts DIR N BYTES. It makes DIR/0 and DIR/1, and answers each put on standard output. */
#include <fcntl.h>
#include <stdint.h>
#include <stdio.h>
#include <stdlib.h>
#include <string.h>
#include <unistd.h>

static void fail(const char *what) {
    perror(what);
    exit(1);
}

static void write_at(int file, const void *bytes, size_t count, off_t place) {
    if (pwrite(file, bytes, count, place) != (ssize_t)count)
        fail("pwrite");
}

static void sync_file(int file) {
    if (fsync(file) != 0)
        fail("fsync");
}

static unsigned char *put_number(unsigned char *to, uint64_t number, int width) {
    for (int i = 0; i < width; i++)
        *to++ = number >> (8 * i);
    return to;
}

static unsigned char *put_text(unsigned char *to, const char *text) {
    to = put_number(to, strlen(text), 4);
    memcpy(to, text, strlen(text));
    return to + strlen(text);
}

/* The payload of a put of one block, from `to` on; its end. */
static unsigned char *put_payload(unsigned char *to, uint64_t inode, const char *path, uint64_t length, uint32_t block) {
    *to++ = 2;
    to = put_number(to, 0, 8);
    to = put_number(to, inode, 8);
    to = put_text(to, path);
    to = put_text(to, "u");
    to = put_text(to, "g");
    to = put_number(to, length, 8);
    to = put_number(to, 1, 4);
    to = put_number(to, block, 4);
    return put_number(to, 1, 4);
}

int main(int argc, char **argv) {
    if (argc != 4) {
        fprintf(stderr, "usage: puts DIR N BYTES\n");
        return 2;
    }
    long puts = atol(argv[2]);
    size_t length = atol(argv[3]);
    if (chdir(argv[1]) != 0)
        fail("chdir");
    int journal = open("0", O_RDWR | O_CREAT, 0666);
    int cache = open("1", O_RDWR | O_CREAT, 0666);
    int folder = open(".", O_RDONLY);
    if (journal < 0 || cache < 0 || folder < 0)
        fail("open");
    unsigned char *bytes = malloc(length);
    memset(bytes, 'x', length);
    sync_file(folder);
    off_t place = 0;
    for (long i = 1; i <= puts; i++) {
        char path[64], answer[64];
        unsigned char frame[512];
        snprintf(path, sizeof path, "/f%ld", i);
        write_at(cache, bytes, length, (off_t)(i - 1) * 4096);
        sync_file(cache);
        unsigned char *end = put_payload(frame + 4, i, path, length, i - 1);
        put_number(frame, end - (frame + 4), 4);
        *end++ = 0;
        write_at(journal, frame, end - frame, place + 1);
        sync_file(journal);
        write_at(journal, "\1", 1, place);
        sync_file(journal);
        place += end - frame;
        int count = snprintf(answer, sizeof answer, "ok %ld\n", i);
        if (write(1, answer, count) != count)
            fail("write");
    }
    return 0;
}
