// Writes lines to a seat, each once the one before it was answered. Words: the path by which lines go, the path by which answers come, how many
// lines, and the lines, which are written in turn; each of them has an answer of one line. It writes the times at which the first line was written
// and the last one was answered, in nanoseconds of the machine's clock.
#include <fcntl.h>
#include <stdio.h>
#include <stdlib.h>
#include <string.h>
#include <time.h>
#include <unistd.h>

static long long now(void) {
    struct timespec at;
    clock_gettime(CLOCK_MONOTONIC, &at);
    return at.tv_sec * 1000000000LL + at.tv_nsec;
}

static void fail(const char *what) {
    perror(what);
    exit(1);
}

// takes what is answered, up to the end of a line
static void take_answer(int answers) {
    char bytes[65536];
    ssize_t count;
    do {
        count = read(answers, bytes, sizeof bytes);
        if (count <= 0) fail("an answer");
    } while (bytes[count - 1] != '\n');
}

static void ask(int lines, int answers, const char *line) {
    char bytes[4096];
    int length = snprintf(bytes, sizeof bytes, "%s\n", line);
    if (write(lines, bytes, length) != length) fail("a line");
    take_answer(answers);
}

int main(int count, char **words) {
    if (count < 5) return 2;
    int answers = open(words[2], O_RDONLY);
    int lines = open(words[1], O_WRONLY);
    if (lines < 0 || answers < 0) fail("a pipe");
    long asked = atol(words[3]);
    long long begun = now();
    for (long k = 0; k < asked; k++) ask(lines, answers, words[4 + k % (count - 4)]);
    printf("%lld %lld\n", begun, now());
    return 0;
}
