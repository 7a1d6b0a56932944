/* one_call CALL TIMES BOOK MESSAGE [AFTER]: makes a call on the book of a file, none or one time, prints the verdict and writes the book that is left.
   CALL is submit, sound, convert, enter (of the right in the file MESSAGE) or checks. With more TIMES it prints the median of their microseconds of processor
   time, each call on the book as read. one_call.rs is its twin. */
#include "../include/tetherbay.h"
#include <stdio.h>
#include <stdlib.h>
#include <string.h>
#include <time.h>

enum { BOOK = 1001 * 512, MESSAGE = 201 * 512, MOST_TIMES = 10000 };

static uint8_t read_book[BOOK], book[BOOK], message[MESSAGE];
static size_t message_length;
static double times[MOST_TIMES];

static size_t read_file(const char *name, uint8_t *into, size_t room) {
    FILE *f = fopen(name, "rb");
    if (!f) exit(3);
    size_t length = fread(into, 1, room, f);
    fclose(f);
    return length;
}

static tetherbay_verdict call(const char *what, size_t length) {
    tetherbay_verdict v = {0};
    if (!strcmp(what, "submit")) return tetherbay_submit(book, length, message, message_length).verdict;
    if (!strcmp(what, "sound")) v.number = tetherbay_sound(book, length);
    if (!strcmp(what, "convert")) v.number = tetherbay_convert(book, length);
    if (!strcmp(what, "enter")) v.number = tetherbay_enter_right(book, length, message, message_length);
    if (!strcmp(what, "checks")) v.number = tetherbay_checks_right(book, length);
    return v;
}

/* Processor time, which other programs on the machine do not lengthen. */
static double microseconds(void) {
    struct timespec t;
    clock_gettime(CLOCK_PROCESS_CPUTIME_ID, &t);
    return 1e6 * (double)t.tv_sec + (double)t.tv_nsec / 1e3;
}

static int by_size(const void *a, const void *b) {
    double x = *(const double *)a, y = *(const double *)b;
    return (x > y) - (x < y);
}

int main(int argc, char **argv) {
    if (argc < 5) return 2;
    int many = atoi(argv[2]);
    size_t length = read_file(argv[3], read_book, BOOK);
    message_length = read_file(argv[4], message, MESSAGE);
    memcpy(book, read_book, length);
    if (many > 1) {
        if (many > MOST_TIMES) return 2;
        for (int k = 0; k < many; k++) {
            memcpy(book, read_book, length);
            double start = microseconds();
            call(argv[1], length);
            times[k] = microseconds() - start;
        }
        qsort(times, (size_t)many, sizeof *times, by_size);
        printf("%.1f\n", times[many / 2]);
        return 0;
    }
    tetherbay_verdict v = {0};
    if (many) v = call(argv[1], length);
    printf("%02u %03zu %03zu\n", v.number, v.series, v.position);
    if (argc < 6) return 0;
    FILE *f = fopen(argv[5], "wb");
    return !f || fwrite(book, 1, length, f) != length || fclose(f);
}
