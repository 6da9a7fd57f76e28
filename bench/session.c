/*
 * The session program in plain C over the reference: site.bin in the current
 * folder, records on standard input. Only for timing.
 */
#include "reference.h"

#include <stdio.h>

enum { LOCKS = 1024, STATIONS = 1152, LONGEST = 3592 };

static uint8_t site[LONGEST + 1], locks[LOCKS], stations[STATIONS];

static size_t read_site(void)
{
    FILE *in = fopen("site.bin", "rb");
    if (in == NULL)
        return 0;
    size_t len = fread(site, 1, sizeof site, in);
    fclose(in);
    return len;
}

int main(void)
{
    uint8_t head[2], frame[255];
    size_t site_len = read_site();
    if (ref_check_site(site, site_len) != 0) {
        puts("site 10");
        return 0;
    }
    puts("rec num ref answer");
    ref_fresh(locks, LOCKS, stations, STATIONS);
    for (unsigned long index = 0;; index++) {
        size_t got = fread(head, 1, 2, stdin);
        if (got == 0)
            return 0;
        if (got < 2 || fread(frame, 1, head[1], stdin) < head[1]) {
            puts("cut");
            return 0;
        }
        ref_print_line(stdout, index, head[0],
                       ref_frame(head[0], frame, head[1], site, site_len,
                                 locks, LOCKS, stations, STATIONS));
    }
}
