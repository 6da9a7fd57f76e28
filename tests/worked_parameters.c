/* A worked example: a station is assigned two partitions and is denied a
 * third, and prints the disk parameters that go with each. A last assign meets
 * a site file that was cut short. */
#include "hinet.h"

#include <stdio.h>

static uint8_t locks[HINET_LOCKS_BYTES];
static uint8_t stations[HINET_STATIONS_BYTES];

/* A site file with no users and two partitions: STOCK of 256K, and ORDERS of
 * 8M behind it. */
static const uint8_t site[] = {
    0, 0, 8, 0, 2, 0, 8, 0,
    'S', 'T', 'O', 'C', 'K', ' ', ' ', ' ', 'S', 'H', 'E', 'L', 'V', 'E',
    1, 0, 1, 0,                 /* volume 1, partition 0, size code 1, control */
    0x00, 0x00, 0, 0, 0, 0,     /* first sector 0 */
    'O', 'R', 'D', 'E', 'R', 'S', ' ', ' ', 'P', 'A', 'P', 'E', 'R', 'S',
    1, 1, 6, 0,                 /* volume 1, partition 1, size code 6, control */
    0x00, 0x08, 0, 0, 0, 0      /* first sector 2048 */
};

static void print_cpm(const uint8_t *block)
{
    printf("  CP/M    SPT %u  BSH %u  BLM %u  EXM %u  DSM %u  DRM %u  AL0 %02X  AL1 %02X"
           "  CKS %u  OFF %u\n",
           hinet_cpm_spt(block), hinet_cpm_bsh(block), hinet_cpm_blm(block),
           hinet_cpm_exm(block), hinet_cpm_dsm(block), hinet_cpm_drm(block),
           hinet_cpm_al0(block), hinet_cpm_al1(block), hinet_cpm_cks(block),
           hinet_cpm_off(block));
}

static void print_msdos(const uint8_t *block)
{
    printf("  MS-DOS  %u bytes a sector, %u sectors a cluster, %u reserved, %u FATs of %u sectors\n",
           hinet_msdos_bytes_per_sector(block), hinet_msdos_sectors_per_cluster(block),
           hinet_msdos_reserved_sectors(block), hinet_msdos_fats(block),
           hinet_msdos_sectors_per_fat(block));
    printf("          %u root entries, %u sectors, media %02X, %u sectors a track\n",
           hinet_msdos_root_entries(block), hinet_msdos_sectors(block),
           hinet_msdos_media(block), hinet_msdos_sectors_per_track(block));
}

static void print_bytes(const uint8_t *block)
{
    printf("         ");
    for (unsigned i = 0; i < HINET_PARAMETERS_BYTES; i++)
        printf(" %02X", block[i]);
    printf("\n");
}

/* Both blocks of the size code that an assign told. */
static void print_parameters(unsigned size)
{
    uint8_t block[HINET_PARAMETERS_BYTES];
    uint64_t written = hinet_cpm_parameters(size, block, sizeof block);
    if (hinet_answer_refusal(written) != 0) {
        printf("  no parameters: %s\n", hinet_refusal_text(hinet_answer_refusal(written)));
        return;
    }
    print_cpm(block);
    print_bytes(block);
    hinet_msdos_parameters(size, block, sizeof block);
    print_msdos(block);
    print_bytes(block);
}

/* The answer to an assign. Its bytes are looked at only where it is not
 * refused: beside refusal 10 they tell a fault, and could pass for a size. */
static void print_assigned(const char *name, uint64_t answer)
{
    if (hinet_answer_refusal(answer) != 0) {
        printf("%s  refused: %s\n", name, hinet_refusal_text(hinet_answer_refusal(answer)));
        return;
    }
    unsigned size = hinet_answer_assign_size(answer);
    if (size == HINET_ASSIGN_DENIED)
        printf("%s  denied\n", name);
    else
        printf("%s  size code %u\n", name, size);
    print_parameters(size);
}

/* The station, user 0, asks for a partition of a site file. */
static void assign(const char *name, const char *password, const uint8_t *file, size_t len)
{
    uint8_t frame[HINET_LENGTH_MOST];
    uint64_t written = hinet_write_assign((const uint8_t *)name, (const uint8_t *)password,
                                          frame, sizeof frame);
    print_assigned(name, hinet_frame(HINET_NUMBER_LOCAL, frame, hinet_answer_length(written),
                                     file, len, locks, sizeof locks, stations, sizeof stations));
}

int main(void)
{
    hinet_fresh(locks, sizeof locks, stations, sizeof stations);
    assign("STOCK   ", "SHELVE", site, sizeof site);
    assign("ORDERS  ", "PAPERS", site, sizeof site);
    assign("LETTERS ", "PAPERS", site, sizeof site);
    assign("STOCK   ", "SHELVE", site, sizeof site - 1);
    return 0;
}
