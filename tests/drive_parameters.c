/*
 * Compares the library with the reference: the disk parameters of each size
 * code, in buffers of every length around 15, and every number that is no size
 * code and comes near one. The twelve blocks stand here once more as bytes,
 * and their figures are held against each other.
 * Usage: drive_parameters [rounds [first round]]
 */
#include "check.h"
#include "generate.h"
#include "hinet.h"
#include "reference.h"

#include <string.h>

enum { SEED = 43, ROUNDS = 20, SIZES = 6, BLOCK = 15, LONGEST = 40 };

static struct rng rng;
static struct lent lent_buffer;
static uint8_t ref_buffer[LONGEST];

/* The two systems: their entries, and their blocks of sizes 1 to 6. */
static const struct system {
    enum entry entry;
    uint64_t (*library)(uint32_t, uint8_t *, size_t);
    uint64_t (*reference)(uint32_t, uint8_t *, size_t);
    const char *blocks[SIZES];
} systems[2] = {
    { ENTRY_CPM_PARAMETERS, hinet_cpm_parameters, ref_cpm_parameters, {
        "\x80\x00\x03\x07\x00\xFF\x00\x3F\x00\xC0\x00\x10\x00\x00\x00",
        "\x80\x00\x04\x0F\x00\xFF\x00\x7F\x00\xC0\x00\x20\x00\x00\x00",
        "\x80\x00\x04\x0F\x00\xFF\x01\xFF\x00\xF0\x00\x40\x00\x00\x00",
        "\x80\x00\x04\x0F\x00\xFF\x03\xFF\x01\xFF\x00\x80\x00\x00\x00",
        "\x80\x00\x04\x0F\x00\xFF\x07\xFF\x03\xFF\xFF\x00\x01\x00\x00",
        "\x80\x00\x05\x1F\x01\xFF\x07\xFF\x03\xFF\x00\x00\x01\x00\x00" } },
    { ENTRY_MSDOS_PARAMETERS, hinet_msdos_parameters, ref_msdos_parameters, {
        "\x80\x00\x08\x01\x00\x02\x40\x00\x00\x08\x00\x03\x00\x80\x00",
        "\x80\x00\x08\x01\x00\x02\x80\x00\x00\x10\x01\x06\x00\x80\x00",
        "\x80\x00\x08\x01\x00\x02\x00\x01\x00\x20\x02\x0C\x00\x80\x00",
        "\x80\x00\x10\x01\x00\x02\x00\x01\x00\x40\x03\x0C\x00\x80\x00",
        "\x80\x00\x10\x01\x00\x02\x00\x01\x00\x80\x04\x18\x00\x80\x00",
        "\x80\x00\x20\x01\x00\x02\x00\x01\xFF\xFF\x05\x18\x00\x80\x00" } }
};

/* One call on both sides, with a buffer of random bytes. */
static uint64_t parameters(const struct system *system, uint32_t size, size_t len)
{
    struct call call = { .entry = system->entry, .numbers = 1, .number = { size }, .parts = 1,
        .part = { { "buffer", &lent_buffer, ref_buffer } } };
    rng_bytes(&rng, ref_buffer, sizeof ref_buffer);
    lend(&lent_buffer, ref_buffer, len);
    call.library = system->library(size, lent_buffer.bytes, len);
    call.reference = system->reference(size, ref_buffer, len);
    check_call(&call);
    return call.library;
}

/* Each size in each length: the block as it stands above, or 13. */
static void sizes(const struct system *system)
{
    for (uint32_t size = 1; size <= SIZES; size++)
        for (size_t len = 0; len <= LONGEST; len++) {
            uint64_t answer = parameters(system, size, len);
            expect_refusal(len < BLOCK ? 13 : 0);
            if (len < BLOCK)
                continue;
            expect(answer == UINT64_C(0x0F0600), "not 15 bytes written");
            expect(memcmp(lent_buffer.bytes, system->blocks[size - 1], BLOCK) == 0,
                   "not the bytes of this size");
        }
}

/* What is no size code is 16 for any buffer: all bytes, numbers whose low byte
 * or low bytes are a size code, and others. */
static void other_numbers(const struct system *system)
{
    for (uint32_t size = 0; size < 256; size++) {
        if (size >= 1 && size <= SIZES)
            continue;
        parameters(system, size, rng_below(&rng, LONGEST + 1));
        expect_refusal(16);
    }
    for (unsigned i = 0; i < 200; i++) {
        uint32_t high = (uint32_t)rng_next(&rng) >> rng_below(&rng, 24);
        uint32_t size = (high | 1u) << 8 * (1 + rng_below(&rng, 3)) | rng_below(&rng, SIZES + 2);
        parameters(system, size, rng_one_in(&rng, 2) ? rng_below(&rng, BLOCK) : BLOCK);
        expect_refusal(16);
    }
}

/* Edges of 32 bits. */
static void edges(const struct system *system)
{
    static const uint32_t numbers[] = {
        256, 257, 262, 263, 511, 65535, 65536, 65537, 65542, 0x01000001u, 0x7FFFFFFFu,
        0x80000000u, 0x80000001u, 0xFFFFFF01u, 0xFFFFFFFEu, 0xFFFFFFFFu
    };
    for (unsigned i = 0; i < sizeof numbers / sizeof *numbers; i++)
        for (size_t len = 0; len <= BLOCK + 1; len++) {
            parameters(system, numbers[i], len);
            expect_refusal(16);
        }
}

static unsigned ones(unsigned bits)
{
    unsigned count = 0;
    for (; bits != 0; bits >>= 1)
        count += bits & 1;
    return count;
}

/* CP/M's figures of a size, whose partition has that many sectors. */
static void cpm_figures(uint32_t size, unsigned long sectors)
{
    parameters(&systems[0], size, BLOCK);
    const uint8_t *block = lent_buffer.bytes;
    unsigned long bytes = 128ul << hinet_cpm_bsh(block), entries = hinet_cpm_drm(block) + 1ul;
    expect((hinet_cpm_dsm(block) + 1ul) * bytes == sectors * 128, "blocks and partition");
    expect(hinet_cpm_spt(block) == 128 && hinet_cpm_off(block) == 0, "tracks");
    expect(hinet_cpm_blm(block) == (1u << hinet_cpm_bsh(block)) - 1, "block mask");
    expect(ones(hinet_cpm_al0(block)) + ones(hinet_cpm_al1(block)) == entries * 32 / bytes,
           "directory blocks");
    expect(hinet_cpm_cks(block) * 4ul == entries, "check vector");
    expect(hinet_cpm_exm(block) == (size == 6), "extent mask");
}

/* MS-DOS's; of size 6 one sector is not counted. */
static void msdos_figures(uint32_t size, unsigned long sectors)
{
    parameters(&systems[1], size, BLOCK);
    const uint8_t *block = lent_buffer.bytes;
    unsigned long counted = hinet_msdos_sectors(block), fat = hinet_msdos_sectors_per_fat(block);
    unsigned long front = hinet_msdos_reserved_sectors(block) + hinet_msdos_fats(block) * fat
        + hinet_msdos_root_entries(block) * 32ul / 128;
    unsigned long clusters = (counted - front) / hinet_msdos_sectors_per_cluster(block);
    expect(counted + (size == 6) == sectors, "sectors and partition");
    expect(hinet_msdos_bytes_per_sector(block) == 128, "bytes per sector");
    expect(hinet_msdos_sectors_per_track(block) == 128, "tracks");
    expect(hinet_msdos_media(block) == size - 1, "media byte");
    expect((clusters + 2) * 12 <= fat * 128 * 8, "clusters and FAT");
}

int main(int argc, char **argv)
{
    struct rounds rounds = rounds_from(argc, argv, ROUNDS);
    trace.driver = "drive_parameters";
    trace.seed = SEED;
    for (trace.round = rounds.first; trace.round < rounds.end; trace.round++) {
        trace.step = 0;
        rng = rng_from(((uint64_t)SEED << 32) + trace.round);
        for (unsigned s = 0; s < 2; s++) {
            sizes(&systems[s]);
            other_numbers(&systems[s]);
            edges(&systems[s]);
        }
        for (uint32_t size = 1; size <= SIZES; size++) {
            cpm_figures(size, 1024ul << size);
            msdos_figures(size, 1024ul << size);
        }
    }
    return report(ENTRY_CPM_PARAMETERS, ENTRY_MSDOS_PARAMETERS);
}
