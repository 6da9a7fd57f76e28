/*
 * What a station loads at login: the tables of the makers' boot paper, and the
 * data block of Boot Phase 2.
 */
#include "reference.h"
#include "reference_parts.h"

#include <string.h>

/* A lent table, how long its rows are, and how many there may be. */
struct table {
    const uint8_t *bytes;
    size_t len, row_len, most;
};

struct boot_tables {
    struct table machines, products, users, configurations, systems, directory;
};

static int table_whole(const struct table *table)
{
    return table->len % table->row_len == 0 && table->len / table->row_len <= table->most;
}

static size_t row_count(const struct table *table)
{
    return table->len / table->row_len;
}

static const uint8_t *row_at(const struct table *table, size_t i)
{
    return table->bytes + table->row_len * i;
}

/* ---- names ---- */

/* The user's name without the zeros and spaces at its end. */
static size_t length_of_name(const uint8_t *name)
{
    size_t length = 0;
    for (size_t k = 0; k < 8; k++)
        if (name[k] != 0 && name[k] != ' ')
            length = k + 1;
    return length;
}

static int same_user_name(const uint8_t *a, const uint8_t *b)
{
    size_t length = length_of_name(a);
    return length == length_of_name(b) && memcmp(a, b, length) == 0;
}

static int null_name(const uint8_t *name)
{
    return ref_all_zero(name, 8);
}

/* ---- searches: the first row that fits, or NULL ---- */

/* Machine row: serial 4, product number, option map 6, IOBYTE. */
static const uint8_t *find_machine(const struct table *machines, const uint8_t *serial)
{
    for (size_t i = 0; i < row_count(machines); i++)
        if (memcmp(row_at(machines, i), serial, 4) == 0)
            return row_at(machines, i);
    return NULL;
}

/* Product row: type, names of Boot Phase 2, Login Please and OS Menu. */
static const uint8_t *find_product(const struct table *products, uint8_t number)
{
    for (size_t i = 0; i < row_count(products); i++) {
        const uint8_t *row = row_at(products, i);
        if (row[0] == 0)
            return NULL;
        if (row[0] % 128 == number % 128)
            return row;
    }
    return NULL;
}

/* User row: name 8, password 6, OS number, size flag. */
static const uint8_t *find_user(const struct table *users, const uint8_t *name,
                                const uint8_t *password)
{
    for (size_t i = 0; i < row_count(users); i++) {
        const uint8_t *row = row_at(users, i);
        if (same_user_name(row, name) && memcmp(row + 8, password, 6) == 0)
            return row;
    }
    return NULL;
}

/* Directory row: name 8, and the 16 bytes of a load entry. */
static const uint8_t *find_file(const struct table *directory, const uint8_t *name)
{
    if (null_name(name))
        return NULL;
    for (size_t i = 0; i < row_count(directory); i++)
        if (memcmp(row_at(directory, i), name, 8) == 0)
            return row_at(directory, i);
    return NULL;
}

/* ---- systems ---- */

/* System row: OS number, product map 16, option map 6, load list 64, reserved 9. */
enum { PRODUCT_MAP = 1, OPTION_MAP = 17, LOAD_LIST = 23 };

static int os_number_fits(uint8_t system, uint8_t user)
{
    if (system / 16 != user / 16)
        return 0;
    return user % 16 == 0 || system % 16 == user % 16;
}

static int product_in_map(const uint8_t *map, uint8_t product)
{
    unsigned bit = product % 128;
    return (map[bit / 8] >> bit % 8) % 2 == 1;
}

static int system_fits(const struct boot_tables *tables, const uint8_t *system,
                       const uint8_t *machine, const uint8_t *user)
{
    return os_number_fits(system[0], user[14])
        && product_in_map(system + PRODUCT_MAP, machine[4])
        && find_file(&tables->directory, system + LOAD_LIST) != NULL;
}

/* The first that fits and has the machine's options. */
static const uint8_t *exact_system(const struct boot_tables *tables,
                                   const uint8_t *machine, const uint8_t *user)
{
    for (size_t i = 0; i < row_count(&tables->systems); i++) {
        const uint8_t *system = row_at(&tables->systems, i);
        if (system_fits(tables, system, machine, user)
            && memcmp(system + OPTION_MAP, machine + 5, 6) == 0)
            return system;
    }
    return NULL;
}

/* The smallest that fits, by the length of its first file. */
static const uint8_t *smallest_system(const struct boot_tables *tables,
                                      const uint8_t *machine, const uint8_t *user)
{
    const uint8_t *best = NULL;
    unsigned best_length = 0;
    for (size_t i = 0; i < row_count(&tables->systems); i++) {
        const uint8_t *system = row_at(&tables->systems, i);
        if (!system_fits(tables, system, machine, user))
            continue;
        unsigned length = ref_number16(find_file(&tables->directory, system + LOAD_LIST) + 13);
        if (best == NULL || length < best_length) {
            best = system;
            best_length = length;
        }
    }
    return best;
}

/* ---- the block ---- */

/* What goes into the block; names has so many names of eight bytes. */
struct choice {
    unsigned flag;
    const uint8_t *names;
    unsigned count;
};

/* The names of a load list before the first null one. */
static unsigned names_in_list(const uint8_t *names)
{
    unsigned count = 0;
    while (count < 8 && !null_name(names + 8 * count))
        count++;
    return count;
}

static struct choice list_of(unsigned flag, const uint8_t *system)
{
    struct choice choice = { flag, system + LOAD_LIST, names_in_list(system + LOAD_LIST) };
    return choice;
}

static struct choice choose(const struct boot_tables *tables, const uint8_t *machine,
                            const uint8_t *product, const uint8_t *user)
{
    struct choice login = { 2, product + 9, 1 }, menu = { 3, product + 17, 1 };
    const uint8_t *system;
    if (user == NULL)
        return login;
    if (user[15] % 2 == 0) {
        system = exact_system(tables, machine, user);
        if (system != NULL)
            return list_of(0, system);
    }
    system = smallest_system(tables, machine, user);
    return system != NULL ? list_of(1, system) : menu;
}

/* Puts the entries of the names there; 0 where one is not in the directory. */
static int put_entries(const struct table *directory, const struct choice *choice,
                       uint8_t *entries)
{
    for (unsigned k = 0; k < choice->count; k++) {
        const uint8_t *file = find_file(directory, choice->names + 8 * k);
        if (file == NULL)
            return 0;
        memcpy(entries + 16 * k, file + 8, 16);
    }
    return 1;
}

/* Drives and type-ahead of the row with the user's number, if there is one. */
static void put_configuration(const struct boot_tables *tables, const uint8_t *user,
                              uint8_t *block)
{
    if (user == NULL)
        return;
    size_t number = (size_t)(user - tables->users.bytes) / 16;
    if (number >= row_count(&tables->configurations))
        return;
    const uint8_t *row = row_at(&tables->configurations, number);
    memcpy(block, row, 32);
    memcpy(block + 33, row + 32, 32);
}

static uint64_t boot_word(unsigned flag)
{
    return 10 << 8 | ref_byte(0, (uint8_t)flag);
}

/* Whole tables, and room for the block. */
static uint64_t boot(const struct boot_tables *tables, const uint8_t *serial,
                     const uint8_t *name, const uint8_t *password, uint8_t *room)
{
    uint8_t block[194] = { 0 };
    const uint8_t *machine = find_machine(&tables->machines, serial);
    if (machine == NULL)
        return boot_word(4);
    const uint8_t *product = find_product(&tables->products, machine[4]);
    if (product == NULL)
        return boot_word(4);
    const uint8_t *user = find_user(&tables->users, name, password);
    struct choice choice = choose(tables, machine, product, user);
    if (!put_entries(&tables->directory, &choice, block + 66))
        return boot_word(4);
    put_configuration(tables, user, block);
    block[32] = machine[11];
    block[65] = (uint8_t)choice.flag;
    memcpy(room, block, 194);
    return boot_word(choice.flag);
}

uint64_t ref_boot(const uint8_t serial[4], const uint8_t name[8], const uint8_t password[6],
                  const uint8_t *machines, size_t machines_len,
                  const uint8_t *products, size_t products_len,
                  const uint8_t *users, size_t users_len,
                  const uint8_t *configurations, size_t configurations_len,
                  const uint8_t *systems, size_t systems_len,
                  const uint8_t *directory, size_t directory_len,
                  uint8_t *block, size_t block_len)
{
    const struct boot_tables tables = {
        { machines, machines_len, 12, 128 },
        { products, products_len, 25, 40 },
        { users, users_len, 16, 128 },
        { configurations, configurations_len, 64, 128 },
        { systems, systems_len, 96, 128 },
        { directory, directory_len, 24, 128 }
    };
    if (!table_whole(&tables.machines) || !table_whole(&tables.products)
        || !table_whole(&tables.users) || !table_whole(&tables.configurations)
        || !table_whole(&tables.systems) || !table_whole(&tables.directory))
        return 23;
    if (block_len < 194)
        return 13;
    return boot(&tables, serial, name, password, block);
}
