/* The id of an item of 6,250 bytes and of the smallest, of 145: snowknoll_id beside SHA-256 in plain C, and beside the
 * system's library where the linker finds one. The others are handed what the id is over, all that follows the mark. */
#include "../others/plain_sha256.h"
#include "../turns.h"
#include "snowknoll.h"

#include <string.h>

#ifdef WITH_LIBCRYPTO
unsigned char *SHA256(const unsigned char *message, size_t length, unsigned char *digest);
#endif

/* The item of the measure, and what was worked out. */
static uint8_t item[SNOWKNOLL_MAX_ITEM], id[SNOWKNOLL_ID_BYTES], other[SNOWKNOLL_ID_BYTES];
static size_t length;
static uint16_t number;

static void ours(void)
{
    number = snowknoll_id(item, length, id);
}

static void plain(void)
{
    plain_sha256(item + SNOWKNOLL_AT_KEY, length - SNOWKNOLL_AT_KEY, other);
}

#ifdef WITH_LIBCRYPTO
static void libcrypto(void)
{
    SHA256(item + SNOWKNOLL_AT_KEY, length - SNOWKNOLL_AT_KEY, other);
}
#endif

/* Writes a number of two bytes into the item, low byte first. */
static void put_number(size_t at, size_t value)
{
    item[at] = (uint8_t)(value % 256);
    item[at + 1] = (uint8_t)(value / 256);
}

/* Lays an item with a payload and dependencies of bytes that vary. */
static void lay(size_t payload, size_t dependencies)
{
    length = SNOWKNOLL_MIN_ITEM + payload + SNOWKNOLL_ID_BYTES * dependencies;
    for (size_t i = 0; i < length; i++) item[i] = (uint8_t)(i % 251);
    memset(item, 0, SNOWKNOLL_AT_PAYLOAD);
    put_number(SNOWKNOLL_AT_LENGTH, length - 4);
    put_number(SNOWKNOLL_AT_KIND, SNOWKNOLL_KIND_MESSAGE);
    put_number(SNOWKNOLL_AT_PAYLOAD_LENGTH, payload);
    put_number(SNOWKNOLL_AT_PAYLOAD + payload, dependencies);
}

/* Measures the item's id. */
static void measure(const char *work, int calls)
{
    ours();
    plain();
    hold(number == SNOWKNOLL_DONE && memcmp(id, other, sizeof id) == 0, "plain C comes to the same id");
    compare(work, ours, "plain C", plain, calls);
#ifdef WITH_LIBCRYPTO
    libcrypto();
    hold(memcmp(id, other, sizeof id) == 0, "libcrypto comes to the same id");
    compare(work, ours, "libcrypto", libcrypto, calls);
#else
    skip(work, "libcrypto");
#endif
}

int main(void)
{
    lay(4089, 63);
    hold(length == 6250, "an item of 6,250 bytes");
    measure("id of 6,250 bytes", 4);
    lay(0, 0);
    measure("id of 145 bytes", 100);
    return 0;
}
