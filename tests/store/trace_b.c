/* Writes the store that trace B leaves, made in memory filled with 0xa5, to standard output: compare.py reads it. */
#include "mapcache.h"

#include <stdio.h>
#include <string.h>

static uint8_t store[MAPCACHE_STORE_BYTES];

/* IN 1 10, GT 1, IN 2 20, IN 3 30 */
static const uint8_t requests[] = {
    'I', 'N', 1, 0, 0, 0, 0, 0, 0, 0, 10, 0, 0, 0, 0, 0, 0, 0,
    'G', 'T', 1, 0, 0, 0, 0, 0, 0, 0,
    'I', 'N', 2, 0, 0, 0, 0, 0, 0, 0, 20, 0, 0, 0, 0, 0, 0, 0,
    'I', 'N', 3, 0, 0, 0, 0, 0, 0, 0, 30, 0, 0, 0, 0, 0, 0, 0,
};

int main(void)
{
    uint8_t replies[3 * 28 + 10];
    uint64_t detail;
    memset(store, 0xa5, sizeof store);
    if (mapcache_create(2, MAPCACHE_SMALL_RATIO, MAPCACHE_GHOST_RATIO, store, sizeof store) != 0)
        return 1;
    if (mapcache_run(store, sizeof store, requests, sizeof requests, replies, sizeof replies, &detail) < 0)
        return 1;
    return fwrite(store, 1, sizeof store, stdout) == sizeof store ? 0 : 1;
}
