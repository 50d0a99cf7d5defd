/* Puts from C, for checks/crowding: load THREADS ROWS PAGES. Each thread puts its share of so many keys that look random, and no put may be
 * refused. */
#include <blink.h>

#include <pthread.h>
#include <stdio.h>
#include <stdlib.h>

enum { MOST = 64 };
static blink_seat seats[MOST];
static uint64_t share, refused[MOST];

static void *put_share(void *seat) {
    size_t number = (size_t)((blink_seat *)seat - seats);
    uint64_t key = 88172645463325252u + number * 7919000021u, old;
    for (uint64_t turn = 0; turn < share; turn++) {
        key ^= key << 13;
        key ^= key >> 7;
        key ^= key << 17;
        int32_t answer = blink_put(seat, key, turn, &old);
        if (answer != BLINK_OK && answer != BLINK_PRESENT) refused[number]++;
    }
    return NULL;
}

int main(int count, char **words) {
    pthread_t threads[MOST];
    if (count != 4) return 2;
    uint32_t many = (uint32_t)atoi(words[1]);
    if (many < 1 || many > MOST) return 2;
    share = strtoull(words[2], NULL, 10) / many;
    if (blink_open((uint32_t)atoi(words[3]), seats, many) != BLINK_OK) return 1;
    for (uint32_t each = 0; each < many; each++)
        if (pthread_create(&threads[each], NULL, put_share, &seats[each])) return 1;
    uint64_t all = 0;
    for (uint32_t each = 0; each < many; each++) {
        pthread_join(threads[each], NULL);
        all += refused[each];
    }
    printf("%llu refused\n", (unsigned long long)all);
    return all > 0;
}
