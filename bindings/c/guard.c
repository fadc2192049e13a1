/* A host in C. First the steps of samples/guard.text, each answer printed as a player's line; then a warm pair is forked for
 * several workers: each clears the descriptor of its own guard page and flushes it, and meets its own guard and no other's.
 * `bindings/c/test` compiles and runs it. */
#include "mmu.h"

#include <stdio.h>
#include <string.h>
#include <sys/wait.h>
#include <unistd.h>

enum { LOGICAL = 0x02041ABC, PAGE = 0x1000, PAGES = 16, WORKERS = 4, USER_DATA = 1 };

static const mmu_range no_ranges[1] = {{0, 0}}; /* lent with length 0 */

static const uint32_t registers[MMU_REGISTERS] = {
    [MMU_FAMILY] = 30,
    [MMU_FLAGS] = MMU_PRESENT | MMU_ENABLED,
    [MMU_TC] = 0x80C07760,
    [MMU_CRP_LIMIT] = 0x80000002,
    [MMU_CRP_ADDRESS] = 0x1000,
};

/* What a host keeps: a pair of caches, and 8,192 longs at address 0. */
typedef struct host {
    mmu_caches caches;
    uint32_t longs[8192];
} host;

static void store(host *h, uint32_t address, uint32_t value) {
    h->longs[address / 4] = value;
}

static void translate(host *h, uint32_t flags, uint32_t address, uint32_t answer[MMU_ANSWER]) {
    mmu_translate(h->caches.c030, h->caches.c040, h->longs, 8192, 0, no_ranges, 0, registers, flags, MMU_NO_OVERRIDE, address,
                  answer);
}

/* ---- The steps of the sample */

/* A translation's line. */
static void print_access(host *h, uint32_t address) {
    uint32_t a[MMU_ANSWER];
    translate(h, MMU_RECORDED, address, a);
    switch (a[MMU_WHAT]) {
    case MMU_DONE:
        printf("A %08X %u\n", a[MMU_NUMBER], a[MMU_COUNT]);
        break;
    case MMU_FAULT:
        printf("F %u %u %08X %u\n", a[MMU_SECOND], a[MMU_THIRD], a[MMU_NUMBER], a[MMU_COUNT]);
        break;
    default:
        printf("R %u\n", a[MMU_NUMBER]);
    }
}

static void print_test(const host *h, uint32_t level, uint32_t address) {
    uint32_t a[MMU_ANSWER];
    mmu_test(h->longs, 8192, 0, no_ranges, 0, registers, USER_DATA, false, level, address, a);
    if (a[MMU_WHAT] == MMU_DONE)
        printf("T %04X %08X %u\n", a[MMU_NUMBER], a[MMU_SECOND], a[MMU_COUNT]);
    else
        printf("R %u\n", a[MMU_NUMBER]);
}

static void print_flush(uint32_t refusal) {
    if (refusal == 0)
        printf("K\n");
    else
        printf("R %u\n", refusal);
}

static void print_store(host *h, uint32_t address, uint32_t value) {
    store(h, address, value);
    printf("K\n");
}

static void sample(host *h) {
    printf("v1\nK\n"); /* the registers */
    print_store(h, 0x1004, 0x2002);
    print_store(h, 0x2004, 0x3002);
    print_store(h, 0x3004, 0x55001);
    print_access(h, LOGICAL);
    print_access(h, LOGICAL);
    print_test(h, 7, LOGICAL);
    print_store(h, 0x3004, 0);
    print_flush(mmu_flush_page(h->caches.c030, USER_DATA, 7, LOGICAL));
    print_access(h, LOGICAL);
    printf("end\n");
}

/* ---- The workers */

/* The place of a page's descriptor, and a page's logical address. */
static uint32_t descriptor(uint32_t page) {
    return 0x3000 + 4 * page;
}

static uint32_t address_of(uint32_t page) {
    return 0x02040000 + page * PAGE;
}

/* Whether the pair answers this page from its cache. */
static bool cached(const host *h, uint32_t page) {
    uint32_t a[MMU_ANSWER];
    mmu_probe(h->caches.c030, h->caches.c040, registers, 0, address_of(page), a);
    return a[MMU_WHAT] == MMU_DONE && a[MMU_NUMBER] == 0x00400000 + page * PAGE;
}

/* Maps sixteen pages, and loads them into the cache. */
static bool warm(host *h) {
    for (uint32_t page = 0; page < PAGES; page++) {
        uint32_t a[MMU_ANSWER];
        store(h, descriptor(page), 0x00400001 + page * PAGE);
        mmu_load(h->caches.c030, h->longs, 8192, 0, no_ranges, 0, registers, USER_DATA, false, address_of(page), a);
        if (a[MMU_WHAT] != MMU_DONE || a[MMU_COUNT] != 3 || !cached(h, page))
            return false;
    }
    return true;
}

/* Whether a worker faults at its own guard, and has every other page from the warm cache. */
static bool meets_its_guard(host *h, uint32_t guard) {
    store(h, descriptor(guard), 0);
    if (mmu_flush_page(h->caches.c030, 0, 0, address_of(guard)) != 0)
        return false;
    for (uint32_t page = 0; page < PAGES; page++) {
        uint32_t a[MMU_ANSWER];
        translate(h, MMU_WRITE | MMU_RECORDED, address_of(page), a);
        bool fault = a[MMU_WHAT] == MMU_FAULT && a[MMU_SECOND] == MMU_ACCESS_LEVEL_VIOLATION && a[MMU_THIRD] == MMU_PAGE_FAULT &&
                     a[MMU_COUNT] == 3;
        bool hit = a[MMU_WHAT] == MMU_DONE && a[MMU_NUMBER] == 0x00400000 + page * PAGE && a[MMU_COUNT] == 0;
        if (page == guard ? !fault : !hit)
            return false;
    }
    return true;
}

/* ---- Before the fork: whether the audit is clean, and names a guard that is set without its flush */

static uint32_t audited(const host *h, uint32_t from, uint32_t a[MMU_ANSWER]) {
    mmu_audit(h->caches.c030, h->caches.c040, h->longs, 8192, 0, no_ranges, 0, registers, from, a);
    return a[MMU_WHAT];
}

static bool audits(host *h) {
    const uint32_t guard = 5;
    uint32_t a[MMU_ANSWER], s[MMU_SAID];
    bool right = audited(h, 0, a) == MMU_DONE;
    store(h, descriptor(guard), 0);
    right &= audited(h, 0, a) == MMU_STALE && a[MMU_SECOND] == 30;
    mmu_finding(h->caches.c030, h->caches.c040, h->longs, 8192, 0, no_ranges, 0, registers, a[MMU_NUMBER], false, s);
    right &= s[MMU_SAID_WHAT] == MMU_DONE && s[MMU_SAID_ADDRESS] == address_of(guard) && s[MMU_SAID_CODE] == USER_DATA;
    right &= s[MMU_SAID_CACHED] == MMU_DONE && s[MMU_SAID_BASE_LOW] == 0x00400000 + guard * PAGE && s[MMU_SAID_BASE_HIGH] == 0;
    right &= s[MMU_SAID_WALKED] == MMU_FAULT && s[MMU_SAID_CAUSE] == MMU_PAGE_FAULT;
    right &= audited(h, a[MMU_NUMBER] + 1, a) == MMU_DONE; /* it is the only one */
    store(h, descriptor(guard), 0x00400001 + guard * PAGE);
    return right && audited(h, 0, a) == MMU_DONE;
}

/* ---- What there is to guard: the list, three ranges at a time */

static bool lists(const host *h) {
    const uint32_t none[1] = {0}; /* lent with length 0 */
    uint64_t ranges[3], a[MMU_LIST] = {MMU_MORE, 0, 0};
    uint32_t page = 0;
    while (a[MMU_LIST_WHAT] == MMU_MORE) {
        mmu_list(h->longs, 8192, 0, none, 0, registers, USER_DATA, (uint32_t)a[MMU_LIST_NEXT], ranges, 3, a);
        for (size_t n = 0; a[MMU_LIST_WHAT] != MMU_REFUSED && n < a[MMU_LIST_COUNT]; n++, page++)
            if (mmu_listed_first(ranges[n]) != address_of(page) || mmu_listed_last(ranges[n]) != address_of(page) + PAGE - 1 ||
                mmu_listed_physical(ranges[n]) != 0x00400000 + page * PAGE || mmu_listed_kind(ranges[n]) != 0)
                return false;
    }
    bool right = a[MMU_LIST_WHAT] == MMU_DONE && page == PAGES;
    mmu_list(h->longs, 8192, 0, none, 0, registers, 3, 0, ranges, 3, a);
    return right && a[MMU_LIST_WHAT] == MMU_REFUSED && a[MMU_LIST_COUNT] == 9;
}

/* Forks a process for each worker: whether each meets its guard. */
static bool workers(host *h) {
    pid_t started[WORKERS];
    bool right = true;
    fflush(stdout);
    for (uint32_t guard = 0; guard < WORKERS; guard++) {
        started[guard] = fork();
        if (started[guard] == 0)
            _exit(meets_its_guard(h, guard) ? 0 : 1);
    }
    for (uint32_t guard = 0; guard < WORKERS; guard++) {
        int status = 1;
        right &= started[guard] > 0 && waitpid(started[guard], &status, 0) > 0 && status == 0;
    }
    return right;
}

/* ---- What is refused leaves the caches as they are; and the flushes that the workers don't use */

static bool refusals(host *h) {
    mmu_caches before = h->caches;
    bool refused = mmu_flush_code(h->caches.c030, 8, 0) == 5 && mmu_flush_page(h->caches.c030, 0, 8, 0) == 5 &&
                   mmu_flush_frame(h->caches.c040, 1u << 20) == 5;
    h->caches.c030[MMU_030 - 1] = 32; /* a page shift that no cache has */
    refused &= mmu_flush_all(h->caches.c030, h->caches.c040) == 4;
    h->caches.c030[MMU_030 - 1] = before.c030[MMU_030 - 1];
    return refused && memcmp(&before, &h->caches, sizeof before) == 0;
}

static bool flushes(host *h) {
    bool done = mmu_flush_code(h->caches.c030, 2, 7) == 0 && cached(h, 3); /* no entry has code 2 */
    done &= mmu_flush_code(h->caches.c030, USER_DATA, 7) == 0 && !cached(h, 3);
    return done && mmu_flush_frame(h->caches.c040, 1) == 0 && mmu_flush_all(h->caches.c030, h->caches.c040) == 0;
}

static bool said(const char *what, bool right) {
    printf("%s: %s\n", what, right ? "right" : "WRONG");
    return right;
}

int main(void) {
    static host h;
    mmu_empty(h.caches.c030, h.caches.c040);
    sample(&h);
    bool right = said("sixteen pages are warm", warm(&h));
    right &= said("the list has each page once", lists(&h));
    right &= said("the audit names a guard without its flush", audits(&h));
    right &= said("each worker meets its own guard", workers(&h));
    bool kept = true;
    for (uint32_t page = 0; page < PAGES; page++)
        kept &= cached(&h, page);
    right &= said("the warm pair is as it was", kept);
    right &= said("refusals leave the caches", refusals(&h));
    right &= said("flushes", flushes(&h));
    return right ? 0 : 1;
}
