/* Address translation of the 68030 and 68040, proved: the functions of the static libraries libhost.a, libhost_audit.a (mmu_audit and
 * mmu_finding) and libhost_list.a (mmu_list), which `bindings/libraries` proves and writes for x86-64 Linux. Link them with this header:
 * cc program.c libhost.a libhost_audit.a libhost_list.a; a program that asks for no audit and no list needs the first alone.
 *
 * What each call answers, how many longs it asks for and which caches it leaves is that of crates/definition/specs/, for every
 * input; crates/numbers/specs/Numbers.antt says what each number means. No call has a condition on the numbers that it is given:
 * what it does not take, it refuses by number, and then everything is as it was.
 *
 * Pointers are the host's promise. Each is aligned, points to as many numbers as the parameter says for the whole call, and is
 * never NULL, also where a length is 0. What a call may change overlaps nothing else that it is lent. A call keeps no pointer. */
#ifndef MMU_H
#define MMU_H

#include <stdbool.h>
#include <stddef.h>
#include <stdint.h>

#ifdef __cplusplus
extern "C" {
#endif

/* ---- What a host keeps */

enum { MMU_030 = 69, MMU_040 = 128 };

/* A pair of caches. A copy of it is a warm copy: give one to each worker. A host may compare, save and restore it. */
typedef struct mmu_caches {
    uint64_t c030[MMU_030]; /* 22 tags, 22 pages, 22 stamps; most recent index, clock, page shift */
    uint64_t c040[MMU_040]; /* 64 keys, 64 bases */
} mmu_caches;

/* The registers' places in their array of 13 numbers. */
enum {
    MMU_FAMILY, /* 30, 40 or 60; others are refused (1) */
    MMU_FLAGS,  /* MMU_PRESENT and MMU_ENABLED */
    MMU_TC,
    MMU_CRP_LIMIT,
    MMU_CRP_ADDRESS,
    MMU_SRP_LIMIT,
    MMU_SRP_ADDRESS,
    MMU_TT0,
    MMU_TT1,
    MMU_ITT0,
    MMU_ITT1,
    MMU_DTT0,
    MMU_DTT1,
    MMU_REGISTERS
};
enum { MMU_PRESENT = 1, MMU_ENABLED = 2 };

/* A bus-error range, both addresses inside. A table long with a byte in it can't be fetched. */
typedef struct mmu_range {
    uint32_t first;
    uint32_t last; /* a range whose first is above it is refused (3) */
} mmu_range;

/* ---- What a call is asked and what it answers */

/* Flags of an access and of a probe. */
enum {
    MMU_WRITE = 1,
    MMU_SUPERVISOR = 2,
    MMU_INSTRUCTION = 4,
    MMU_OWN = 8,      /* the CPU's own state is supervisor */
    MMU_RECORDED = 16 /* a hit records a use */
};

/* No function-code override. */
enum { MMU_NO_OVERRIDE = 255 };

/* The places of an answer's five numbers; those that a call doesn't name are 0. */
enum { MMU_WHAT, MMU_NUMBER, MMU_SECOND, MMU_THIRD, MMU_COUNT, MMU_ANSWER };

/* What an answer is. */
enum {
    MMU_DONE = 0,    /* an address, a status, or done */
    MMU_FAULT = 1,   /* a fault */
    MMU_REFUSED = 2, /* a refusal: NUMBER has its number */
    MMU_NOTHING = 3  /* the probe found nothing */
};

/* A fault's kinds and causes. */
enum { MMU_CONFIGURATION_ERROR = 0, MMU_ACCESS_LEVEL_VIOLATION = 2, MMU_BUS_ERROR = 3 };
enum {
    MMU_POINTER_A = 0,
    MMU_POINTER_B = 1,
    MMU_INDIRECT = 2,
    MMU_PAGE_FAULT = 3,
    MMU_WRITE_PROTECT = 4,
    MMU_SUPERVISOR_PROTECT = 5,
    MMU_TABLE_WALK_BUS_ERROR = 6
};

/* ---- The calls. Table memory is `longs`, so many of them, from the address `base` on, and the ranges, any number of them. */

/* Makes both caches empty: every number 0. */
void mmu_empty(uint64_t c030[MMU_030], uint64_t c040[MMU_040]);

/* Translates an access: `flags`, an override (MMU_NO_OVERRIDE for none) and its logical address. DONE: NUMBER is the physical
 * address. FAULT: NUMBER is the address, SECOND the kind, THIRD the cause. COUNT: how many longs were asked for, 0 for a hit.
 * The page that a walk finds is cached. Refusals: 1, 5, 2, 3, 4. */
void mmu_translate(uint64_t c030[MMU_030], uint64_t c040[MMU_040], const uint32_t *longs, size_t longs_len, uint32_t base,
                   const mmu_range *ranges, size_t ranges_len, const uint32_t registers[MMU_REGISTERS], uint32_t flags,
                   uint32_t override, uint32_t address, uint32_t answer[MMU_ANSWER]);

/* PLOAD: drops the address's page, searches with this function code, and caches what it finds. DONE: COUNT. Refusals: 1, 6, 5, 2,
 * 3, 4. */
void mmu_load(uint64_t c030[MMU_030], const uint32_t *longs, size_t longs_len, uint32_t base, const mmu_range *ranges,
              size_t ranges_len, const uint32_t registers[MMU_REGISTERS], uint32_t code, bool write, uint32_t address,
              uint32_t answer[MMU_ANSWER]);

/* PTEST: at most so many levels, whether the PMMU is enabled or not; it touches no cache. DONE: NUMBER is MMUSR, SECOND the last
 * descriptor's address, COUNT. Refusals: 1, 6, 5, 2, 3. */
void mmu_test(const uint32_t *longs, size_t longs_len, uint32_t base, const mmu_range *ranges, size_t ranges_len,
              const uint32_t registers[MMU_REGISTERS], uint32_t code, bool write, uint32_t level, uint32_t address,
              uint32_t answer[MMU_ANSWER]);

/* Answers from a transparent register or from the caches alone, and records no use; MMU_OWN is the privilege. DONE: NUMBER is the
 * physical address. NOTHING: neither answers this access, or the PMMU is off. Refusals: 1, 4. */
void mmu_probe(const uint64_t c030[MMU_030], const uint64_t c040[MMU_040], const uint32_t registers[MMU_REGISTERS],
               uint32_t flags, uint32_t address, uint32_t answer[MMU_ANSWER]);

/* Audits the family's cache: the first entry at `from` or above that gives a wrong answer by these tables. DONE: none is, the
 * caches are clean. STALE: NUMBER is its index, SECOND its cache, 30 or 40; ask again from NUMBER + 1. It changes nothing. Ask before
 * you fork. Refusals: 1, 2, 3, 4. */
enum { MMU_STALE = 1 };
void mmu_audit(const uint64_t c030[MMU_030], const uint64_t c040[MMU_040], const uint32_t *longs, size_t longs_len, uint32_t base,
               const mmu_range *ranges, size_t ranges_len, const uint32_t registers[MMU_REGISTERS], uint32_t from,
               uint32_t answer[MMU_ANSWER]);

/* The places of the ten numbers of what is said of one entry: its page's first address and its function code; what the cache gives
 * (MMU_DONE and a base in two halves, or MMU_NOTHING); what a walk without caches gives (MMU_DONE and an address, or MMU_FAULT with
 * the fault's address, kind and cause). */
enum {
    MMU_SAID_WHAT,
    MMU_SAID_ADDRESS,
    MMU_SAID_CODE,
    MMU_SAID_CACHED,
    MMU_SAID_BASE_LOW,
    MMU_SAID_BASE_HIGH,
    MMU_SAID_WALKED,
    MMU_SAID_NUMBER,
    MMU_SAID_KIND,
    MMU_SAID_CAUSE,
    MMU_SAID
};

/* What is said of entry `index` of the family's cache, for a read or a write of its page's first byte. DONE, or REFUSED with the
 * refusal's number in ADDRESS: 1, 2, 3, 4. */
void mmu_finding(const uint64_t c030[MMU_030], const uint64_t c040[MMU_040], const uint32_t *longs, size_t longs_len, uint32_t base,
                 const mmu_range *ranges, size_t ranges_len, const uint32_t registers[MMU_REGISTERS], uint32_t index, bool write,
                 uint32_t said[MMU_SAID]);

/* A listed range is one number: its first address in bits 63:32, its physical start in 31:8 (the low eight bits are 0), and in 7:0
 * 33 times its kind and the bits consumed, 0 to 32. It has 2^(32 - consumed) addresses. */
enum { MMU_LISTED_WP = 1, MMU_LISTED_S = 2, MMU_LISTED_UNFETCHABLE = 4 }; /* kinds; 0 is neither WP nor S, 3 both */
static inline uint32_t mmu_listed_first(uint64_t range) { return (uint32_t)(range >> 32); }
static inline uint32_t mmu_listed_last(uint64_t range) {
    return mmu_listed_first(range) | (uint32_t)(UINT64_C(0xFFFFFFFF) >> (range & 255) % 33);
}
static inline uint32_t mmu_listed_physical(uint64_t range) { return (uint32_t)range & 0xFFFFFF00u; }
static inline uint32_t mmu_listed_kind(uint64_t range) { return (uint32_t)(range & 255) / 33; }

/* The places of a list's three numbers: what it is (MMU_DONE: that is all; MMU_MORE; MMU_REFUSED), how many ranges were written or
 * the refusal's number, and the address to go on from where there are more. */
enum { MMU_LIST_WHAT, MMU_LIST_COUNT, MMU_LIST_NEXT, MMU_LIST };
enum { MMU_MORE = 1 };

/* Lists what the 68030 tree of a function code (1, 2, 5 or 6) maps: the ranges whose last address is `from` or above, in ascending
 * order, as many as `out` has room for. The bus-error ranges are lent as numbers, first and last of each: `ranges_len` is twice
 * as many. Neither the transparent registers nor whether the PMMU is on means anything. Refusals: 1, 5, 2, 3, 9. */
void mmu_list(const uint32_t *longs, size_t longs_len, uint32_t base, const uint32_t *ranges, size_t ranges_len,
              const uint32_t registers[MMU_REGISTERS], uint32_t code, uint32_t from, uint64_t *out, size_t out_len,
              uint64_t answer[MMU_LIST]);

/* The flushes give 0, or the number of a refusal. */

/* Empties both caches. Refusal: 4. */
uint32_t mmu_flush_all(uint64_t c030[MMU_030], uint64_t c040[MMU_040]);

/* Drops the 68030 entries whose function code agrees with this one on the mask's bits; with mask 0 all of them. Refusals: 5, 4. */
uint32_t mmu_flush_code(uint64_t c030[MMU_030], uint32_t code, uint32_t mask);

/* Drops those of them whose page is the address's. Refusals: 5, 4. */
uint32_t mmu_flush_page(uint64_t c030[MMU_030], uint32_t code, uint32_t mask, uint32_t address);

/* Drops a 68040 frame (the address shifted right by 12, or 13 with 8 KiB pages) for either privilege. Refusal: 5. */
uint32_t mmu_flush_frame(uint64_t c040[MMU_040], uint32_t frame);

#ifdef __cplusplus
}
#endif

#endif
