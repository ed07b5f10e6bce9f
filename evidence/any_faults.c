/* Faults for any.c to find: compiled with FAULT, and --wrap for the linker, so that the calls below go through here. */
#include "pudvirez.h"

#include <string.h>

PudvirezTold __real_pudvirez_settle(PudvirezBreaker *b, uint64_t *list, size_t places, uint64_t now_ms, PudvirezTicket ticket, uint8_t success);
PudvirezTold __real_pudvirez_admit_as(PudvirezBreaker *b, uint64_t *list, size_t places, uint64_t now_ms, uint8_t via_trait);
PudvirezPreview __real_pudvirez_preview_settle(const PudvirezBreaker *b, const uint64_t *list, size_t places, uint64_t now_ms, PudvirezTicket ticket, uint8_t success);
PudvirezPreview __real_pudvirez_preview_abort(const PudvirezBreaker *b, const uint64_t *list, size_t places, PudvirezTicket ticket, uint8_t via_trait);
PudvirezWaited __real_pudvirez_wait_drop(PudvirezBreaker *b, uint64_t *list, size_t places, PudvirezPending *p);
PudvirezTold __real_pudvirez_reconfigure(PudvirezBreaker *b, uint64_t *list, size_t places, PudvirezSetting setting);
PudvirezTold __real_pudvirez_save(const PudvirezBreaker *b, const uint64_t *list, size_t places, uint8_t *saves, size_t size, size_t used, const uint8_t *name, size_t name_size);
PudvirezTold __real_pudvirez_restore(PudvirezBreaker *b, uint64_t *list, size_t places, const uint8_t *saves, size_t size, size_t used, const uint8_t *name, size_t name_size);
PudvirezTold __real_pudvirez_check_block(const uint8_t *block, size_t size);

PudvirezTold __wrap_pudvirez_settle(PudvirezBreaker *b, uint64_t *list, size_t places, uint64_t now_ms, PudvirezTicket ticket, uint8_t success)
{
#if FAULT == 1 /* reads a place past the storage */
    (void)((volatile uint64_t *)list)[places];
#elif FAULT == 6 /* a flag by its lowest bit */
    success &= 1;
#elif FAULT == 7 /* a probe flag of 1 alone */
    ticket.probe = ticket.probe == 1;
#endif
    PudvirezTold t = __real_pudvirez_settle(b, list, places, now_ms, ticket, success);
#if FAULT == 2 /* a refused call moves the generation */
    b->shared.generation += t.number == PUDVIREZ_TOLD_STORAGE;
#elif FAULT == 3 /* an accepted call leaves a place past the list */
    if (t.number == PUDVIREZ_TOLD_OK && b->shared.len < places)
        list[places - 1] = 1;
#elif FAULT == 4 /* 4 before 3 */
    if (t.number == PUDVIREZ_TOLD_STORAGE && b->config.trials == 0)
        t.number = PUDVIREZ_TOLD_UNSOUND;
#elif FAULT == 5 /* a refused call moves the last place */
    if (t.number == PUDVIREZ_TOLD_UNSOUND)
        list[places - 1] ^= 1;
#elif FAULT == 8 /* a value that is not 0 */
    t.v3 = t.number == PUDVIREZ_TOLD_FULL;
#endif
    return t;
}

PudvirezTold __wrap_pudvirez_admit_as(PudvirezBreaker *b, uint64_t *list, size_t places, uint64_t now_ms, uint8_t via_trait)
{
    PudvirezTold t = __real_pudvirez_admit_as(b, list, places, now_ms, via_trait);
#if FAULT == 9 /* a trait probe too many */
    b->shared.counts.trait_probes += t.number == PUDVIREZ_TOLD_OK && t.v2 == 1 && via_trait == 255;
#endif
    return t;
}

PudvirezPreview __wrap_pudvirez_preview_settle(const PudvirezBreaker *b, const uint64_t *list, size_t places, uint64_t now_ms, PudvirezTicket ticket, uint8_t success)
{
    PudvirezPreview p = __real_pudvirez_preview_settle(b, list, places, now_ms, ticket, success);
#if FAULT == 24 /* makes the record what it would be */
    if (p.breaker.shared.generation != b->shared.generation)
        *(PudvirezBreaker *)b = p.breaker;
#elif FAULT == 25 /* 5 told as 0 */
    p.told.number = p.told.number == PUDVIREZ_TOLD_FULL ? PUDVIREZ_TOLD_OK : p.told.number;
#elif FAULT == 26 /* the length leaves out what would be evicted */
    if (p.told.number == PUDVIREZ_TOLD_OK && b->config.kind == PUDVIREZ_POLICY_WINDOWED && b->shared.state == PUDVIREZ_STATE_CLOSED && p.len != b->shared.len)
        p.len = b->shared.len + (success == 0);
#endif
    return p;
}

PudvirezPreview __wrap_pudvirez_preview_abort(const PudvirezBreaker *b, const uint64_t *list, size_t places, PudvirezTicket ticket, uint8_t via_trait)
{
#if FAULT == 27 /* writes a place, and puts back what was there */
    if (places != 0) {
        volatile uint64_t *last = (uint64_t *)list + places - 1;
        const uint64_t was = *last;
        *last = was + 1;
        *last = was;
    }
#endif
    PudvirezPreview p = __real_pudvirez_preview_abort(b, list, places, ticket, via_trait);
#if FAULT == 28 /* a refused preview has no length */
    if (p.told.number == PUDVIREZ_TOLD_UNSOUND)
        p.breaker.shared.len = p.len = 0;
#endif
    return p;
}

PudvirezWaited __wrap_pudvirez_wait_drop(PudvirezBreaker *b, uint64_t *list, size_t places, PudvirezPending *p)
{
    PudvirezWaited t = __real_pudvirez_wait_drop(b, list, places, p);
#if FAULT == 10 /* a probe byte of 2 becomes 1 */
    p->ticket.probe = p->ticket.probe == 2 ? 1 : p->ticket.probe;
#endif
    return t;
}

PudvirezTold __wrap_pudvirez_reconfigure(PudvirezBreaker *b, uint64_t *list, size_t places, PudvirezSetting setting)
{
    PudvirezTold t = __real_pudvirez_reconfigure(b, list, places, setting);
#if FAULT == 11 /* new settings keep the generation */
    b->shared.generation -= t.number == PUDVIREZ_TOLD_OK;
#endif
    return t;
}

PudvirezTold __wrap_pudvirez_save(const PudvirezBreaker *b, const uint64_t *list, size_t places, uint8_t *saves, size_t size, size_t used, const uint8_t *name, size_t name_size)
{
    PudvirezTold t = __real_pudvirez_save(b, list, places, saves, size, used, name, name_size);
#if FAULT == 12 /* writes a byte past its run */
    if (t.number == PUDVIREZ_TOLD_OK && t.v1 < size)
        saves[t.v1] ^= 1;
#elif FAULT == 13 /* writes a byte past the buffer */
    if (t.number == PUDVIREZ_TOLD_OK && t.v1 == size)
        saves[size] ^= 1;
#elif FAULT == 14 /* a refused save has begun to write */
    if (t.number == PUDVIREZ_TOLD_NAME && used < size)
        saves[used] ^= 1;
#elif FAULT == 15 /* a name of seven bytes or nine will do */
    if (t.number == PUDVIREZ_TOLD_NAME && (name_size == 7 || name_size == 9))
        t = __real_pudvirez_save(b, list, places, saves, size, used, (const uint8_t *)"a name  ", 8);
#endif
    return t;
}

PudvirezTold __wrap_pudvirez_restore(PudvirezBreaker *b, uint64_t *list, size_t places, const uint8_t *saves, size_t size, size_t used, const uint8_t *name, size_t name_size)
{
    const uint64_t last = places == 0 ? 0 : list[places - 1];
    const uint32_t inflight = b->shared.counts.inflight;
    PudvirezTold t = __real_pudvirez_restore(b, list, places, saves, size, used, name, name_size);
    const bool back = t.number == PUDVIREZ_TOLD_OK;
#if FAULT == 16 /* a refused return moves the generation */
    b->shared.generation += t.number == PUDVIREZ_TOLD_NAME;
#elif FAULT == 17 /* keeps the trials that are out */
    if (back && b->shared.state == PUDVIREZ_STATE_HALF_OPEN && inflight <= b->config.trials)
        b->shared.counts.inflight = inflight;
#elif FAULT == 18 /* leaves a place past its list */
    if (back && b->shared.len < places)
        list[places - 1] = last;
#elif FAULT == 19 /* a version before the sums of the blocks behind it */
    if (t.number == PUDVIREZ_TOLD_DAMAGED && size <= PUDVIREZ_SAVES && size % 512 == 0 && used % 512 == 0 && used != 0 && used <= size && saves[0] != 1)
        t.number = PUDVIREZ_TOLD_VERSION;
#endif
    (void)last, (void)inflight, (void)back;
    return t;
}

PudvirezTold __wrap_pudvirez_check_block(const uint8_t *block, size_t size)
{
#if FAULT == 20 /* the four zero bytes behind the body are not tested */
    uint8_t copy[PUDVIREZ_BLOCK];
    if (size == sizeof copy) {
        memcpy(copy, block, sizeof copy);
        memset(copy + 504, 0, 4);
        return __real_pudvirez_check_block(copy, size);
    }
#elif FAULT == 21 /* reads a byte past the block */
    (void)((const volatile uint8_t *)block)[size];
#endif
    return __real_pudvirez_check_block(block, size);
}
