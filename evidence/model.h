/* Document 01 a second time, in C: what each call is told, and what it leaves; with document 02's new settings and previews. Written from the
 * documents, for evidence/any.c. The calls of saves, which document 02 adds, are in saves.h. */
#ifndef MODEL_H
#define MODEL_H

#include "pudvirez.h"

/* What a call is handed, and after it what it left. */
typedef struct {
    PudvirezBreaker breaker;
    uint64_t list[PUDVIREZ_PLACES + 1];
    size_t places;
    PudvirezPending pending;
} Model;

/* Every answer in the widest form. */
typedef PudvirezWaited Answer;

/* Whether several of 3, 4, 11, 1 and 2 were met by the last call; of the calls of saves, of 3, 4, 13, 14, 13 and 15. */
extern bool met_several;

bool model_sound(const Model *m);

/* 3 or 4, or 0 where neither is met: what every call on a breaker tests first. */
uint32_t model_refusal(const Model *m);

Answer model_build(Model *m, const PudvirezSetting *setting);
Answer model_reconfigure(Model *m, const PudvirezSetting *setting);
Answer model_admit(Model *m, uint64_t now, bool via_trait);
Answer model_settle(Model *m, uint64_t now, PudvirezTicket ticket, bool success);
Answer model_abort(Model *m, PudvirezTicket ticket, bool via_trait);
Answer model_cancel(Model *m, PudvirezTicket ticket);
Answer model_reset(Model *m);
Answer model_manual(Model *m, uint64_t now, bool success);
Answer model_refund(Model *m, uint64_t told);
Answer model_try_admit(Model *m, uint64_t now, uint8_t kind, uint32_t capacity);
Answer model_acquire_cost(Model *m, uint64_t now, uint8_t kind, uint64_t ms);
Answer model_reserve(Model *m, uint64_t now, uint8_t kind, uint64_t ms);
Answer model_still_admits(Model *m, uint64_t now, PudvirezTicket ticket);
PudvirezPreview model_preview_settle(const Model *m, uint64_t now, PudvirezTicket ticket, bool success);
PudvirezPreview model_preview_abort(const Model *m, PudvirezTicket ticket, bool via_trait);
Answer model_peek(Model *m, uint64_t now, uint8_t kind, uint64_t ms);
Answer model_available(Model *m, uint64_t now, uint8_t kind, uint32_t count);
Answer model_board(Model *m);

/* A batch: the counts are generations, probes, settles, marks and answers. */
typedef struct {
    const uint64_t *generations;
    const uint8_t *probes, *settles, *marks;
    uint64_t *answers;
    size_t counts[5];
} Batch;

Answer model_finish_all(Model *m, uint64_t now, Batch *batch);

Answer model_wait_start(Model *m, uint64_t now, uint64_t clock, bool limited, uint64_t timeout);
Answer model_wait_turn(Model *m, const PudvirezTurn *turn, uint64_t now, uint32_t capacity);
Answer model_wait_run(Model *m, const uint64_t *turns, size_t numbers, uint64_t limit, uint64_t now, uint32_t capacity);
Answer model_wait_drop(Model *m);

#endif
