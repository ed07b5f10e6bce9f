/* Prints the names of the header's numbers, size and alignment of each struct, and offset and width of each field. */
#include <stdio.h>

#include "pudvirez.h"

#define NUMBER(name) printf(#name " %d\n", (int)name)
#define WHOLE(type) printf(#type " %zu %zu\n", sizeof(type), _Alignof(type))
#define FIELD(type, field) printf(#type "." #field " %zu %zu\n", offsetof(type, field), sizeof(((type *)0)->field))

static void numbers(void)
{
    NUMBER(PUDVIREZ_PLACES);
    NUMBER(PUDVIREZ_BLOCK);
    NUMBER(PUDVIREZ_NAME);
    NUMBER(PUDVIREZ_SAVES);
    NUMBER(PUDVIREZ_TOLD_OK);
    NUMBER(PUDVIREZ_TOLD_TIME);
    NUMBER(PUDVIREZ_TOLD_LIMIT);
    NUMBER(PUDVIREZ_TOLD_STORAGE);
    NUMBER(PUDVIREZ_TOLD_UNSOUND);
    NUMBER(PUDVIREZ_TOLD_FULL);
    NUMBER(PUDVIREZ_TOLD_CIRCUIT_OPEN);
    NUMBER(PUDVIREZ_TOLD_INNER_RETRY);
    NUMBER(PUDVIREZ_TOLD_COST_EXCEEDS_CAPACITY);
    NUMBER(PUDVIREZ_TOLD_DEADLINE_EXCEEDED);
    NUMBER(PUDVIREZ_TOLD_UNFINISHED);
    NUMBER(PUDVIREZ_TOLD_TURN);
    NUMBER(PUDVIREZ_TOLD_DAMAGED);
    NUMBER(PUDVIREZ_TOLD_VERSION);
    NUMBER(PUDVIREZ_TOLD_NAME);
    NUMBER(PUDVIREZ_STATE_CLOSED);
    NUMBER(PUDVIREZ_STATE_HALF_OPEN);
    NUMBER(PUDVIREZ_STATE_OPEN);
    NUMBER(PUDVIREZ_POLICY_CONSECUTIVE);
    NUMBER(PUDVIREZ_POLICY_RATIO);
    NUMBER(PUDVIREZ_POLICY_WINDOWED);
    NUMBER(PUDVIREZ_DECISION_ACQUIRED);
    NUMBER(PUDVIREZ_DECISION_RETRY);
    NUMBER(PUDVIREZ_DECISION_IMPOSSIBLE);
    NUMBER(PUDVIREZ_RESERVATION_NONE);
    NUMBER(PUDVIREZ_RESERVATION_WAIT);
    NUMBER(PUDVIREZ_PHASE_ENDED);
    NUMBER(PUDVIREZ_PHASE_LOOKING);
    NUMBER(PUDVIREZ_PHASE_HOLDING);
    NUMBER(PUDVIREZ_REPLY_GRANTED);
    NUMBER(PUDVIREZ_REPLY_RETRY);
    NUMBER(PUDVIREZ_REPLY_NEVER);
    NUMBER(PUDVIREZ_ACT_ADMITTED);
    NUMBER(PUDVIREZ_ACT_SLEEP);
    NUMBER(PUDVIREZ_ACT_SLEEP_UNLESS_RESUMED);
    NUMBER(PUDVIREZ_ACT_YIELD);
    NUMBER(PUDVIREZ_ACT_LOOK_AGAIN);
}

static void records(void)
{
    WHOLE(PudvirezConfig);
    FIELD(PudvirezConfig, kind);
    FIELD(PudvirezConfig, limit);
    FIELD(PudvirezConfig, ratio_bits);
    FIELD(PudvirezConfig, min_calls);
    FIELD(PudvirezConfig, period_ms);
    FIELD(PudvirezConfig, cooldown_ms);
    FIELD(PudvirezConfig, trials);
    FIELD(PudvirezConfig, required);
    WHOLE(PudvirezCounts);
    FIELD(PudvirezCounts, inflight);
    FIELD(PudvirezCounts, trait_probes);
    FIELD(PudvirezCounts, successes);
    WHOLE(PudvirezShared);
    FIELD(PudvirezShared, state);
    FIELD(PudvirezShared, generation);
    FIELD(PudvirezShared, run);
    FIELD(PudvirezShared, counts);
    FIELD(PudvirezShared, open_until);
    FIELD(PudvirezShared, len);
    WHOLE(PudvirezBreaker);
    FIELD(PudvirezBreaker, config);
    FIELD(PudvirezBreaker, shared);
    WHOLE(PudvirezTicket);
    FIELD(PudvirezTicket, generation);
    FIELD(PudvirezTicket, probe);
    WHOLE(PudvirezSetting);
    FIELD(PudvirezSetting, kind);
    FIELD(PudvirezSetting, limit);
    FIELD(PudvirezSetting, ratio);
    FIELD(PudvirezSetting, min_calls);
    FIELD(PudvirezSetting, period_secs);
    FIELD(PudvirezSetting, period_nanos);
    FIELD(PudvirezSetting, cooldown_secs);
    FIELD(PudvirezSetting, cooldown_nanos);
    FIELD(PudvirezSetting, trials);
    FIELD(PudvirezSetting, required);
}

static void waits(void)
{
    WHOLE(PudvirezWait);
    FIELD(PudvirezWait, phase);
    FIELD(PudvirezWait, limited);
    FIELD(PudvirezWait, deadline);
    FIELD(PudvirezWait, seen);
    FIELD(PudvirezWait, due);
    FIELD(PudvirezWait, zeros);
    WHOLE(PudvirezPending);
    FIELD(PudvirezPending, wait);
    FIELD(PudvirezPending, ticket);
    WHOLE(PudvirezTurn);
    FIELD(PudvirezTurn, clock);
    FIELD(PudvirezTurn, epoch_before);
    FIELD(PudvirezTurn, epoch_after);
    FIELD(PudvirezTurn, kind);
    FIELD(PudvirezTurn, duration);
    FIELD(PudvirezTurn, pause);
    FIELD(PudvirezTurn, postponed_before);
    FIELD(PudvirezTurn, postponed_after);
}

static void answers(void)
{
    WHOLE(PudvirezTold);
    FIELD(PudvirezTold, number);
    FIELD(PudvirezTold, v1);
    FIELD(PudvirezTold, v2);
    FIELD(PudvirezTold, v3);
    WHOLE(PudvirezWaited);
    FIELD(PudvirezWaited, number);
    FIELD(PudvirezWaited, v1);
    FIELD(PudvirezWaited, v2);
    FIELD(PudvirezWaited, v3);
    FIELD(PudvirezWaited, v4);
    FIELD(PudvirezWaited, taken);
    WHOLE(PudvirezPreview);
    FIELD(PudvirezPreview, told);
    FIELD(PudvirezPreview, breaker);
    FIELD(PudvirezPreview, len);
}

int main(void)
{
    numbers();
    records();
    waits();
    answers();
    return 0;
}
