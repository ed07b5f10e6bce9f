/* Saves from C: a desk saves its breaker, moves it to new settings and comes back, by way of a file; and what it sees when that goes wrong.
 *
 *     tools/archive
 *     cc -Wall -Wextra -Werror -std=c11 -Iinclude examples/checkpoints.c target/staticlib/libcapi.a -o checkpoints && ./checkpoints
 *
 * It prints what it is told, and exits 0 only if all of it is as document 02 says. The file is a tmpfile, which goes with the program. */
#include <stdio.h>
#include <string.h>

#include "pudvirez.h"

static int wrong = 0;

static void expect(bool holds, const char *what)
{
    if (!holds) {
        printf("WRONG: %s\n", what);
        wrong += 1;
    }
}

/* Prints what a call was told, and checks it. */
static void told(const char *call, PudvirezTold t, uint32_t number, uint64_t v1, uint64_t v2)
{
    printf("%-34s %2u %llu %llu\n", call, (unsigned)t.number, (unsigned long long)t.v1, (unsigned long long)t.v2);
    expect(t.number == number && t.v1 == v1 && t.v2 == v2 && t.v3 == 0, call);
}

static PudvirezBreaker b;
static uint64_t list[PUDVIREZ_PLACES];

/* Saves, and how much of them is used: what is kept in the file. */
static uint8_t saves[PUDVIREZ_SAVES];
static size_t used = 0;

/* The desk's settings before the move and after it. */
static const PudvirezSetting before = { .kind = PUDVIREZ_POLICY_WINDOWED, .limit = 3, .period_secs = 60, .cooldown_secs = 30, .trials = 2, .required = 2 };
static const PudvirezSetting after = { .kind = PUDVIREZ_POLICY_CONSECUTIVE, .limit = 1, .cooldown_secs = 5, .trials = 1, .required = 1 };

/* Prints and checks where the breaker stands: its policy, state and generation, and how many failure times it holds. */
static void stands(uint8_t kind, uint8_t state, uint64_t generation, uint32_t len)
{
    const char *const policies[] = { "?", "Consecutive", "Ratio", "Windowed" }, *const states[] = { "Closed", "HalfOpen", "Open", "?" };
    const PudvirezShared *h = &b.shared;
    printf("    %s, %s, generation %llu, %u failure times\n", policies[b.config.kind < 4 ? b.config.kind : 0], states[h->state < 3 ? h->state : 3],
           (unsigned long long)h->generation, (unsigned)h->len);
    expect(b.config.kind == kind && h->state == state && h->generation == generation && h->len == len, "where the breaker stands");
}

static PudvirezTold save(const char *name)
{
    return pudvirez_save(&b, list, PUDVIREZ_PLACES, saves, sizeof saves, used, (const uint8_t *)name, strlen(name));
}

static PudvirezTold restore(const char *name)
{
    return pudvirez_restore(&b, list, PUDVIREZ_PLACES, saves, sizeof saves, used, (const uint8_t *)name, strlen(name));
}

static PudvirezTold failure(uint64_t now_ms, PudvirezTicket ticket)
{
    return pudvirez_permit_failure(&b, list, PUDVIREZ_PLACES, now_ms, ticket);
}

/* Two failures within a minute, and a call that is still out. */
static PudvirezTicket busy(void)
{
    told("build Windowed 3 in 60 s", pudvirez_build(&b, list, PUDVIREZ_PLACES, before), PUDVIREZ_TOLD_OK, 0, 0);
    told("failure at 1000", pudvirez_record_manual(&b, list, PUDVIREZ_PLACES, 1000, 0), PUDVIREZ_TOLD_OK, 0, 0);
    told("failure at 2000", pudvirez_record_manual(&b, list, PUDVIREZ_PLACES, 2000, 0), PUDVIREZ_TOLD_OK, 0, 0);
    PudvirezTold t = pudvirez_admit_as(&b, list, PUDVIREZ_PLACES, 3000, 0);
    told("admit at 3000", t, PUDVIREZ_TOLD_OK, 0, 0);
    return (PudvirezTicket){ .generation = t.v1, .probe = (uint8_t)t.v2 };
}

/* Saves under a name of 8 bytes that no save has yet, and writes what is used to the file. */
static void save_all(FILE *file)
{
    PudvirezTold t = save("MONDAY01");
    told("save MONDAY01", t, PUDVIREZ_TOLD_OK, PUDVIREZ_BLOCK, 0);
    used = (size_t)t.v1;
    told("MONDAY01 again", save("MONDAY01"), PUDVIREZ_TOLD_NAME, 0, 0);
    told("a name of 6 bytes", save("MONDAY"), PUDVIREZ_TOLD_NAME, 0, 0);
    expect(fwrite(saves, 1, used, file) == used, "the used bytes written");
}

/* New settings: the call that was out has no effect, though one failure would open this breaker. */
static void move(PudvirezTicket early)
{
    told("move to Consecutive 1", pudvirez_reconfigure(&b, list, PUDVIREZ_PLACES, after), PUDVIREZ_TOLD_OK, 0, 0);
    stands(PUDVIREZ_POLICY_CONSECUTIVE, PUDVIREZ_STATE_CLOSED, 1, 0);
    told("failure of the call from before", failure(3500, early), PUDVIREZ_TOLD_OK, 0, 0);
    stands(PUDVIREZ_POLICY_CONSECUTIVE, PUDVIREZ_STATE_CLOSED, 1, 0);
}

/* The saves as the file holds them. */
static void read_back(FILE *file)
{
    memset(saves, 0xff, sizeof saves); /* what lies past the used bytes is not read */
    rewind(file);
    used = fread(saves, 1, sizeof saves, file);
    expect(used == PUDVIREZ_BLOCK, "as many bytes read as written");
}

/* What goes wrong leaves the breaker where it is. */
static void refused(void)
{
    told("restore TUESDAY1, which is absent", restore("TUESDAY1"), PUDVIREZ_TOLD_NAME, 0, 0);
    saves[100] ^= 1;
    told("restore, a damaged byte", restore("MONDAY01"), PUDVIREZ_TOLD_DAMAGED, 0, 0);
    told("save, a damaged byte", save("TUESDAY1"), PUDVIREZ_TOLD_DAMAGED, 0, 0);
    told("its block by itself", pudvirez_check_block(saves, PUDVIREZ_BLOCK), PUDVIREZ_TOLD_DAMAGED, 0, 0);
    saves[100] ^= 1;
    told("the same, mended", pudvirez_check_block(saves, PUDVIREZ_BLOCK), PUDVIREZ_TOLD_OK, 8, 102);
    stands(PUDVIREZ_POLICY_CONSECUTIVE, PUDVIREZ_STATE_CLOSED, 1, 0);
}

/* Settings and failure times are back, in a generation of their own: a third failure opens the breaker, but not that of the early call. */
static void come_back(PudvirezTicket early)
{
    told("restore MONDAY01", restore("MONDAY01"), PUDVIREZ_TOLD_OK, 0, 0);
    stands(PUDVIREZ_POLICY_WINDOWED, PUDVIREZ_STATE_CLOSED, 2, 2);
    expect(b.config.limit == 3 && b.config.period_ms == 60000 && b.config.cooldown_ms == 30000, "the settings of before");
    expect(b.config.trials == 2 && b.config.required == 2, "the trials of before");
    expect(list[0] == 1000 && list[1] == 2000 && list[2] == 0, "the failure times of before");
    told("failure of the call from before", failure(4000, early), PUDVIREZ_TOLD_OK, 0, 0);
    stands(PUDVIREZ_POLICY_WINDOWED, PUDVIREZ_STATE_CLOSED, 2, 2);
    told("admit at 4000", pudvirez_admit_as(&b, list, PUDVIREZ_PLACES, 4000, 0), PUDVIREZ_TOLD_OK, 2, 0);
    told("its failure", failure(4000, (PudvirezTicket){ .generation = 2, .probe = 0 }), PUDVIREZ_TOLD_OK, 0, 0);
    stands(PUDVIREZ_POLICY_WINDOWED, PUDVIREZ_STATE_OPEN, 3, 3);
    expect(b.shared.open_until == 34000, "open for 30 s");
}

int main(void)
{
    FILE *file = tmpfile();
    if (file == NULL) {
        puts("no place for a file");
        return 1;
    }
    PudvirezTicket early = busy();
    save_all(file);
    move(early);
    read_back(file);
    refused();
    come_back(early);
    fclose(file);
    puts(wrong == 0 ? "all as document 02 says" : "not as document 02 says");
    return wrong == 0 ? 0 : 1;
}
