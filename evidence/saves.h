/* W-201 of document 02 a second time, in C: what the calls of saves are told, and what they leave. Written from the document, for any.c. */
#ifndef SAVES_H
#define SAVES_H

#include "model.h"

/* The most that any.c hands in: more than a buffer or a name may have. */
#define SAVES_MOST 131584
#define NAME_MOST 64

/* A buffer of saves and the asked name, and after a call what it left. */
typedef struct {
    uint8_t bytes[SAVES_MOST], name[NAME_MOST];
    size_t size, used, name_size;
} Saves;

/* What the last call met of 13 (lengths and sums), 14, 13 (the rest) and 15, if it was told one of these. */
enum { ROW_NONE, ROW_LENGTHS, ROW_SUM, ROW_VERSION, ROW_HEADER, ROW_ZERO, ROW_BODY, ROW_UNSOUND, ROW_TWICE, ROW_NOT_8, ROW_NOT_ASCII, ROW_ABSENT, ROW_THERE, ROW_NO_ROOM, ROWS };
extern int met_row;

Answer model_save(Model *m, Saves *s);
Answer model_restore(Model *m, const Saves *s);
Answer model_check_block(const uint8_t *block, size_t size);

/* The run of a save, sound or not: its blocks, how it is written, and the sum of a block made right. */
size_t run_blocks(const Model *m);
void write_run(uint8_t *to, const uint8_t *name, const Model *m);
void seal(uint8_t *block);

#endif
