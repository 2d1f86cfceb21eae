/* File calls of the library that fail, and syncs and orders that wait, for tests. The linker hands the
 * calls over (`--wrap`). */
#ifndef FAULTS_H
#define FAULTS_H

#include <stdatomic.h>
#include <stdbool.h>

/* The file call that fails, counted from now, and its error; 0: none. Of a write that fails half
 * of the bytes are written. */
extern atomic_int faults_left;
extern int faults_error;

/* How many calls by a descriptor of the note of the files' numbers fail from now on. */
extern atomic_int faults_notes;

/* Whether the call that failed was one on the note of the files' numbers, which fails nothing. */
extern bool faults_of_note;

/* The process is killed at that call instead. */
extern bool faults_kill;

/* The order of the proved part that can't be given, counted likewise. */
extern atomic_int faults_orders_left;

/* Syncs of files that didn't fail. */
extern atomic_int faults_syncs;

/* Lets each `fdatasync` wait, or go on. */
void faults_hold_syncs(bool holds);

/* Waits until one waits. */
void faults_await_sync(void);

/* The same of the orders of the proved part. */
void faults_hold_orders(bool holds);
void faults_await_order(void);

/* The number of this thread. */
int faults_thread(void);

/* Waits until a thread, whose number stands there once it runs, waits for another one, or has ended:
 * false where it doesn't in half a minute. */
bool faults_await_thread(atomic_int *thread, atomic_bool *has_ended);

#endif
