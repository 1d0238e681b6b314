/*
 * Splicebell: for which processor the code is that the calls of splicebell.h run here.
 *
 * Of libsplicebell alone, which holds code for more than one: docs/ABI.md. It is none of the proved calls.
 */
#ifndef SPLICEBELL_PROCESSOR_H
#define SPLICEBELL_PROCESSOR_H

#ifdef __cplusplus
extern "C" {
#endif

/* "x86-64", "x86-64-v3" or "x86-64-v4"; on Arm "aarch64". It never changes while the program runs. */
const char *splicebell_processor(void);

#ifdef __cplusplus
}
#endif

#endif
