/* The calls of stacker.h on many cores: align frame by frame, merge by bands of rows, each part by one proved call in a thread of its own. Which thread makes
   which call is outside the proofs.

   Link with libstacker_threads.a, libstacker.a and -pthread, or with the shared library, which has both. For Linux; C99 and later, C++11 and later. */
#ifndef STACKER_THREADS_H
#define STACKER_THREADS_H

#include "stacker.h"

#ifdef __cplusplus
extern "C" {
#endif

/* The refusal of these functions alone: there is no memory for one work area. */
#define STACKER_THREADS_NO_MEMORY UINT64_MAX

/* Each does with the same arguments what the call of its name does, word for word: vectors, output and answer are those of stacker_align, stacker_merge and
   stacker_run. What stacker.h says of lent buffers and refusals holds here too: after a refusal every buffer is as it was. Until the
   function answers nobody else may store to a lent buffer. Several may run at the same time, each with vectors and output of its own.

   `threads` is how many may work at once, the caller's among them; 0 stands for as many as the process has processors, and more than 256 for 256. Fewer work
   where there are fewer parts (other frames in align, rows of tiles in merge), where there is no memory for more, or where the system starts no more.
   All have ended when the function answers. Signals are left to the caller's own threads.

   Work areas are made and freed inside, so that 7 is never answered: for frames of W by H and tiles of side S, 8 W H bytes for each thread in
   align, twice that for one alone, 32 S W bytes for each in merge, and the greater of both sums in run. Run with threads = 8 at 4096 by 4096 and eight frames
   takes 0.94 GB. */

stacker_alignment stacker_threads_align(stacker_burst burst, stacker_tuning tuning, const uint16_t *samples, size_t samples_length, int32_t *vectors,
    size_t vectors_length, size_t threads);

uint64_t stacker_threads_merge(stacker_burst burst, stacker_noise noise, stacker_tuning tuning, const uint16_t *samples, size_t samples_length,
    const int32_t *vectors, size_t vectors_length, uint16_t *output, size_t output_length, size_t threads);

uint64_t stacker_threads_merge_iso(stacker_burst burst, stacker_iso_noise noise, stacker_tuning tuning, const uint16_t *samples, size_t samples_length,
    const int32_t *vectors, size_t vectors_length, uint16_t *output, size_t output_length, size_t threads);

stacker_alignment stacker_threads_run(stacker_burst burst, stacker_noise noise, stacker_tuning tuning, const uint16_t *samples, size_t samples_length,
    int32_t *vectors, size_t vectors_length, uint16_t *output, size_t output_length, size_t threads);

stacker_alignment stacker_threads_run_iso(stacker_burst burst, stacker_iso_noise noise, stacker_tuning tuning, const uint16_t *samples,
    size_t samples_length, int32_t *vectors, size_t vectors_length, uint16_t *output, size_t output_length, size_t threads);

#ifdef __cplusplus
}
#endif

#endif
