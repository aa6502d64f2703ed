/* The variants of one build, under the name PEERS. */
#include "peers.h"

const peer_list PEERS = { { &straight_align, &expert_align_whole, &expert_align_early },
    { &straight_merge, &expert_merge_two, &expert_merge_one, &expert_merge_double, &fftw_merge_one, &fftw_merge_each } };
