/* Merge under each light at strengths from the weakest to the greatest: no input that users meet may be several times slower than its neighbours. */
#ifndef STRENGTHS_H
#define STRENGTHS_H

/* Of so many sizes up to 1024 and so many counts, beside FFTW with an inverse for each frame. */
void print_strengths(int sizes, int counts);

#endif
