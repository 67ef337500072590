/* @count_votes:2. What a round sets before anything looks at it is 0 from the round's begin on, so
 * that fewer states are stored; with KEPT it's kept until then. */
byte x[N];
byte last0[N];
byte last1[N];
byte top[N];
byte votes[2];
byte vote[N];

#define HEARS(i) 1
#define LAST (N - 1)
#define DECISION(i) top[i]

inline start(v) { x[me] = v }
inline send(j)
{
#ifndef KEPT
    last0[j] = 0;
    last1[j] = 0;
#ifndef FINAL
    top[j] = 0;
#endif
#endif
    vote[j] = x[j];
    is_sent[j] = 1
}
inline forget(j) { vote[j] = 0 }
inline hear() { votes[vote[from]]++ }
inline finish()
{
    top[me] = (votes[0] > N / 2) | ((votes[1] > N / 2) << 1);
    last0[me] = votes[0];
    last1[me] = votes[1];
    votes[0] = 0;
    votes[1] = 0
}
#include "lockstep.pml"
