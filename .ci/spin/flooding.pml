/* examples/shelf/flooding.rounds */
byte seen[N];
byte chosen[N];
byte told[N];

#define HEARS(i) 1
#define LAST (N - 1)
#define DECISION(i) chosen[i]

inline start(v) { seen[me] = 1 << v }
inline send(j)
{
    if
    :: round <= T + 1 -> told[j] = seen[j]; is_sent[j] = 1
    :: else
    fi
}
inline forget(j) { told[j] = 0 }
inline hear() { seen[me] = seen[me] | told[from] }
inline finish() { chosen[me] = (round >= T + 1 -> seen[me] : 0) }
#include "lockstep.pml"
