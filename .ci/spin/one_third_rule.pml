/* examples/shelf/one-third-rule.rounds */
byte x[N];
byte done[N];
byte votes[2];
byte vote[N];

#define HEARS(i) 1
#define LAST (N - 1)
#define DECISION(i) done[i]
#define HEARD (votes[0] + votes[1])
#define IS_MOST(v) (3 * votes[v] > 2 * N)

inline start(v) { x[me] = v }
inline send(j) { vote[j] = x[j]; is_sent[j] = 1 }
inline forget(j) { vote[j] = 0 }
inline hear() { votes[vote[from]]++ }
inline finish()
{
    if
    :: 3 * HEARD <= 2 * N
    :: else ->
        if
        :: votes[0] + N / 3 >= HEARD -> x[me] = 0
        :: else ->
            if
            :: votes[1] + N / 3 >= HEARD -> x[me] = 1
            :: else -> x[me] = (votes[0] > 0 -> 0 : 1)
            fi
        fi
    fi;
    if
    :: IS_MOST(0) || IS_MOST(1) -> done[me] = IS_MOST(0) | (IS_MOST(1) << 1)
    :: else
    fi;
    votes[0] = 0;
    votes[1] = 0
}
#include "lockstep.pml"
