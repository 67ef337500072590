/* examples/shelf/uniform-voting.rounds */
byte x[N];
byte vote[N];
byte done[N];
byte votes;                     /* of node me, as sets */
byte open;
byte value[N];                  /* a message: the value, and the vote or 0 */
byte voted[N];

#define AT ((round - 1) % 2 + 1)
#define HEARS(i) 1
#define LAST (N - 1)
#define DECISION(i) done[i]
#define IS_ONE(s) ((s) == 1 || (s) == 2)

inline start(v) { x[me] = v }
inline send(j) { value[j] = x[j]; voted[j] = vote[j]; vote[j] = 0; is_sent[j] = 1 }
inline forget(j) { value[j] = 0; voted[j] = 0 }
inline hear()
{
    votes = votes | voted[from];
    open = (voted[from] == 0 -> open | (1 << value[from]) : open)
}
inline finish()
{
    if
    :: AT == 1 ->
        vote[me] = (IS_ONE(open) -> open : 0)
    :: AT == 2 ->
        done[me] = (IS_ONE(votes) && open == 0 -> votes : done[me])
    fi;
    if
    :: votes != 0 -> x[me] = (votes & 1 -> 0 : 1)
    :: votes == 0 && open != 0 -> x[me] = (open & 1 -> 0 : 1)
    :: else
    fi;
    votes = 0;
    open = 0
}
#include "lockstep.pml"
