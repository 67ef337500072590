/* @dls1:2, and examples/wrong-algorithm-1.rounds with -DACKS=T, one acknowledgement too few */
#ifndef ACKS
#define ACKS (T + 1)
#endif
byte proper[N];
byte lock0[N];
byte lock1[N];
bit got[N];
byte done[N];
byte prop;                      /* of the owner; no other node has one */
byte lists[2];                  /* of node me */
byte acks;
byte first[N];                  /* a message: a set or a lock, another lock, the values known */
byte second[N];
byte known[N];

#define AT ((round - 1) % 4 + 1)
#define PHASE ((round - 1) / 4 + 1)
#define OWNER ((PHASE - 1) % N)
#define HEARS(i) (AT == 2 || AT == 4 || (i) == OWNER)
#define LAST (AT == 2 || AT == 4 -> N - 1 : OWNER)
#define DECISION(i) done[i]

inline start(v) { proper[me] = 1 << v }
inline send(j)
{
    if
    :: AT == 1 ->
        is_sent[j] = 1;
        first[j] = proper[j] & ((lock1[j] == 0) | ((lock0[j] == 0) << 1))
    :: AT == 2 && j == OWNER && prop != 0 -> is_sent[j] = 1; first[j] = prop
    :: AT == 3 && got[j] -> is_sent[j] = 1; got[j] = 0
    :: AT == 4 && (lock0[j] > 0 || lock1[j] > 0) ->
        is_sent[j] = 1;
        first[j] = lock0[j];
        second[j] = lock1[j]
    :: else
    fi;
    if
    :: is_sent[j] -> known[j] = proper[j]
    :: else
    fi
}
inline forget(j) { first[j] = 0; second[j] = 0; known[j] = 0 }
inline hear()
{
    if
    :: AT == 1 ->
        lists[0] = lists[0] + (first[from] & 1);
        lists[1] = lists[1] + (first[from] >> 1)
    :: AT == 2 ->
        lock0[me] = (first[from] & 1 -> PHASE : lock0[me]);
        lock1[me] = (first[from] & 2 -> PHASE : lock1[me]);
        got[me] = 1
    :: AT == 3 -> acks++
    :: AT == 4 ->
        lock0[me] = (second[from] > 0 && second[from] >= lock0[me] -> 0 : lock0[me]);
        lock1[me] = (first[from] > 0 && first[from] >= lock1[me] -> 0 : lock1[me])
    fi;
    proper[me] = proper[me] | known[from]
}
inline finish()
{
    if
    :: AT == 1 ->
        if
        :: me == OWNER && lists[0] >= N - T -> prop = 1
        :: me == OWNER && lists[0] < N - T && lists[1] >= N - T -> prop = 2
        :: else
        fi;
        lists[0] = 0;
        lists[1] = 0
    :: AT == 3 ->
        if
        :: me == OWNER && done[me] == 0 && acks >= ACKS -> done[me] = prop
        :: else
        fi;
        acks = 0;
        prop = (me == OWNER -> 0 : prop)
    :: else
    fi
}
#include "lockstep.pml"
