/* All nodes' rounds in lockstep, one node after the other, in one process. A model defines what a
 * node's state and a message are, and includes this file:
 *
 *     start(v)       node me begins with the input v
 *     send(j)        is_sent[j] becomes 1 if node j sends something, and its message is kept
 *     forget(j)      the message of node j becomes 0
 *     hear           node me hears the message of node from
 *     finish         node me ends the round; what only the messages needed becomes 0
 *     HEARS(i)       whether anything is sent to node i in this round, whoever the sender is
 *     LAST           the last node to which something is sent in this round
 *     DECISION(i)    the set of values that node i decides the least of, as bits
 *
 * N nodes, T faults and R rounds are given with -D; so are AGREEMENT, VALIDITY and FINAL, which
 * say what is asserted. With APART runs with different inputs have no state in common, and with
 * ENDS the state after each round is stored too: what that adds is how many there are.
 *
 * A choice is whether a message is heard. All that needs no choice belongs to the step of the
 * choice before it, so that there's one stored state for each choice and no other.
 */
#ifdef ENDS
bit is_end;                     /* a round has ended, and the next hasn't begun */
#define IS_BETWEEN is_end
#define IS_STOP (round > 1)
#define STOP is_end = 1
#else
#define IS_BETWEEN false
#define IS_STOP false
#define STOP skip
#endif
#ifdef APART
byte inputs;                    /* those of the nodes, as bits */
#endif
#define LEAST(s) ((s) & 1 -> 1 : (s))

byte round;                     /* from 1; 0 while the inputs are chosen, R + 1 after all rounds */
byte me;                        /* the node whose turn it is */
byte from;                      /* the sender whose message it may hear */
bit is_sent[N];
byte given;                     /* the inputs, as bits; kept for validity only */
byte decided;                   /* all decisions so far, as bits; kept for agreement only */
hidden byte at;                 /* a hidden variable is in no stored state */
hidden byte was;
hidden byte now_is;

inline send_all()
{
    at = 0;
    do
    :: at < N -> send(at); at++
    :: else -> break
    od
}

inline forget_all()
{
    at = 0;
    do
    :: at < N -> forget(at); is_sent[at] = 0; at++
    :: else -> break
    od
}

inline begin_round()
{
    if
    :: round <= R -> send_all()
    :: else
    fi
}

/* Node me ends the round, and its decision is looked at. */
inline ended()
{
    was = LEAST(DECISION(me));
    finish();
    now_is = LEAST(DECISION(me));
#ifdef VALIDITY
    assert((now_is & given) == now_is);
#endif
#ifdef FINAL
    assert(was == 0 || now_is == was);
#endif
#ifdef AGREEMENT
    decided = decided | now_is;
    assert(decided != 3);
#endif
    me++
}

/* Goes on to the next message that may be heard, through the ends of nodes and rounds. */
inline to_next_choice()
{
    do
    :: round > R -> break
    :: else ->
        if
        :: me == N ->
            me = 0;
            forget_all();
            round++;
            if
            :: IS_STOP -> STOP; break
            :: else -> begin_round()
            fi
        :: me < N && (from == N || !HEARS(me)) -> from = 0; ended()
        :: me < N && from < N && HEARS(me) ->
            if
            :: is_sent[from] -> break
            :: else -> from++
            fi
        fi
    od;
    skip                        /* a break may not be the last statement of a d_step */
}

inline begun(v)
{
#ifdef VALIDITY
    given = given | v;
#endif
#ifdef APART
    inputs = inputs | ((v) >> 1) << me;
#endif
    me++;
    if
    :: me == N -> to_next_choice()
    :: else
    fi
}

/* A message that no other node hears is forgotten at once, so that fewer states are stored. */
inline heard_or_missed()
{
    if
    :: me == LAST -> forget(from); is_sent[from] = 0
    :: else
    fi;
    from++;
    to_next_choice()
}

active proctype rounds()
{
    do
    :: d_step { round == 0 -> start(0); begun(1) }
    :: d_step { round == 0 -> start(1); begun(2) }
    :: d_step { !IS_BETWEEN && round > 0 && round <= R -> hear(); heard_or_missed() }
    :: d_step { !IS_BETWEEN && round > 0 && round <= R -> heard_or_missed() }
    :: d_step { !IS_BETWEEN && round > R -> skip }; break
#ifdef ENDS
    :: d_step { is_end -> is_end = 0; begin_round(); to_next_choice() }
#endif
    od
}
