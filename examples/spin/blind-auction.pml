/* The blind auction of ../agreements/blind-auction.txt for SPIN: the same calls in any order, up to the same number of calls,
   with rules 0 to 6 as assertions, or with -DWINNER rule 7. A refused call changes nothing. */

#define CALLS 6

#ifdef WINNER
#define RULE(claim) skip
#define NEVER_A_WINNER(claim) assert(claim)
#else
#define RULE(claim) assert(claim)
#define NEVER_A_WINNER(claim) skip
#endif

mtype = { ABB, RB, F, C };
#define HOUSE 0
#define ALICE 1
#define BOB 2

mtype phase = ABB;
int highest_bid, own;
byte highest_bidder;
int balance[3];
int pending[3];
byte bids[3];
int blinded[6]; /* of account a: 2a and 2a + 1 */
int deposit[6];

byte calls; /* made so far */
bool closed, finished; /* a completed close, a completed finish */

inline bid(who, hash, pays) {
    if
    :: phase == ABB && balance[who] >= pays && bids[who] < 2 ->
        RULE(!closed); /* rule 0 */
        balance[who] = balance[who] - pays;
        own = own + pays;
        blinded[2 * who + bids[who]] = hash;
        deposit[2 * who + bids[who]] = pays;
        bids[who]++;
        pending[who] = pending[who] + pays
    :: else
    fi
}

inline close(day) {
    if
    :: phase == ABB && day >= 5 -> phase = RB; closed = true
    :: else
    fi
}

inline reveal_one(who, nth, value, secret) {
    if
    :: nth < bids[who] && blinded[2 * who + nth] == value * 1000 + secret &&
       value <= deposit[2 * who + nth] && highest_bid < value ->
        highest_bid = value;
        highest_bidder = who
    :: else
    fi
}

inline reveal(who, value0, secret0, value1, secret1) {
    if
    :: phase == RB -> reveal_one(who, 0, value0, secret0); reveal_one(who, 1, value1, secret1)
    :: else
    fi
}

inline finish(day) {
    if
    :: phase == RB && day >= 10 ->
        RULE(closed); /* rule 4 */
        phase = F;
        finished = true
    :: else
    fi
}

/* cancelABB and cancelRB */
inline cancel(from) {
    if
    :: phase == from ->
        RULE(!finished); /* rules 1 and 2 */
        phase = C
    :: else
    fi
}

inline pay(who, amount) {
    balance[who] = balance[who] + (amount);
    own = own - (amount)
}

inline withdraw(who) {
    if
    :: phase == F ->
        RULE(finished); /* rule 3 */
        if
        :: pending[who] > 0 ->
            if
            :: who != highest_bidder -> pay(who, pending[who])
            :: else -> pay(who, pending[who] - highest_bid)
            fi;
            pending[who] = 0
        :: else
        fi
    :: else
    fi
}

inline unbid(who) {
    if
    :: phase == C && pending[who] > 0 ->
        pay(who, pending[who]);
        pending[who] = 0
    :: else
    fi
}

/* What rules 5, 6 and 7 say between calls. */
inline judge() {
    RULE(pending[ALICE] + pending[BOB] <= own);
    RULE(phase != F || highest_bid <= own);
    NEVER_A_WINNER(!(phase == F && highest_bid > 0))
}

init {
    d_step { balance[ALICE] = 30; balance[BOB] = 30; judge() }
    do
    :: calls < CALLS ->
        calls++;
        if
        :: d_step { printf("row 0\n"); bid(ALICE, 7013, 10); judge() }
        :: d_step { printf("row 1\n"); bid(BOB, 8021, 10); judge() }
        :: d_step { printf("row 2\n"); close(5); judge() }
        :: d_step { printf("row 3\n"); reveal(ALICE, 7, 13, 0, 0); judge() }
        :: d_step { printf("row 4\n"); finish(10); judge() }
        :: d_step { printf("row 5\n"); cancel(ABB); judge() }
        :: d_step { printf("row 6\n"); cancel(RB); judge() }
        :: d_step { printf("row 7\n"); withdraw(ALICE); judge() }
        :: d_step { printf("row 8\n"); unbid(ALICE); judge() }
        fi
    :: else -> break
    od
}
