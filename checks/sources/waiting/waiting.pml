/*
 * How the workers of a run wait for tokens: crates/worker_run/src/signal.rt, with what crew.rt, station.rt, look.rt,
 * desk.rt and dispatcher.rt do around it, one atomic access to shared memory a step. checks/sources/waiting.sh has spin explore every
 * interleaving.
 *
 * A comment `FILE: CODE` before a step names the line of crates/worker_run/src/FILE that the step stands for.
 * checks/sources/waiting/lines.py finds each of these lines in its file, and tells where a function that is modelled here has
 * changed since the model was last compared with it.
 *
 * The program is any program of SEGMENTS segments: a finish makes ready as many further segments as spin likes, but at
 * least one where otherwise nothing would be ready, in a lane or running, and the run is not finished. Tokens are
 * counted and not told apart. A kernel may fault, a finish may be refused, and so may the start of a thread.
 *
 * With one of these names defined the model is wrong, and spin must find it out:
 *   FLAG_FIRST       a worker reads the flag before the count of news (no code does that: Dispatcher::turn asks for the count)
 *   COUNT_LAST       a worker reads the count of news after it has looked at the lanes
 *   SILENT_END       the end sets the flag and wakes, and adds no news
 *   ASLEEP_FIRST     who has put tokens asks whether anyone sleeps before it adds the news
 *   PASSED_AS_EMPTY  a worker takes a lane that it passes over for an empty one
 *   BUSY_AS_IDLE     a worker that has started its next segment tells as if it took the first new token itself
 *   ONE_WOKEN        who has put several tokens for others wakes one worker alone
 */
#ifndef WORKERS
#define WORKERS 2
#endif
#ifndef SEGMENTS
#define SEGMENTS 4
#endif
#ifndef FAULTS
#define FAULTS 1
#endif
/* How many looks in a row may pass over lanes: 1 is as good as more, since which lanes a look passes over is open. */
#ifndef PATIENCE
#define PATIENCE 1
#endif

/* Signal */
bool over;
byte news;
byte asleep;

/* Who sleeps on the count of news, and whether the wake-up of an end is through. */
bool parked[WORKERS];
bool woken;

/* The lanes: how many tokens have left each at its front, and how many were put at its back. */
byte front[WORKERS];
byte back[WORKERS];

/* The desk: its lock, how many segments are ready or running, and how many are neither yet. */
bool locked;
byte open = 1;
byte later = SEGMENTS - 1;

/* Faults that may still come, who is in its kernel, who has ended, and whether all threads are started or refused. */
byte faults = FAULTS;
bool computes[WORKERS];
bool ended[WORKERS];
bool started;

/* Signal::end */
inline end_all() {
    /* signal.rt: self.over.store(true, Ordering::SeqCst); */
    over = true;
#ifndef SILENT_END
    /* signal.rt: self.news.add(); */
    /* news_count.rt: self.count.fetch_add(1, Ordering::SeqCst); */
    news++;
#endif
    /* signal.rt: self.news.wake_all(); */
    d_step { wake_all(); woken = true }
}

/* Dispatcher::end_by, and Desk::end_by_fault behind the lock */
inline end_by() {
    /* dispatcher.rt: self.lock(rt).end_by(&self.signal, end) */
    atomic { !locked -> locked = true };
    end_all();
    locked = false
}

inline wake_all() {
    parked[0] = false;
#if WORKERS > 1
    parked[1] = false;
#endif
#if WORKERS > 2
    parked[2] = false;
#endif
#if WORKERS > 3
    parked[3] = false;
#endif
}

/* any one of those that sleep */
inline wake_one() {
    if
    :: parked[0] -> parked[0] = false
#if WORKERS > 1
    :: parked[1] -> parked[1] = false
#endif
#if WORKERS > 2
    :: parked[2] -> parked[2] = false
#endif
#if WORKERS > 3
    :: parked[3] -> parked[3] = false
#endif
    :: else
    fi
}

/* Signal::tell_others, of so many tokens */
inline tell(others) {
    /* signal.rt: if others == 0 { */
    if
    :: others == 0
    :: else ->
#ifdef ASLEEP_FIRST
        someone = (asleep > 0);
        news++;
#else
        /* signal.rt: self.news.add(); */
        news++;
        /* signal.rt: if self.asleep.load(Ordering::SeqCst) == 0 { */
        someone = (asleep > 0);
#endif
        /* signal.rt: if others == 1 { */
        if
        :: !someone
        /* signal.rt: self.news.wake_one(); */
        :: someone && others == 1 -> atomic { wake_one() }
        /* signal.rt: self.news.wake_all(); */
#ifdef ONE_WOKEN
        :: someone && others > 1 -> atomic { wake_one() }
#else
        :: someone && others > 1 -> d_step { wake_all() }
#endif
        fi
    fi
}

proctype worker(byte me) {
    byte seen;      /* the count of news, as read */
    byte lane;      /* the lane that is looked at */
    byte at;        /* its front, as read */
    byte passed;    /* how many looks in a row have passed over lanes */
    byte tokens;    /* what a finish has made ready */
    bool busy;      /* whether it has taken its next token before the finish, and has started it */
    bool unsure;
    bool someone;

again:  /* Crew::work */
    unsure = false;
#ifdef FLAG_FIRST
    if :: over -> goto leave :: else fi;
    seen = news;
#else
    /* crew.rt: let turn = match self.dispatcher.turn(self.rt, signal.news()) { */
    /* news_count.rt: count: self.count.load(Ordering::SeqCst), */
    seen = news;
    /* dispatcher.rt: if self.signal.is_over() { */
    if
    /* dispatcher.rt: let desk = self.lock(rt); */
    /* The run of the desk is over too, since whoever sets the flag has the lock. */
    :: over -> atomic { !locked -> goto leave }
    :: else
    fi;
#endif

    /* station.rt: if let Some(token) = self.take() { */
    /* LaneOwner::take looks at the front, moves it on, and puts it back where a thief was quicker. */
    if
    :: front[me] >= back[me] -> goto steal
    :: else
    fi;
    d_step { at = front[me]; front[me] = at + 1 };
    if
    :: at < back[me] -> goto start
    :: else -> front[me] = at
    fi;

steal:  /* Station::steal: a patient worker may pass over a lane. LaneThief::try_steal reads the front, then the back, and then
         * moves the front if it is as read. */
    /* look.rt: for source in sources.iter_mut() { */
    lane = (me + 1) % WORKERS;
    do
    :: lane == me -> break
    :: else ->
        /* station.rt: if self.goes_on(signal) && patient { */
        if
        :: passed < PATIENCE ->
#ifdef PASSED_AS_EMPTY
            skip
#else
            unsure = true
#endif
        /* station.rt: Found::of_steal(self.end.try_steal()) */
        :: at = front[lane];
            if
            :: back[lane] <= at
            :: else ->
                if
                :: d_step { front[lane] == at -> front[lane] = at + 1 }; goto start
                /* look.rt: Steal::Retry => Found::Unsure, */
                :: d_step { front[lane] != at -> unsure = true }
                fi
            fi
        fi;
        lane = (lane + 1) % WORKERS
    od;
    if
    :: d_step { unsure && passed < PATIENCE -> passed++; at = 0 }
    :: d_step { !(unsure && passed < PATIENCE) -> passed = 0; at = 0 }
    fi;
    /* crew.rt: Next::Again => signal.pause(station.passed), */
    if :: unsure -> goto again :: else fi;

#ifdef COUNT_LAST
    seen = news;
#endif
    /* crew.rt: signal.wait(self.rt, idle); */
    /* signal.rt: if self.news() != seen { */
    /* Many looks without news are as one. */
    if :: news != seen -> goto again :: else fi;
    /* signal.rt: self.asleep.fetch_add(1, Ordering::SeqCst); */
    asleep++;
    /* signal.rt: let seen = self.news.sleep(rt, seen); */
    /* news_count.rt: self.count.park(rt, (seen.count % (1 << 32)) as u32); */
    /* AtomicU64::park compares and falls asleep in one step. */
    atomic {
        if
        :: news == seen -> assert(!woken); parked[me] = true
        :: else
        fi
    };
#ifdef SPURIOUS
    parked[me] = false;
#else
    !parked[me];
#endif
    /* signal.rt: self.asleep.fetch_sub(1, Ordering::SeqCst); */
    asleep--;
    goto again;

start:  /* Crew::run_segments, then the kernel */
    /* crew.rt: let mut started = self.dispatcher.lock(self.rt).start(worker, segment)?; */
    atomic { !locked -> computes[me] = true; at = 0; lane = 0; passed = 0 };

kernel:
    /* crew.rt: let computed = match self.gated.call(started) { */
    if
    :: d_step { computes[me] = false }
    :: d_step { faults > 0 -> faults--; computes[me] = false };
        /* crew.rt: return Some(desk.end_by_fault(&self.dispatcher.signal, worker, fault)); */
        end_by();
        goto leave
    fi;

    /* crew.rt: let next = station.take(); */
    /* as above */
    if
    :: front[me] >= back[me]
    :: else ->
        d_step { at = front[me]; front[me] = at + 1 };
        if
        :: at < back[me] -> busy = true
        :: else -> front[me] = at
        fi
    fi;

    /* Desk::hand_over, which ends all behind the lock where the run is finished or the finish is refused, and which
     * starts the next token's segment where the run goes on */
    /* crew.rt: .lock(self.rt) */
    atomic { !locked -> locked = true };
    /* desk.rt: let ready = match computed.finish(&mut self.core, worker) { */
    if
    :: faults > 0 -> faults--;
        /* desk.rt: self.end(signal); */
        end_all();
        locked = false;
        goto leave
    :: atomic { true ->
            open--;
            select(tokens : 0 .. later);
            if
            :: tokens == 0 && open == 0 && later > 0 -> tokens = 1
            :: else
            fi;
            later = later - tokens;
            open = open + tokens
        }
    fi;
    /* desk.rt: if self.core.is_finished() { */
    if
    :: open == 0 -> end_all()
    :: else
    fi;
    /* desk.rt: Some(segment) if !self.over => Ok((ready, self.start(worker, segment))), */
    if
    :: busy && over -> busy = false
    :: else
    fi;
    locked = false;
    at = 0;
    /* station.rt: if !self.put(*token) { */
    do
    :: at < tokens -> d_step { back[me]++; at++ }
    :: else -> break
    od;
    /* crew.rt: let told = signal.tell(ready.len(), started.is_some()); */
    /* signal.rt: let others = if is_busy { */
#ifndef BUSY_AS_IDLE
    if
    :: busy || tokens == 0
    :: else -> tokens--
    fi;
#else
    if
    :: tokens == 0
    :: else -> tokens--
    fi;
#endif
    tell(tokens);
    d_step { at = 0; tokens = 0; someone = false };
    if
    :: busy -> d_step { busy = false; computes[me] = true }; goto kernel
    :: else -> goto again
    fi;

leave:
    ended[me] = true
}

/* work_all: starts the threads one by one, and none after one that is refused */
init {
    byte next;
    back[0] = 1;                                    /* open_stations */
    /* crew.rt: for station in stations { */
    do
    /* crew.rt: let spawned = scope.spawn_with(EndOf { worker }, work); */
    :: next < WORKERS -> run worker(next); next++
    :: next < WORKERS && faults > 0 ->
        faults--;
        /* crew.rt: .end_by(crew.rt, WorkerEnd::no_memory(worker)); */
        end_by();
        do
        :: next < WORKERS -> d_step { ended[next] = true; next++ }
        :: else -> break
        od
    :: else -> break
    od;
    started = true
}

#if WORKERS == 1
#define ALL(what) (what(0))
#define ANY(what) (what(0))
#elif WORKERS == 2
#define ALL(what) (what(0) && what(1))
#define ANY(what) (what(0) || what(1))
#elif WORKERS == 3
#define ALL(what) (what(0) && what(1) && what(2))
#define ANY(what) (what(0) || what(1) || what(2))
#else
#define ALL(what) (what(0) && what(1) && what(2) && what(3))
#define ANY(what) (what(0) || what(1) || what(2) || what(3))
#endif
#define SLEEPS(w) (parked[w])
#define RESTS(w) (parked[w] || ended[w])
#define RESTS_OR_COMPUTES(w) (parked[w] || ended[w] || computes[w])
#define HAS_TOKEN(w) (front[w] < back[w])

/* Nobody is left to wake a sleeper: it sleeps for ever, unless the system lets it return for no reason. */
#define STUCK (started && ANY(SLEEPS) && ALL(RESTS))

/* A worker sleeps, a token lies in a lane, and all who are awake are in their kernels. */
#define PASSED_OVER (ANY(SLEEPS) && ANY(HAS_TOKEN) && ALL(RESTS_OR_COMPUTES))

active proctype watch() {
end:
    if
    :: atomic { STUCK -> assert(false) }
    :: atomic { PASSED_OVER -> assert(false) }
    fi
}
