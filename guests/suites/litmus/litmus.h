/* What Linux's litmus tests call, as this machine's instructions, by the mapping of the Linux kernel for RISC-V.
   A file includes this once for each KIND of access: PLAIN, ATOMIC (all loads and stores by AMO) or RESERVED (by LR and SC).
   `gap()` stands before each access: some turns of another number each time, or nothing. */
#define place_of(place) ((volatile int *)&(place))

typedef int atomic_t;
typedef int spinlock_t;

#define fence_by(before, after) __asm__ volatile("fence " #before "," #after ::: "memory")
#define smp_mb() fence_by(rw, rw)
#define smp_wmb() fence_by(w, w)
#define smp_rmb() fence_by(r, r)
#define smp_mb__after_spinlock() smp_mb()
#define smp_mb__after_atomic() smp_mb()
#define smp_mb__before_atomic() smp_mb()
#define rcu_read_lock() ((void)0)
#define rcu_read_unlock() ((void)0)

static inline int swap_word(volatile int *place, int value)
{
    int old;
    __asm__ volatile("amoswap.w.aqrl %0, %2, %1" : "=r"(old), "+A"(*place) : "r"(value) : "memory");
    return old;
}

static inline int add_word(volatile int *place, int value)
{
    int old;
    __asm__ volatile("amoadd.w.aqrl %0, %2, %1" : "=r"(old), "+A"(*place) : "r"(value) : "memory");
    return old;
}

static inline int reserve_word(volatile int *place)
{
    int old;
    __asm__ volatile("lr.w.aq %0, %1" : "=r"(old) : "A"(*place) : "memory");
    return old;
}

/* Stores conditionally until one store is carried out; the value that it took the place of. */
static inline int exchange_word(volatile int *place, int value)
{
    int old, failed;
    __asm__ volatile("1: lr.w %0, %2\n sc.w.rl %1, %3, %2\n bnez %1, 1b\n fence rw, rw"
                     : "=&r"(old), "=&r"(failed), "+A"(*place) : "r"(value) : "memory");
    return old;
}

/* The new value takes the place of the wanted one, and of no other. */
static inline int compare_word(volatile int *place, int wanted, int value)
{
    int old, failed;
    __asm__ volatile("1: lr.w %0, %2\n bne %0, %3, 2f\n sc.w.rl %1, %4, %2\n bnez %1, 1b\n fence rw, rw\n2:"
                     : "=&r"(old), "=&r"(failed), "+A"(*place) : "r"(wanted), "r"(value) : "memory");
    return old;
}

static inline int add_unless(volatile int *place, int value, int unless)
{
    int old, failed, sum;
    __asm__ volatile("1: lr.w %0, %3\n beq %0, %5, 2f\n addw %2, %0, %4\n sc.w.rl %1, %2, %3\n bnez %1, 1b\n"
                     " fence rw, rw\n2:"
                     : "=&r"(old), "=&r"(failed), "=&r"(sum), "+A"(*place) : "r"(value), "r"(unless) : "memory");
    return old != unless;
}

static inline void lock_word(volatile int *place)
{
    while (swap_word(place, 1))
        ;
}

#define READ_ONCE(place) ({ gap(); __typeof__(place) value_ = *(volatile __typeof__(place) *)&(place); value_; })
#define WRITE_ONCE(place, value) ({ gap(); *(volatile __typeof__(place) *)&(place) = (value); })
#define smp_load_acquire(place) ({ int got_ = READ_ONCE(*(place)); fence_by(r, rw); got_; })
#define smp_store_release(place, value) ({ fence_by(rw, w); WRITE_ONCE(*(place), value); })
#define rcu_dereference(place) READ_ONCE(place)
#define rcu_assign_pointer(place, value) ({ fence_by(rw, w); WRITE_ONCE(place, value); })
#define atomic_read(place) READ_ONCE(*(place))
#define atomic_set(place, value) WRITE_ONCE(*(place), value)
#define atomic_inc(place) ({ gap(); (void)add_word(place, 1); })
#define atomic_add_unless(place, value, unless) ({ gap(); add_unless(place, value, unless); })
#define xchg(place, value) ({ gap(); swap_word(place, value); })
#define cmpxchg(place, wanted, value) ({ gap(); compare_word(place, wanted, value); })
#define spin_lock(place) ({ gap(); lock_word(place); })
#define spin_unlock(place) ({ fence_by(rw, w); WRITE_ONCE(*(place), 0); })
#define spin_is_locked(place) READ_ONCE(*(place))
