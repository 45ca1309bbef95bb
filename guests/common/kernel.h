/* What a guest has of its machine: registers, calls to SecVisor, console, disk, page tables. */
#ifndef KERNEL_H
#define KERNEL_H

typedef unsigned char u8;
typedef unsigned int u32;
typedef unsigned long u64;

#define PAGE 4096ul
/* A function that the compiler neither inlines nor looks into. */
#define NOINLINE __attribute__((noipa))
/* User code, and the bytes that it reads. */
#define USER __attribute__((section(".user"), noipa, used))
/* Code that runs once and then retires. */
#define INIT __attribute__((section(".init.text"), noipa))

#define csr_read(name) ({ u64 v_; __asm__ volatile("csrr %0, " #name : "=r"(v_)); v_; })
#define csr_write(name, v) __asm__ volatile("csrw " #name ", %0" ::"r"((u64)(v)) : "memory")
#define csr_set(name, v) __asm__ volatile("csrs " #name ", %0" ::"r"((u64)(v)) : "memory")
#define csr_clear(name, v) __asm__ volatile("csrc " #name ", %0" ::"r"((u64)(v)) : "memory")

#define INTERRUPT (1ul << 63)
#define SOFTWARE 1
#define TIMER 5
#define EXTERNAL 9
#define USER_CALL 8
#define STATUS_SIE 2ul
#define STATUS_USER_BEFORE 0x100ul /* SPP: set where the trap came from kernel mode */

/* The registers of trapped code; x[0] is its pc. */
struct frame { u64 x[32]; };
/* Each guest may have its own; the common one names the trap and shuts down. */
void trap(struct frame *frame, u64 cause, u64 value);
void hart_main(u64 hart, u64 opaque);
void enter_user(u64 pc, u64 sp);
int main(void);

/* Calls to SecVisor: extension, function, four arguments; the answer's error, or its value. */
struct answer { long error; u64 value; };
static inline struct answer call(u64 extension, u64 function, u64 a, u64 b, u64 c, u64 d)
{
    register u64 a0 __asm__("a0") = a, a1 __asm__("a1") = b, a2 __asm__("a2") = c, a3 __asm__("a3") = d;
    register u64 a6 __asm__("a6") = function, a7 __asm__("a7") = extension;
    __asm__ volatile("ecall" : "+r"(a0), "+r"(a1) : "r"(a2), "r"(a3), "r"(a6), "r"(a7) : "memory");
    return (struct answer){ (long)a0, a1 };
}
static inline void print_byte(u8 c) { call(1, 0, c, 0, 0, 0); }
static inline void set_timer(u64 at) { call(0, 0, at, 0, 0, 0); }
static inline void shutdown(void) { call(8, 0, 0, 0, 0, 0); }
static inline long hart_start(u64 hart, u64 at, u64 opaque) { return call(0x48534D, 0, hart, at, opaque, 0).error; }
static inline u64 hart_status(u64 hart) { return call(0x48534D, 2, hart, 0, 0, 0).value; }
static inline long send_ipi(u64 mask) { return call(0x735049, 0, mask, 0, 0, 0).error; }
#define SECVISOR 0x08534543ul
static inline long module_load(u64 id, u64 gpa, u64 va, u64 data) { return call(SECVISOR, 0, id, gpa, va, data).error; }
static inline long module_unload(u64 id) { return call(SECVISOR, 1, id, 0, 0, 0).error; }
static inline long retire(void) { return call(SECVISOR, 2, 0, 0, 0, 0).error; }

void put(const char *text);
void put_hex(u64 value);
void put_number(long value);
/* A label and a number in a line. */
void tell(const char *label, long value);
/* Some thousand turns that do nothing, for what comes from outside. */
static inline void busy(void)
{
    for (volatile int i = 0; i < 1000; i++)
        ;
}

#define CONSOLE ((volatile u8 *)0x10000000)

/* The disk's commands; each waits for its end and gives the status. */
#define DISK_DONE 2
#define DISK_DENIED 3
u32 disk_read(u64 sector, u64 gpa, u32 count);
u32 disk_write(u64 sector, u64 gpa, u32 count);

/* Places of the image. */
extern char _start[], trap_vector[], init_start[], init_end[], user_start[], user_end[], free_start[];

/* Page tables of three levels, one page of 4 KiB at a time. */
#define PTE_V 1ul
#define PTE_R 2ul
#define PTE_W 4ul
#define PTE_X 8ul
#define PTE_U 16ul
#define PTE_AD 0xC0ul
#define RX (PTE_V | PTE_R | PTE_X | PTE_AD)
#define RW (PTE_V | PTE_R | PTE_W | PTE_AD)
u64 *entry(u64 va);
void map(u64 va, u64 gpa, u64 bits);
/* Text RX, all other RAM RW, devices RW, at their own addresses; then paging is on. */
void paging_on(void);
u64 new_page(void);
static inline void fence(void) { __asm__ volatile("sfence.vma" ::: "memory"); }
/* Under paging: the user's code at its own addresses, a page of stack, and then user mode. */
static inline void run_user(void (*user)(void))
{
    for (u64 page = (u64)user_start; page < (u64)user_end; page += PAGE)
        map(page, page, RX | PTE_U);
    u64 stack = new_page();
    map(stack, stack, RW | PTE_U);
    fence();
    enter_user((u64)user, stack + PAGE);
}

#endif
