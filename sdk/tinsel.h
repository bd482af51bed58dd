/*
 * Threads of the machine in C: its control registers as functions, and its addresses.
 *
 * docs/MACHINE.md has the rules, and docs/PROGRAMMING.md a program for each feature. A function's comment names the
 * control register that the function uses, and the trap if there is one. A thread that traps ends the run.
 */
#ifndef TINSEL_H
#define TINSEL_H

#include <stdint.h>

/* Bytes of a flit, and of a message slot in a job of version 1 and of version 2. */
#define TINSEL_FLIT_BYTES 16u
#define TINSEL_SLOT_BYTES 64u
#define TINSEL_SLOT_BYTES_2 128u

/* The address of the host, as the destination of a send. */
#define TINSEL_HOST 0x40000000u

/* What tinsel_wait_until waits for; the two may be joined by |. */
#define TINSEL_CAN_SEND 1u
#define TINSEL_CAN_RECV 2u

/* What tinsel_idle returns. */
enum tinsel_answer {
	TINSEL_LETTER = 0,	/* a letter came */
	TINSEL_REST = 1,	/* rest was announced, and a thread voted against the end */
	TINSEL_END = 2,		/* rest was announced, and all threads voted for the end */
};

#define TINSEL_INLINE static inline __attribute__((always_inline))

/* The two instructions on control registers. "memory": the message is written before, and read after. */
#define TINSEL_CSR(instruction) \
	".option push\n\t.option arch, +zicsr\n\t" instruction "\n\t.option pop"
#define TINSEL_WRITE(number, value) \
	__asm__ volatile (TINSEL_CSR("csrrw x0, %0, %z1") : : "i" (number), "rJ" (value) : "memory")
#define TINSEL_READ(number, value) \
	__asm__ volatile (TINSEL_CSR("csrrs %0, %1, x0") : "=r" (value) : "i" (number) : "memory")

/* HartId: the thread's own address. */
TINSEL_INLINE uint32_t tinsel_hart_id(void)
{
	uint32_t id;

	__asm__ (TINSEL_CSR("csrrs %0, %1, x0") : "=r" (id) : "i" (0xf14));
	return id;
}

/* CanSend: 1 if no send of this thread is pending, else 0. */
TINSEL_INLINE uint32_t tinsel_can_send(void)
{
	uint32_t can;

	TINSEL_READ(0x800, can);
	return can;
}

/* CanRecv: 1 if a letter for this thread is in its queue, else 0. */
TINSEL_INLINE uint32_t tinsel_can_recv(void)
{
	uint32_t can;

	TINSEL_READ(0x801, can);
	return can;
}

/* SendSlot: the place of the message to send, 64 bytes, or 128 in version 2; it keeps its bytes after a send. */
TINSEL_INLINE void *tinsel_send_slot(void)
{
	void *slot;

	__asm__ (TINSEL_CSR("csrrs %0, %1, x0") : "=r" (slot) : "i" (0x80c));
	return slot;
}

/* SendLen: later messages have so many flits, 1 to 4, or to 8 in version 2; 1 at the start. Higher bits are dropped. */
TINSEL_INLINE void tinsel_set_flits(uint32_t flits)
{
	TINSEL_WRITE(0x802, flits - 1);
}

/*
 * SendDest, Send: sends the send slot's message to a thread, or to TINSEL_HOST.
 * Traps SendBusy if a send is pending, BadDest if the machine has no such thread.
 */
TINSEL_INLINE void tinsel_send(uint32_t dest)
{
	TINSEL_WRITE(0x803, dest);
	TINSEL_WRITE(0x806, 0);
}

/*
 * SendDest, MaskLow, MaskHigh, Send: sends the message to the threads of a mask on one tile.
 * Traps SendBusy as tinsel_send does, BadDest if the tile or a thread is not there, or if the mask is 0.
 */
TINSEL_INLINE void tinsel_multicast(uint32_t tile, uint64_t mask)
{
	TINSEL_WRITE(0x803, tile);
	TINSEL_WRITE(0x804, (uint32_t)mask);
	TINSEL_WRITE(0x805, (uint32_t)(mask >> 32));
	TINSEL_WRITE(0x806, 1);
}

/*
 * SendDest, Send: sends the message by a key; the board's table says to whom. Traps SendBusy as tinsel_send does.
 * A key that names no beats of the table ends the run with `badkey`.
 */
TINSEL_INLINE void tinsel_keyed_send(uint32_t key)
{
	TINSEL_WRITE(0x803, key);
	TINSEL_WRITE(0x806, 2);
}

/*
 * Recv: takes the first letter of the queue. The message can be read until tinsel_free.
 * Traps RecvEmpty if the queue is empty. A store to the message traps BadAddress.
 */
TINSEL_INLINE const void *tinsel_recv(void)
{
	const void *message;

	TINSEL_READ(0x807, message);
	return message;
}

/* Free: gives up a message that tinsel_recv returned. Traps BadFree if this thread does not hold the message. */
TINSEL_INLINE void tinsel_free(const void *message)
{
	TINSEL_WRITE(0x808, message);
}

/* WaitUntil: sleeps until one of the conditions holds: TINSEL_CAN_SEND, TINSEL_CAN_RECV or both. */
TINSEL_INLINE void tinsel_wait_until(uint32_t conditions)
{
	TINSEL_WRITE(0x809, conditions);
}

/* Idle: sleeps until a letter comes, or the machine is at rest. A vote that is not 0 is for the end. */
TINSEL_INLINE enum tinsel_answer tinsel_idle(uint32_t vote)
{
	uint32_t answer;

	__asm__ volatile (TINSEL_CSR("csrrw %0, %1, %z2")
			  : "=r" (answer) : "i" (0x80a), "rJ" (vote) : "memory");
	return (enum tinsel_answer)answer;
}

/* Kill: ends this thread with a value, for the report. Its pending send still goes out; its queue is dropped. */
TINSEL_INLINE __attribute__((noreturn)) void tinsel_exit(uint32_t value)
{
	TINSEL_WRITE(0x80b, value);
	__builtin_unreachable();
}

/* The address of tile (tile_x, tile_y) of board (board_x, board_y). */
TINSEL_INLINE uint32_t tinsel_tile(uint32_t board_x, uint32_t board_y, uint32_t tile_x, uint32_t tile_y)
{
	return board_y << 12 | board_x << 10 | tile_y << 8 | tile_x << 6;
}

/* The address of a thread of a core of a tile. */
TINSEL_INLINE uint32_t tinsel_thread(uint32_t tile, uint32_t core, uint32_t thread)
{
	return tile | core << 4 | thread;
}

/* The address of the tile of a thread. */
TINSEL_INLINE uint32_t tinsel_tile_of(uint32_t thread)
{
	return thread & ~63u;
}

/* The mask of one thread among those of its tile; masks are joined by |. */
TINSEL_INLINE uint64_t tinsel_mask(uint32_t core, uint32_t thread)
{
	return 1ull << (core * 16 + thread);
}

/* The mask of a tile's threads, of so many cores and threads a core. */
TINSEL_INLINE uint64_t tinsel_mask_of_tile(uint32_t cores, uint32_t threads)
{
	const uint64_t core = (1ull << threads) - 1;
	uint64_t mask = 0;

	for (uint32_t k = 0; k < cores; k++)
		mask |= core << (16 * k);
	return mask;
}

/* The parts of a thread's address. */
TINSEL_INLINE uint32_t tinsel_thread_number(uint32_t thread) { return thread & 15; }
TINSEL_INLINE uint32_t tinsel_core(uint32_t thread) { return thread >> 4 & 3; }
TINSEL_INLINE uint32_t tinsel_tile_x(uint32_t thread) { return thread >> 6 & 3; }
TINSEL_INLINE uint32_t tinsel_tile_y(uint32_t thread) { return thread >> 8 & 3; }
TINSEL_INLINE uint32_t tinsel_board_x(uint32_t thread) { return thread >> 10 & 3; }
TINSEL_INLINE uint32_t tinsel_board_y(uint32_t thread) { return thread >> 12 & 3; }

#endif
