/*
 * An all-to-all sum: each thread sends its value to every thread, by one multicast to each tile, and adds the values
 * that it gets. Every thread ends with the same sum.
 *
 * Build: mkjob --shape 2 1 2 2 1 4 sum.c -o sum.job
 */
#include <tinsel.h>

#define BOARDS 2
#define SIDE 2
#define TILES (BOARDS * SIDE * SIDE)
#define THREADS 4

static uint32_t tile_at(uint32_t k)
{
	return tinsel_tile(k / (SIDE * SIDE), 0, k % SIDE, k / SIDE % SIDE);
}

/* The value of a thread: the square of its address, modulo 1000. */
static uint32_t value_of(uint32_t thread)
{
	return thread * thread % 1000;
}

int main(void)
{
	const uint64_t all = tinsel_mask_of_tile(1, THREADS);
	uint32_t *slot = tinsel_send_slot();
	uint32_t sent = 0, received = 0, sum = 0;

	*slot = value_of(tinsel_hart_id());
	while (sent < TILES || received < TILES * THREADS) {
		tinsel_wait_until(sent < TILES ? TINSEL_CAN_SEND | TINSEL_CAN_RECV : TINSEL_CAN_RECV);
		if (sent < TILES && tinsel_can_send())
			tinsel_multicast(tile_at(sent++), all);
		while (tinsel_can_recv()) {
			const uint32_t *message = tinsel_recv();

			sum += *message;
			received++;
			tinsel_free(message);
		}
	}
	return sum;
}
