/*
 * Ping-pong: two threads on neighbouring tiles send a number to and fro, and each adds 1. Each ends with the last
 * number that it got.
 *
 * Build: mkjob --shape 1 1 2 1 1 1 ping.c -o ping.job
 */
#include <tinsel.h>

#define ROUNDS 100

static void send_number(uint32_t to, uint32_t number)
{
	uint32_t *message = tinsel_send_slot();

	tinsel_wait_until(TINSEL_CAN_SEND);
	*message = number;
	tinsel_send(to);
}

static uint32_t receive_number(void)
{
	tinsel_wait_until(TINSEL_CAN_RECV);
	const uint32_t *message = tinsel_recv();
	const uint32_t number = *message;

	tinsel_free(message);
	return number;
}

int main(void)
{
	const uint32_t first = tinsel_thread(tinsel_tile(0, 0, 0, 0), 0, 0);
	const uint32_t second = tinsel_thread(tinsel_tile(0, 0, 1, 0), 0, 0);
	const uint32_t me = tinsel_hart_id();
	uint32_t number = 0;

	for (int round = 0; round < ROUNDS; round++) {
		if (me == first)
			send_number(second, number + 1);
		number = receive_number();
		if (me == second)
			send_number(first, number + 1);
	}
	return number;
}
