/*
 * A stencil over a mesh. Each thread has a block of cells, with a rim of the neighbours' cells. In a step each thread
 * sends the four edges of its block, and is idle until the whole machine is at rest: then all edges have come. Then each
 * cell becomes the mean of itself and its four neighbours. Cells outside the mesh are 0. Each thread ends with the sum of
 * its cells, each times a weight.
 *
 * Build: mkjob --shape 2 1 2 2 1 4 stencil.c -o stencil.job
 */
#include <tinsel.h>

#define STEPS 10
#define SIZE 8		/* cells of a block's side */
#define COLUMNS 4	/* blocks of the mesh: two boards of two tiles */
#define ROWS 8		/* two tiles of four threads */

enum side { WEST, EAST, NORTH, SOUTH, SIDES };

struct edge {
	uint32_t side;		/* of the receiver's block */
	int32_t cells[SIZE];
};

static int32_t cells[SIZE + 2][SIZE + 2];	/* the block with its rim */

static uint32_t thread_at(uint32_t column, uint32_t row)
{
	const uint32_t tile = tinsel_tile(column / 2, 0, column % 2, row / 4);

	return tinsel_thread(tile, 0, row % 4);
}

/* The k-th cell of an edge of the block, or of the rim next to it. */
static int32_t *edge_cell(enum side side, int k, int in_rim)
{
	const int low = in_rim ? 0 : 1, high = in_rim ? SIZE + 1 : SIZE;

	switch (side) {
	case WEST: return &cells[k + 1][low];
	case EAST: return &cells[k + 1][high];
	case NORTH: return &cells[low][k + 1];
	default: return &cells[high][k + 1];
	}
}

static void send_edge(uint32_t to, enum side side, enum side side_there)
{
	struct edge *edge = tinsel_send_slot();

	tinsel_wait_until(TINSEL_CAN_SEND);
	edge->side = side_there;
	for (int k = 0; k < SIZE; k++)
		edge->cells[k] = *edge_cell(side, k, 0);
	tinsel_send(to);
}

static void receive_edges(void)
{
	while (tinsel_can_recv()) {
		const struct edge *edge = tinsel_recv();

		for (int k = 0; k < SIZE; k++)
			*edge_cell(edge->side, k, 1) = edge->cells[k];
		tinsel_free(edge);
	}
}

static void exchange(uint32_t column, uint32_t row)
{
	if (column > 0)
		send_edge(thread_at(column - 1, row), WEST, EAST);
	if (column + 1 < COLUMNS)
		send_edge(thread_at(column + 1, row), EAST, WEST);
	if (row > 0)
		send_edge(thread_at(column, row - 1), NORTH, SOUTH);
	if (row + 1 < ROWS)
		send_edge(thread_at(column, row + 1), SOUTH, NORTH);
	while (tinsel_idle(0) == TINSEL_LETTER)
		receive_edges();
}

static void compute(void)
{
	static int32_t next[SIZE + 2][SIZE + 2];

	for (int y = 1; y <= SIZE; y++) {
		for (int x = 1; x <= SIZE; x++)
			next[y][x] = (cells[y][x] + cells[y][x - 1] + cells[y][x + 1] + cells[y - 1][x] + cells[y + 1][x]) / 5;
	}
	for (int y = 1; y <= SIZE; y++) {
		for (int x = 1; x <= SIZE; x++)
			cells[y][x] = next[y][x];
	}
}

int main(void)
{
	const uint32_t me = tinsel_hart_id();
	const uint32_t column = tinsel_board_x(me) * 2 + tinsel_tile_x(me);
	const uint32_t row = tinsel_tile_y(me) * 4 + tinsel_thread_number(me);
	uint32_t sum = 0;

	for (uint32_t y = 0; y < SIZE; y++) {
		for (uint32_t x = 0; x < SIZE; x++)
			cells[y + 1][x + 1] = (column * SIZE + x) * 37 % 101 * ((row * SIZE + y) * 53 % 97);
	}
	tinsel_set_flits((sizeof(struct edge) + TINSEL_FLIT_BYTES - 1) / TINSEL_FLIT_BYTES);
	for (int step = 0; step < STEPS; step++) {
		exchange(column, row);
		compute();
	}
	for (int y = 1; y <= SIZE; y++) {
		for (int x = 1; x <= SIZE; x++)
			sum += cells[y][x] * (x + SIZE * y);
	}
	return sum;
}
