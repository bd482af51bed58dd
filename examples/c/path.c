/*
 * Shortest paths: a vertex has the length of the shortest path to it that is known, and an edge's value is its length.
 * A vertex whose length falls sends it by its pin. At the end each vertex sends its length to the host.
 *
 * Build: mkjob --shape 2 1 2 2 1 2 --graph path.graph path.c -o path.job
 */
#include <polite.h>

struct vertex {
	uint32_t length;
};

struct message {
	uint16_t key;
	uint32_t vertex;	/* used at the end */
	uint32_t length;
};

POLITE_KIND(path, struct vertex, struct message);

/* The graph gives the first vertex the length 0, and all others the greatest number. */
uint32_t path_init(struct vertex *v, void *none, uint32_t zero, uint32_t vertex, uint32_t ready)
{
	return v->length == 0 ? POLITE_PIN(0) : POLITE_NOT_READY;
}

uint32_t path_send(struct vertex *v, struct message *m, uint32_t zero, uint32_t vertex, uint32_t ready)
{
	m->length = v->length;
	return POLITE_NOT_READY;
}

uint32_t path_recv(struct vertex *v, const struct message *m, uint32_t value, uint32_t vertex, uint32_t ready)
{
	if (m->length + value >= v->length)
		return ready;
	v->length = m->length + value;
	return POLITE_PIN(0);
}

/* Nothing is left to do at rest: the second field says that the vertex is not active. */
struct polite_step path_step(struct vertex *v, void *none, uint32_t zero, uint32_t vertex, uint32_t ready)
{
	return (struct polite_step){ .ready = ready, .active = 0 };
}

uint32_t path_finish(struct vertex *v, struct message *m, uint32_t zero, uint32_t vertex, uint32_t ready)
{
	m->vertex = vertex;
	m->length = v->length;
	return POLITE_MESSAGE;
}
