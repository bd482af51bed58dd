/*
 * Handlers of a graph's vertices in C. docs/PROGRAMMING.md has a graph from the start.
 *
 * A kind of vertices has five handlers. Each gets its vertex's state, a message where there is one, the value of the
 * edge, the vertex's number (from 0, in the order of the graph's lines) and its readiness. A handler has no static data,
 * and a string or a table of constants is static data: `mkjob` refuses a graph's program that has any.
 *
 * `mkjob` makes the job, `tinsel map` shows its places, and `tinsel run` runs it.
 */
#ifndef POLITE_H
#define POLITE_H

#include <stddef.h>
#include <stdint.h>

/* A vertex's readiness: to send nothing, or to send on a pin, from 0. Any other value traps BadPin. */
#define POLITE_NOT_READY 0u
#define POLITE_PIN(pin) ((uint32_t)(pin) + 1u)

/* What a finish handler returns: whether it wrote a message for the host. */
#define POLITE_NO_MESSAGE 0u
#define POLITE_MESSAGE 1u

/* What a step handler returns: the readiness, and whether the vertex wants another step if nothing else happens. */
struct polite_step {
	uint32_t ready;
	uint32_t active;
};

/*
 * Declares the handlers of a kind, which has a state and sends and receives messages of one type. The first field of the
 * message is `uint16_t key`: the machine writes the local key there on the way. A handler without a message gets a null
 * pointer; the value is 0 but in recv.
 *
 *   KIND_init    at the start; returns the readiness
 *   KIND_send    writes a message for the pin of its readiness; returns the new readiness
 *   KIND_recv    reads a message that came by an edge; returns the readiness
 *   KIND_step    at rest, if a vertex is active; returns the readiness and whether the vertex stays active
 *   KIND_finish  at rest, if no vertex is active; may write a message for the host
 *
 * The two arrays take no memory of the machine. They say the words of a state and the bytes of a message to `mkjob`,
 * which compares them with the graph.
 */
#define POLITE_KIND(kind, state, message)                                                                         \
	_Static_assert(sizeof(state) % 4 == 0, "the state of " #kind " is no whole number of words");             \
	_Static_assert(offsetof(message, key) == 0 && sizeof(((message *)0)->key) == 2,                           \
		       "the first field of the message of " #kind " is not `uint16_t key`");                      \
	POLITE_SIZE(kind##_state_words, sizeof(state) / 4);                                                       \
	POLITE_SIZE(kind##_message_bytes, sizeof(message));                                                       \
	uint32_t kind##_init(state *, void *none, uint32_t zero, uint32_t vertex, uint32_t ready);                \
	uint32_t kind##_send(state *, message *, uint32_t zero, uint32_t vertex, uint32_t ready);                 \
	uint32_t kind##_recv(state *, const message *, uint32_t value, uint32_t vertex, uint32_t ready);          \
	struct polite_step kind##_step(state *, void *none, uint32_t zero, uint32_t vertex, uint32_t ready);      \
	uint32_t kind##_finish(state *, message *, uint32_t zero, uint32_t vertex, uint32_t ready)

#define POLITE_SIZE(name, size) \
	__attribute__((used, section(".polite"))) const uint8_t name[size] = { 0 }

#endif
